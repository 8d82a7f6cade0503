"""The numbers of a DSA key: whether they are what FIPS 186-4 (section 4.1) wants, because every signature rests on that.

Libraries that read keys look at the sizes of the numbers. With a `y` of 1, or a `g` of a small order, anybody can sign.
"""
from __future__ import annotations

import secrets
from functools import lru_cache
from typing import Optional

from cryptography.exceptions import UnsupportedAlgorithm
from cryptography.hazmat.primitives.asymmetric import dh

# The sizes with which `cryptography` checks signatures. No greater number is computed with.
P_BITS = (1024, 2048, 3072, 4096)
Q_BITS = (160, 224, 256)
# A number that isn't prime passes with a chance of at most 4 to the power of -64, whoever chose it (FIPS 186-4, C.3.1).
ROUNDS = 64
# Numbers that would make a domain, but that p is the product of three primes. By each base up to 112 it passes Miller-Rabin
# (the way of F. Arnault, "Rabin-Miller primality test: composite numbers which pass it", 1995).
_Q = (1 << 159) + 299
_FIRST = 0x179aff0ede822d67c467003f2c621694b7f35a2df6817cbbc4161064c89a9391ad20bf65b274268f95913
_OTHERS = (101, 137)


def key_fault(p: int, q: int, g: int, y: int) -> Optional[str]:
    """What is wrong with the numbers of a public key, or None. What takes little time is looked at first."""
    for name, number, sizes in (("p", p, P_BITS), ("q", q, Q_BITS)):
        if number < 0 or number.bit_length() not in sizes:
            return f"its number {name} has {number.bit_length()} bits, and not {', '.join(map(str, sizes[:-1]))} or {sizes[-1]}"
    if (p - 1) % q:
        return "its number q doesn't divide p - 1"
    for name, number in (("g", g), ("y", y)):
        if not 1 < number < p:
            return f"its number {name} isn't between 1 and p"
        if pow(number, q, p) != 1:
            return f"its number {name} to the power of q isn't 1 modulo p"
    return prime_fault(p, q, g)


@lru_cache(maxsize=64)
def prime_fault(p: int, q: int, g: int) -> Optional[str]:
    """Which of p and q isn't prime, or None, for numbers that are right otherwise. Of one domain this is found once."""
    if not is_prime(q):
        return "its number q isn't prime"
    if not (is_prime_by_library(p, q, g) or is_prime(p)):
        return "its number p isn't prime"
    return None


def is_prime(number: int) -> bool:
    """Miller-Rabin with random bases (FIPS 186-4, section C.3.1)."""
    if number < 4 or number % 2 == 0:
        return number in (2, 3)
    twos = (number - 1 & 1 - number).bit_length() - 1
    odd = number - 1 >> twos
    return all(passes(number, secrets.randbelow(number - 3) + 2, odd, twos) for _ in range(ROUNDS))


def passes(number: int, base: int, odd: int, twos: int) -> bool:
    """Whether a number, 1 more than `odd` times 2 to the power of `twos`, may be prime as far as one base shows."""
    power = pow(base, odd, number)
    if power in (1, number - 1):
        return True
    for _ in range(twos - 1):
        power = power * power % number
        if power == number - 1:
            return True
    return False


def is_prime_by_library(p: int, q: int, g: int) -> bool:
    """Whether the library says that p is prime, in a tenth of the time. What it denies isn't decided by that."""
    return is_library_strict() and is_library_content(p, q, g)


@lru_cache(maxsize=1)
def is_library_strict() -> bool:
    """Whether the library refuses a p that isn't prime, as another version of it may not, or not by bases by chance."""
    second, third = (it * (_FIRST - 1) + 1 for it in _OTHERS)
    p = _FIRST * second * third
    return not is_library_content(p, _Q, pow(2, (_FIRST - 1) // _Q * _OTHERS[0] * _OTHERS[1], p))


def is_library_content(p: int, q: int, g: int) -> bool:
    """Whether the library takes the numbers for a domain of Diffie-Hellman, which is one of DSA: DH_check of OpenSSL tests
    p with random bases, at least 64 of them."""
    numbers = dh.DHPublicNumbers(g, dh.DHParameterNumbers(p, g, q))
    try:
        dh.DHPrivateNumbers(1, numbers).private_key()
    except (ValueError, TypeError, UnsupportedAlgorithm):
        return False
    return True
