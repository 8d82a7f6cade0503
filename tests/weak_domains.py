"""Public keys of DSA with which anybody can sign, or whose numbers are none of DSA, by arithmetic (FIPS 186-4, section 4.1).

Each has the sizes that a library looks at, but for those whose fault is a size. The number `CARMICHAEL` was searched for
once, and so were those of `PSEUDOPRIMES` but the first, which was published; `check_constants` says what they are.
"""
from __future__ import annotations

import math
import secrets
from typing import Iterator, List, NamedTuple, Optional, Tuple

from dsa_model import HASHES, Key, Pair, spell

# Primes of which each is 1 more than a multiple of this prime of 160 bits.
Q = (1 << 159) + 299
# (6 m + 1)(12 m + 1)(18 m + 1) is a number of Carmichael: Fermat's test takes it for a prime by nearly every base.
CARMICHAEL = 0x38974e200bc6eec468d67e3b9ab2f360297669d49da49edb82b1becce50adf3b5e0482a0da9a01dcc1c2c
# A prime of 223 bits more, for a q of 224 bits.
Q_224 = (1 << 223) + 189


class Pseudoprime(NamedTuple):
    """A product of three primes that passes Miller-Rabin by each base up to a limit, by the way of F. Arnault, "Rabin-Miller
    primality test: composite numbers which pass it" (1995): the second and the third prime are 1 more than multiples of the
    first one less 1."""

    what: str
    first: int
    multipliers: Tuple[int, int]
    limit: int
    """The greatest base that is tried."""
    q: int = 0
    """The prime that divides the number less 1, where it is to be p of a domain."""

    @property
    def factors(self) -> Tuple[int, int, int]:
        """The three primes."""
        second, third = (it * (self.first - 1) + 1 for it in self.multipliers)
        return self.first, second, third

    @property
    def number(self) -> int:
        """The number, which isn't prime."""
        return math.prod(self.factors)


PSEUDOPRIMES = (
    Pseudoprime("the number of 397 digits that Arnault published", int(
        "29674495668685510550154174642905332730771991799853043350995075531276838753171770199594238596428121188033664754218345562493"
        "168782883"), (313, 353), 306),
    Pseudoprime("of 1024 bits", 0x179aff0ede822d67c467003f2c621694b7f35a2df6817cbbc4161064c89a9391ad20bf65b274268f95913, (101, 137),
                112, Q),
    Pseudoprime("of 160 bits", 0x29f2dbd0de5c3, (41, 61), 28),
    Pseudoprime("of 256 bits", 0x21bff77cb3611d5b4c743, (73, 89), 52),
)
SMALL = [it for it in range(3, 2000) if all(it % other for other in range(2, int(it ** 0.5) + 1))]


class Weak(NamedTuple):
    """A key that has to be refused."""

    what: str
    key: Key
    why: str
    """What the refusal says."""


def passes(number: int, base: int) -> bool:
    """One round of Miller-Rabin."""
    odd, twos = number - 1, 0
    while odd % 2 == 0:
        odd, twos = odd // 2, twos + 1
    power = pow(base, odd, number)
    return power == 1 or any(pow(power, 1 << it, number) == number - 1 for it in range(twos))


def is_prime(number: int) -> bool:
    """Whether a number is prime, by 40 bases."""
    return number > 3 and all(number % it for it in SMALL if it < number) and number % 2 == 1 \
        and all(passes(number, secrets.randbelow(number - 3) + 2) for _ in range(40))


def prime(bits: int, divisor: int = 1) -> int:
    """A new prime of so many bits, 1 more than a multiple of another number."""
    while True:
        number = ((3 << bits - 2) + secrets.randbits(bits - 2)) // (2 * divisor) * 2 * divisor + 1
        if number.bit_length() == bits and is_prime(number):
            return number


def element(p: int, q: int, order_of_all: int) -> int:
    """A number whose power of q is 1 modulo p, and which isn't 1 itself, where a power of `order_of_all` always is 1."""
    while True:
        found = pow(secrets.randbelow(p - 3) + 2, order_of_all // q, p)
        if found != 1:
            return found


def check_constants() -> None:
    """That the constants are what they are said to be."""
    assert is_prime(Q)
    factors = [it * CARMICHAEL + 1 for it in (6, 12, 18)]
    p = factors[0] * factors[1] * factors[2]
    assert all(map(is_prime, factors)) and CARMICHAEL % Q == 0
    assert all((p - 1) % (it - 1) == 0 for it in factors) and pow(2, p - 1, p) == 1 and p.bit_length() == 1024
    assert is_prime(Q_224) and Q_224.bit_length() == 224
    for it in PSEUDOPRIMES:
        assert all(map(is_prime, it.factors)) and not is_prime(it.number)
        assert all(passes(it.number, base) for base in range(2, it.limit + 1))
        assert not it.q or (it.number - 1) % it.q == 0


def pseudoprime_of_base_2(bits: int) -> int:
    """A product of so many bits of two primes k + 1 and 2 k + 1, which passes Miller-Rabin by the base 2, and not by 3."""
    while True:
        first = ((1 << bits // 2 - 1) + secrets.randbits(bits // 2 - 2)) // 2 * 2 + 1
        second = 2 * first - 1
        if any(first % it == 0 or second % it == 0 for it in SMALL) or not (passes(first, 2) and passes(second, 2)):
            continue
        number = first * second
        if number.bit_length() == bits and passes(number, 2) and not passes(number, 3) and is_prime(first) and is_prime(second):
            return number


def common_order(*factors: int) -> int:
    """A number to whose power each number without a common divisor is 1 modulo the product of primes that differ."""
    order = 1
    for it in factors:
        order *= (it - 1) // math.gcd(order, it - 1)
    return order


def weak_keys(good: Pair) -> Iterator[Weak]:
    """Keys with one fault each, beside a good one."""
    check_constants()
    yield from weak_numbers(good)
    yield from composite_numbers(good)
    yield from wrong_sizes(good)


def weak_numbers(good: Pair) -> Iterator[Weak]:
    """Keys of a good domain whose y or g is wrong."""
    p, q, g, y = good.key
    order = "its number {} to the power of q isn't 1 modulo p"
    outside = "its number {} isn't between 1 and p"
    for name, make in (("y", lambda it: Key(p, q, g, it)), ("g", lambda it: Key(p, q, it, y))):
        for what, number in (("0", 0), ("1", 1), ("p", p), ("p + 1", p + 1)):
            yield Weak(f"{name} is {what}", make(number), outside.format(name))
        yield Weak(f"{name} is p - 1", make(p - 1), order.format(name))
        for factor in small_factors((p - 1) // q):
            yield Weak(f"{name} has the order {factor}", make(element(p, factor, p - 1)), order.format(name))
        good_one = y if name == "y" else g
        yield Weak(f"{name} has the order 2 q", make(p - good_one), order.format(name))
        yield Weak(f"{name} is greater by p", make(good_one + p), outside.format(name))
        yield Weak(f"{name} is any number", make(secrets.randbelow(p - 3) + 2), order.format(name))
    yield Weak("g and y are 1", Key(p, q, 1, 1), outside.format("g"))
    yield Weak("g and y are 0", Key(p, q, 0, 0), outside.format("g"))
    yield Weak("g and y are p - 1", Key(p, q, p - 1, p - 1), order.format("g"))


def small_factors(number: int) -> List[int]:
    """Odd primes that divide a number."""
    return [it for it in SMALL if number % it == 0]


def composite_numbers(good: Pair) -> Iterator[Weak]:
    """Keys whose p or q isn't prime, or whose q divides nothing, and all whose other equations hold."""
    p, q, g, y = good.key
    yield Weak("q doesn't divide p - 1", Key(p, prime(q.bit_length()), g, y), "its number q doesn't divide p - 1")
    two = 2 * prime(159)
    p_even = prime(1024, two)
    even = Key(p_even, two, element(p_even, two, p_even - 1), element(p_even, two, p_even - 1))
    yield Weak("q is even", even, "its number q isn't prime")
    for what, q_bad in (("q is the product of two primes", prime(80) * prime(80)), ("q is the square of a prime", prime(80) ** 2),
                        ("q is a product of three primes", prime(54) * prime(53) * prime(53))):
        if q_bad.bit_length() == 160:
            p_bad = prime(1024, q_bad)
            yield Weak(what, Key(p_bad, q_bad, *(element(p_bad, q_bad, p_bad - 1) for _ in range(2))), "its number q isn't prime")
    yield from pseudoprimes()
    r, s = prime(512, Q), prime(512, Q)
    m = CARMICHAEL
    for what, factors in (
            ("p is the product of two primes", (r, s)),
            ("p is the square of a prime", (r, r)),
            ("p is a number of Carmichael", (6 * m + 1, 12 * m + 1, 18 * m + 1))):
        product, order = factors[0], factors[0] - 1
        for it in factors[1:]:
            order *= (it - 1) // math.gcd(order, it - 1) * (it if it == product else 1)
            product *= it
        g_bad, y_bad = element(product, Q, order), element(product, Q, order)
        yield Weak(what, Key(product, Q, g_bad, y_bad), "its number p isn't prime")


def pseudoprimes() -> Iterator[Weak]:
    """Keys whose p or q isn't prime, and passes Miller-Rabin by bases that are the same each time."""
    not_q, not_p = "its number q isn't prime", "its number p isn't prime"
    for bits in (160, 256):
        q = pseudoprime_of_base_2(bits)
        p = prime(1024, q)
        yield Weak(f"q of {bits} bits passes by the base 2", Key(p, q, *(element(p, q, p - 1) for _ in range(2))), not_q)
    for it in PSEUDOPRIMES:
        what, number = f"{{}} is a pseudoprime, {it.what}, and passes by each base up to {it.limit}", it.number
        if number.bit_length() in (160, 256):
            p = prime(1024, number)
            yield Weak(what.format("q"), Key(p, number, *(element(p, number, p - 1) for _ in range(2))), not_q)
            continue
        # what was published has a size that no key has, and its p - 1 has no prime of 160 bits that is known
        g, y = (element(number, it.q, common_order(*it.factors)) if it.q else number - 2 for _ in range(2))
        yield Weak(what.format("p"), Key(number, it.q or Q, g, y), not_p if it.q else
                   f"its number p has {number.bit_length()} bits, and not 1024, 2048, 3072 or 4096")


def wrong_sizes(good: Pair) -> Iterator[Weak]:
    """Keys whose p or q is too short or too long. They needn't be prime: that isn't looked at."""
    p, q, g, y = good.key
    for bits in (1, 512, 1000, 1023, 1025, 2047, 4097, 8192, 15360, 1 << 16, 1 << 18):
        number = (1 << bits) - 1
        yield Weak(f"p of {bits} bits", Key(number, q, g, y), f"its number p has {bits} bits, and not 1024, 2048, 3072 or 4096")
    for bits in (1, 128, 159, 161, 255, 257, 512):
        number = (1 << bits) - 1
        yield Weak(f"q of {bits} bits", Key(p, number, g, y), f"its number q has {bits} bits, and not 160, 224 or 256")


def forged(key: Key, octets: bytes, version: bytes) -> Optional[bytes]:
    """A signature that fulfils the equation of DSA, made without a private key, or None where none was found.

    With u1 and u2 by chance, r is g^u1 * y^u2. Then s is made for one of the two, and the other comes out otherwise. That
    doesn't matter where the powers of g, or those of y, have few values.
    """
    p, q, g, y = key
    if p.bit_length() > 1024 or min(p, q) < 2:
        return None
    digest = HASHES[version](octets).digest()
    hashed = int.from_bytes(digest, "big") >> max(0, 8 * len(digest) - q.bit_length())
    for turn in range(40):
        u1, u2 = (secrets.randbelow(q - 1) + 1 for _ in range(2))
        r = pow(g, u1, p) * pow(y, u2, p) % p % q
        if not r or math.gcd(u1 * u2, q) != 1:
            continue
        s = (hashed * pow(u1, -1, q) if turn % 2 else r * pow(u2, -1, q)) % q
        if math.gcd(s, q) == 1 and fulfils(key, hashed, r, s):
            return spell(r) + spell(s)
    return None


def fulfils(key: Key, hashed: int, r: int, s: int) -> bool:
    """The equation of FIPS 186-4, section 4.7, without a look at the key."""
    p, q, g, y = key
    w = pow(s, -1, q)
    return pow(g, hashed * w % q, p) * pow(y, r * w % q, p) % p % q == r
