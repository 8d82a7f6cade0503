"""DSA keys and their signatures, all of whose numbers `cryptography` handles (RFC 5848, section 4.2.8)."""
from __future__ import annotations

import hashlib
from typing import Any, List, NamedTuple, Optional, Tuple

from .der import Bad
from .faults import Fault
from .files import pem_parts, read_file

try:
    from cryptography.exceptions import InvalidSignature, UnsupportedAlgorithm
    from cryptography.hazmat.primitives import hashes, serialization
    from cryptography.hazmat.primitives.asymmetric import dsa
except ImportError as missing:
    raise Fault("the Python module cryptography is missing; on Debian and Ubuntu "
                "`apt-get install python3-cryptography` installs it") from missing
from .domain import key_fault
from .kinds import algorithm_of, what_is
from .schemes import SCHEMES, SHA1, SHA256, USUAL
from .signatures import read_der, read_sign, spell_der, spell_sign

# The hash of each scheme, as the library has it.
HASHES = {SHA1.ver: hashes.SHA1, SHA256.ver: hashes.SHA256}
# What `cryptography` raises for a text that spells no key that it knows.
NO_KEY = (ValueError, TypeError, UnsupportedAlgorithm)
# What is wanted of a file.
PRIVATE_KEY = "a DSA private key in PEM"
PUBLIC_KEY = "a DSA public key in PEM"


class Numbers(NamedTuple):
    """The numbers of a public key, in the order in which a payload of the type K states them."""

    p: int
    q: int
    g: int
    y: int


class PublicKey:
    """A public key, which can be handed to another process."""

    def __init__(self, numbers: Numbers) -> None:
        """Raises ValueError where a key of DSA can't have these numbers."""
        self.numbers = numbers
        fault = key_fault(*numbers)
        if fault:
            raise ValueError(fault)
        self._key = library_key(numbers)

    def __reduce__(self) -> Tuple[Any, ...]:
        """The numbers stand for the key, because that of `cryptography` doesn't go from process to process."""
        return checked_key, (self.numbers,)

    @property
    def fingerprint(self) -> str:
        """The SHA-256 of the key's SubjectPublicKeyInfo in DER (RFC 5280, section 4.1), in hexadecimal digits."""
        return fingerprint_of(self._key)

    def pem(self) -> bytes:
        """The key, as `read_public_keys` takes it."""
        return self._key.public_bytes(serialization.Encoding.PEM, serialization.PublicFormat.SubjectPublicKeyInfo)

    def is_signature(self, octets: bytes, version: bytes, signature: bytes) -> bool:
        """Whether the value of SIGN is this key's signature of the octets, by the hash that VER names."""
        return self.signature_fault(octets, version, signature) is None

    def signature_fault(self, octets: bytes, version: bytes, signature: bytes) -> Optional[str]:
        """Why the value of SIGN isn't this key's signature of the octets, as the end of a sentence; None where it is."""
        q = self.numbers.q
        hashed = HASHES[version]
        if q.bit_length() > SCHEMES[version].hash_bits:
            return "is over a hash that is shorter than the number q of the key"
        try:
            self._key.verify(spell_der(read_sign(signature, q)), octets, hashed())
        except Bad as fault:
            return str(fault)
        except InvalidSignature:
            return "isn't valid under the public key"
        except UnsupportedAlgorithm as fault:
            raise Fault(f"cryptography checks no signature with {hashed.name} here: {fault}") from fault
        return None


def library_key(numbers: Numbers) -> dsa.DSAPublicKey:
    """A key of `cryptography`, which looks at the sizes of the numbers. Raises ValueError where they are others."""
    p, q, g, y = numbers
    # the types of cryptography before version 40 give `public_key` to another class, as two methods below
    public: Any = dsa.DSAPublicNumbers(y, dsa.DSAParameterNumbers(p, q, g))
    key: dsa.DSAPublicKey = public.public_key()
    return key


def checked_key(numbers: Numbers) -> PublicKey:
    """A key whose numbers another process has checked."""
    key = PublicKey.__new__(PublicKey)
    key.numbers = numbers
    key._key = library_key(numbers)
    return key


def fingerprint_of(key: dsa.DSAPublicKey) -> str:
    """The SHA-256 of a key's SubjectPublicKeyInfo in DER."""
    spelled = key.public_bytes(serialization.Encoding.DER, serialization.PublicFormat.SubjectPublicKeyInfo)
    return hashlib.sha256(spelled).hexdigest()


def stated_fingerprint(numbers: Numbers) -> Optional[str]:
    """The fingerprint of a key that nobody trusts, and whose numbers aren't checked; None where no key has their sizes."""
    try:
        return fingerprint_of(library_key(numbers))
    except NO_KEY:
        return None


class PrivateKey:
    """A private key without a passphrase."""

    def __init__(self, key: dsa.DSAPrivateKey) -> None:
        """Raises ValueError where a key of DSA can't have these numbers."""
        self._key = key
        # for `private_numbers` and `private_bytes`
        self._serialized: Any = key
        self.public = PublicKey(numbers_of(key.public_key()))
        p, q, g, y = self.public.numbers
        x: int = self._serialized.private_numbers().x
        if not 0 < x < q or pow(g, x, p) != y:
            raise ValueError("its public number y isn't that of its private number x")

    @classmethod
    def generate(cls, key_bits: int, q_bits: int) -> PrivateKey:
        """A new key, whose p and q have so many bits."""
        try:
            key = cls(dsa.generate_private_key(key_bits))
        except NO_KEY as fault:
            raise Fault(f"cryptography makes no DSA key of {key_bits} bits here: {fault}") from fault
        if key.public.numbers.q.bit_length() != q_bits:
            raise Fault(f"cryptography makes no DSA key of {key_bits} bits here whose number q has {q_bits}")
        return key

    def sign(self, octets: bytes, version: bytes) -> bytes:
        """The value of SIGN. Raises Fault where the hash that VER names is shorter than q, and where the signature that the
        library made isn't valid."""
        hashed, hash_bits = HASHES[version], SCHEMES[version].hash_bits
        q_bits = self.public.numbers.q.bit_length()
        if q_bits > hash_bits:
            raise Fault(f"VER {version.decode()} has a hash of {hash_bits} bits, and the number q of the key has {q_bits}: "
                        f"use --ver {USUAL.name}, or another key")
        try:
            spelled = self._key.sign(octets, hashed())
        except UnsupportedAlgorithm as fault:
            raise Fault(f"cryptography doesn't sign with {hashed.name} here: {fault}") from fault
        try:
            signature = spell_sign(read_der(spelled, self.public.numbers.q))
            is_right = self.public.is_signature(octets, version, signature)
        except Bad:
            is_right = False
        if not is_right:
            raise Fault("cryptography made a signature that isn't valid here, so nothing is signed")
        return signature

    def pem(self) -> bytes:
        """The key without a passphrase, as `read_private_key` takes it."""
        text: bytes = self._serialized.private_bytes(serialization.Encoding.PEM, serialization.PrivateFormat.PKCS8,
                                                     serialization.NoEncryption())
        return text


def numbers_of(key: dsa.DSAPublicKey) -> Numbers:
    """The numbers of a key of `cryptography`."""
    public = key.public_numbers()
    parameters = public.parameter_numbers
    return Numbers(parameters.p, parameters.q, parameters.g, public.y)


def read_private_key(path: str) -> PrivateKey:
    """The key in a file of PEM. Raises Fault where there is none, or one that is no DSA key or has a passphrase."""
    text = read_file(path, PRIVATE_KEY, is_private=True)
    what = what_is(text)
    if "encrypted" in what:
        raise Fault(f"{path} holds {what}: {PRIVATE_KEY} without a passphrase is wanted")
    if b"PRIVATE KEY-----" not in text or "SSH" in what:
        raise Fault(f"{path} holds {what}: {PRIVATE_KEY} is wanted")
    try:
        key = serialization.load_pem_private_key(text, None)
    except NO_KEY as fault:
        raise Fault(f"the private key in {path} can't be read: {one_line(fault)}") from fault
    if not isinstance(key, dsa.DSAPrivateKey):
        raise Fault(no_dsa(path, key))
    try:
        return PrivateKey(key)
    except NO_KEY as fault:
        raise Fault(f"the key in {path} can't be used: {one_line(fault)}") from fault


def no_dsa(path: str, key: object) -> str:
    """The sentence for a key of another kind."""
    return f"{path} holds a key of {algorithm_of(key)}: signed syslog has DSA keys alone (RFC 5848, section 4.2.8)"


def read_pem_keys(path: str, text: bytes) -> List[PublicKey]:
    """The public keys in a text of PEM, at least one. Raises Fault where one is no DSA key."""
    what = what_is(text)
    if b"PRIVATE KEY-----" in text:
        what = what if "private" in what else "a private key"
        raise Fault(f"{path} holds {what}: signatures are checked with the public key alone")
    parts = pem_parts(text, "PUBLIC KEY")
    if not parts:
        if what == "a public key":
            raise Fault(f"{path} breaks off in a public key: its line -----END PUBLIC KEY----- is missing")
        hint = ", or give it with --cert or --ca" if what == "a certificate" else ""
        raise Fault(f"{path} holds {what}: {PUBLIC_KEY} is wanted{hint}")
    return [read_pem_key(path, part) for part in parts]


def read_pem_key(path: str, part: bytes) -> PublicKey:
    """The public key of one part of a text of PEM."""
    try:
        key = serialization.load_pem_public_key(part)
    except NO_KEY as fault:
        raise Fault(f"the public key in {path} can't be read: {one_line(fault)}") from fault
    if not isinstance(key, dsa.DSAPublicKey):
        raise Fault(no_dsa(path, key))
    try:
        return PublicKey(numbers_of(key))
    except NO_KEY as fault:
        raise Fault(f"the key in {path} can't be used: {one_line(fault)}") from fault


def one_line(fault: Exception) -> str:
    """What a library says of a failure, in one line."""
    return " ".join(str(fault).split()) or type(fault).__name__
