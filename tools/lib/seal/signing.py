"""The operator's key: Ed25519 signatures by python3-cryptography, with keys as PEM files that openssl reads too."""

from collections.abc import Callable, Mapping

from cryptography.exceptions import InvalidSignature, UnsupportedAlgorithm
from cryptography.hazmat.primitives import serialization
from cryptography.hazmat.primitives.asymmetric.ed25519 import Ed25519PrivateKey, Ed25519PublicKey

from .heads import Head

# The keys for which anyone can make signatures, without the bit of the sign: the points of order 1, 2, 4 and 8.
SMALL = {
    bytes(32),
    bytes([1]) + bytes(31),
    bytes.fromhex("26e8958fc2b227b045c3f489f2ef98f0d5dfac05d3c63339b13802886d53fc05"),
    bytes.fromhex("c7176a703d4dd84fba3c0b760d10670f2a2053fa2c39ccc64ec7fd7792ac037a"),
    *(bytes([last]) + bytes([255]) * 30 + bytes([127]) for last in (236, 237, 238)),
}
BEGIN = b"-----BEGIN "
FORM = "of Ed25519 in PEM without a password"


class BadKey(Exception):
    """The text isn't a key."""


class Keys:
    """Public keys, each with a name."""

    def __init__(self, keys: Mapping[str, Ed25519PublicKey]) -> None:
        self.keys = keys  # by name

    def signer(self, head: Head) -> str | None:
        return next((name for name, key in self.keys.items() if is_signed(key, head)), None)


def signer_name(key: Ed25519PublicKey | Keys, head: Head) -> str | None:
    """The name of the key, or of one of the keys, that signed a head. A key by itself has an empty name."""
    if isinstance(key, Keys):
        return key.signer(head)
    return "" if is_signed(key, head) else None


def draw_key() -> Ed25519PrivateKey:
    return Ed25519PrivateKey.generate()


def private_bytes(key: Ed25519PrivateKey) -> bytes:
    return key.private_bytes(serialization.Encoding.PEM, serialization.PrivateFormat.PKCS8, serialization.NoEncryption())


def public_bytes(key: Ed25519PrivateKey) -> bytes:
    """The public half of a private key."""
    return key.public_key().public_bytes(serialization.Encoding.PEM, serialization.PublicFormat.SubjectPublicKeyInfo)


def parse_private(data: bytes) -> Ed25519PrivateKey:
    key = parse_key(data, lambda data: serialization.load_pem_private_key(data, None))
    if not isinstance(key, Ed25519PrivateKey):
        raise BadKey(f"it isn't a private key {FORM}")
    return key


def parse_public(data: bytes) -> Ed25519PublicKey:
    key = parse_key(data, serialization.load_pem_public_key)
    if not isinstance(key, Ed25519PublicKey):
        raise BadKey(f"it isn't a public key {FORM}")
    raw = key.public_bytes(serialization.Encoding.Raw, serialization.PublicFormat.Raw)
    if raw[:31] + bytes([raw[31] & 127]) in SMALL:
        raise BadKey("its order is small: anyone can sign for it")
    return key


def parse_key(data: bytes, load: Callable[[bytes], object]) -> object:
    """The key of any kind, if the text has one."""
    try:
        return load(data) if data.count(BEGIN) == 1 else None
    except (ValueError, TypeError, UnsupportedAlgorithm):
        return None


def head_with_signature(key: Ed25519PrivateKey, head: Head) -> Head:
    return head._replace(signature=key.sign(head.signed_bytes()))


def is_signed(public_key: Ed25519PublicKey, head: Head) -> bool:
    """Whether the head's signature is by the private half of the key. OpenSSL's check is the one without the cofactor."""
    try:
        public_key.verify(head.signature, head.signed_bytes())
    except InvalidSignature:
        return False
    return True
