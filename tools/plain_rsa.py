#!/usr/bin/env python3
"""Judges RSA signatures, and what keys of a provider say: answers the cases of crates/vectors_keys.

    tools/plain_rsa.py answers   reads cases of rsa, provider_verdict, provider_key and provider_digest from standard
                                 input, and answers each: a line each; any other line comes back as it came

It is a second reader beside oidc_rsa, over Python's whole numbers, hashlib and hmac: RFC 8017 sections 8.1.2, 8.2.2,
9.1.2 and 9.2 and appendix B.2.1, RFC 7518 sections 3.2, 3.3 and 3.5, RFC 7517 sections 4.1 to 4.5.
"""
import hashlib
import hmac

from plain_keys import MACS, algorithm_in, bytes_in
from plain_records import NoCase, ok, read_case, run_reader
from plain_tokens import SIGNING

# The object identifiers of the hash functions, under 2.16.840.1.101.3.4.2 (FIPS 180-4).
HASHES = {"256": ("sha256", 1), "384": ("sha384", 2), "512": ("sha512", 3)}
ALGORITHMS = [scheme + size for scheme in ("RS", "PS") for size in HASHES]


def digest(size, message):
    return hashlib.new(HASHES[size][0], message).digest()


def tagged(tag, content):
    """DER of a short value."""
    return bytes([tag, len(content)]) + content


def pkcs1_encoding(size, message, length):
    """EMSA-PKCS1-v1_5-ENCODE."""
    name = tagged(0x06, bytes([0x60, 0x86, 0x48, 0x01, 0x65, 0x03, 0x04, 0x02, HASHES[size][1]]))
    info = tagged(0x30, tagged(0x30, name + tagged(0x05, b"")) + tagged(0x04, digest(size, message)))
    return b"\x00\x01" + b"\xff" * (length - 3 - len(info)) + b"\x00" + info


def mask(size, seed, length):
    """MGF1."""
    made, counter = b"", 0
    while len(made) < length:
        made += digest(size, seed + counter.to_bytes(4, "big"))
        counter += 1
    return made[:length]


def pss_encoding(size, message, bits, salt):
    """EMSA-PSS-ENCODE (section 9.1.1), with a salt that is given."""
    length = (bits + 7) // 8
    tag = digest(size, bytes(8) + digest(size, message) + salt)
    block = bytes(length - len(salt) - len(tag) - 2) + b"\x01" + salt
    hidden = int.from_bytes(block, "big") ^ int.from_bytes(mask(size, tag, len(block)), "big")
    hidden &= (1 << bits - 8 * (len(tag) + 1)) - 1
    return hidden.to_bytes(len(block), "big") + tag + b"\xbc"


def is_pss(size, message, bits, number):
    """Looks for the salt in the encoded message, and encodes anew with it."""
    length, hash_length = (bits + 7) // 8, int(size) // 8
    if number >> 8 * length:
        return False
    encoded = number.to_bytes(length, "big")
    hidden, tag = encoded[:-hash_length - 1], encoded[-hash_length - 1:-1]
    shown = int.from_bytes(hidden, "big") ^ int.from_bytes(mask(size, tag, len(hidden)), "big")
    salt = (shown & (1 << 8 * hash_length) - 1).to_bytes(hash_length, "big")
    return pss_encoding(size, message, bits, salt) == encoded


def key_fault(modulus, exponent):
    """Why no key is made of these octets."""
    n, e = int.from_bytes(modulus, "big"), int.from_bytes(exponent, "big")
    if not modulus or modulus[0] == 0 or not 2048 <= n.bit_length() <= 8192 or n % 2 == 0:
        return "modulus"
    return "exponent" if not 3 <= e <= 2 ** 32 or e % 2 == 0 else None


def accepts(modulus, exponent, alg, message, signature):
    n, e, s = (int.from_bytes(octets, "big") for octets in (modulus, exponent, signature))
    if len(signature) != len(modulus) or s >= n:
        return False
    number, size = pow(s, e, n), alg[2:]
    if alg.startswith("RS"):
        return number.to_bytes(len(modulus), "big") == pkcs1_encoding(size, message, len(modulus))
    return is_pss(size, message, n.bit_length() - 1, number)


def rsa(line):
    """A key's verdict, or why there is none."""
    found, _ = read_case(line, {"n", "e", "alg", "message", "signature"})
    alg = algorithm_in(found["alg"], ALGORITHMS)
    modulus, exponent, message, signature = (bytes_in(found[name]) for name in ("n", "e", "message", "signature"))
    fault = key_fault(modulus, exponent)
    if fault:
        return "refused " + fault
    return "ok" if accepts(modulus, exponent, alg, message, signature) else "refused crypto_error"


# ---- keys of a provider's set (RFC 7517 section 4), by what they accept

KEY_NAMES = {"n", "e", "secret", "kid", "use", "key_ops", "own_alg"}
KEY_OPERATIONS = {"sign", "verify", "encrypt", "decrypt", "wrapKey", "unwrapKey", "deriveKey", "deriveBits"}


class ProviderKey:
    """The key of a line: what it accepts by the algorithms that it is for, and what it says of itself."""

    def __init__(self, found):
        self.found, self.operations = found, found.get("key_ops", "").split(" ") if found.get("key_ops") else []
        self.own = algorithm_in(found["own_alg"], SIGNING) if "own_alg" in found else None
        made_of = {name for name in ("n", "e", "secret") if name in found}
        if made_of not in ({"n", "e"}, {"secret"}) or not set(self.operations) <= KEY_OPERATIONS:
            raise NoCase
        self.octets = [bytes_in(found[name]) for name in sorted(made_of, reverse=True)]
        if "n" in made_of and key_fault(*self.octets):
            raise NoCase
        self.type, self.algorithms = ("RSA", ALGORITHMS) if "n" in made_of else ("oct", list(MACS))

    def is_for(self, alg):
        """It is one of the key's type, and neither `use` nor `key_ops` nor `alg` of the key says otherwise."""
        return (alg in self.algorithms and self.own in (None, alg) and self.found.get("use", "sig") == "sig"
                and ("key_ops" not in self.found or "verify" in self.operations))

    def accepts(self, alg, message, signature):
        if self.type == "RSA":
            return accepts(*self.octets, alg, message, signature)
        return hmac.new(self.octets[0], message, MACS[alg]).digest() == signature


def provider_verdict(line):
    found, _ = read_case(line, {"alg", "message", "signature"}, KEY_NAMES)
    alg = algorithm_in(found["alg"], SIGNING)
    message, signature = bytes_in(found["message"]), bytes_in(found["signature"])
    key = ProviderKey(found)
    if not key.is_for(alg):
        return "refused unsupported_alg" if alg == "none" else "refused invalid_key"
    return "ok" if key.accepts(alg, message, signature) else "refused crypto_error"


def provider_key(line):
    found, _ = read_case(line, set(), KEY_NAMES)
    key = ProviderKey(found)
    said = [(name, found[name]) for name in ("kid", "use") if name in found]
    return ok([("kty", key.type), *said, ("debug", "ProviderKey([redacted])")])


def provider_digest(line):
    """The hash function of an algorithm is that of its size, whatever the key."""
    found, _ = read_case(line, {"alg", "text"}, KEY_NAMES)
    ProviderKey(found)
    size = algorithm_in(found["alg"], SIGNING)[-3:]
    if size not in HASHES:
        return "refused unsupported"
    return ok([("digest", digest(size, found["text"].encode()).hex())])


OPERATIONS = {"rsa": rsa, "provider_verdict": provider_verdict, "provider_key": provider_key,
              "provider_digest": provider_digest}


if __name__ == "__main__":
    run_reader(__doc__, OPERATIONS)
