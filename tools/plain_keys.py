#!/usr/bin/env python3
"""Makes MACs, digests and challenges, and reads form texts and members: answers the cases of crates/vectors of that.

    tools/plain_keys.py answers   reads cases of pairs, members, hmac, verdict, digest and challenge from standard
                                  input, and answers each: a line each; any other line comes back as it came

It is a second reader beside oidc_keys, oidc_pairs, oidc_members and the challenge of oidc_oauth2, over Python's hashlib,
hmac and base64, plain_records.py and plain_claims.py: URL Standard section 5, RFC 2104, RFC 7518 section 3.1, RFC 8037
section 3.1, RFC 7636 sections 4.1 and 4.2, RFC 8259.
"""
import base64
import hashlib
import hmac
import re

from plain_records import NoCase, members_of, ok, pairs, read_case, run_reader
from plain_tokens import SIGNING

MACS = {"HS256": "sha256", "HS384": "sha384", "HS512": "sha512"}


def bytes_in(text):
    if not re.fullmatch("([0-9A-Fa-f]{2})*", text):
        raise NoCase
    return bytes.fromhex(text)


def algorithm_in(text, known):
    if text not in known:
        raise NoCase
    return text


def form_pairs(line):
    return ok(pairs(read_case(line, {"text"})[0]["text"]))


def members(line):
    found = members_of(read_case(line, {"text"})[0]["text"].encode())
    return ok([pair for member in found for pair in (("name", member.name), ("text", member.text))])


def mac_answer(line):
    found, _ = read_case(line, {"alg", "key", "message"})
    alg = algorithm_in(found["alg"], MACS)
    mac = hmac.new(bytes_in(found["key"]), bytes_in(found["message"]), MACS[alg])
    return ok([("mac", mac.hexdigest())])


def verdict(line):
    """A secret's verdict: it is no key of an algorithm of another key type, and `none` has no key at all."""
    found, _ = read_case(line, {"key", "alg", "message", "signature"})
    alg = algorithm_in(found["alg"], SIGNING)
    key, message, signature = (bytes_in(found[name]) for name in ("key", "message", "signature"))
    if alg not in MACS:
        return "refused unsupported_alg" if alg == "none" else "refused invalid_key"
    return "ok" if hmac.new(key, message, MACS[alg]).digest() == signature else "refused crypto_error"


def digest(line):
    """The hash function of an algorithm is that of its size."""
    found, _ = read_case(line, {"alg", "text"})
    size = algorithm_in(found["alg"], SIGNING)[-3:]
    if size not in ("256", "384", "512"):
        return "refused unsupported"
    return ok([("digest", hashlib.new("sha" + size, found["text"].encode()).hexdigest())])


def challenge(line):
    verifier = read_case(line, {"verifier"})[0]["verifier"].encode()
    if not 43 <= len(verifier) <= 128:
        return "refused length"
    made = base64.urlsafe_b64encode(hashlib.sha256(verifier).digest()).decode().rstrip("=")
    return ok([("challenge", made), ("method", "S256")])


OPERATIONS = {"pairs": form_pairs, "members": members, "hmac": mac_answer, "verdict": verdict, "digest": digest,
              "challenge": challenge}


if __name__ == "__main__":
    run_reader(__doc__, OPERATIONS)
