#!/usr/bin/env python3
"""Makes cases of RSA signatures and of a provider's keys for crates/vectors_keys, with new keys of openssl.

    tools/rsa_cases.py FOLDER        writes `stdin` and `stdout` of the groups that openssl makes into FOLDER
    tools/rsa_cases.py FOLDER NIST   and those of the folder FIPS_186-2 of Debian's python3-cryptography-vectors

An expected line comes from how the case was made: `ok` for a signature as openssl makes it, a refusal for one that was
changed; of NIST's, from its own result. No case is taken from what a program of the product writes.
"""
import hmac
import os
import random
import re
import subprocess
import sys
import tempfile

sys.dont_write_bytecode = True

from plain_rsa import HASHES, digest, pkcs1_encoding, pss_encoding

# The bits of the keys, with exponents; each signs by all six algorithms.
KEYS = [(2048, 65537), (2048, 3), (3072, 65537), (4096, 65537), (2048, 65537), (2055, 3), (2056, 65537), (2056, 65537),
        (2110, 65537), (2113, 5), (3070, 65537), (4094, 65537)]
# Of these exponents the bits between the first and the last are set too, and the last key has the most bits that a key may have.
OTHER_KEYS = [(2048, 7), (2048, 11), (2048, 65539), (2048, 4294967291), (8192, 65537)]
ROUNDS = 7


def run(*words, text=None):
    return subprocess.run(words, input=text, capture_output=True, check=True).stdout


class Key:
    """A private key that openssl made. Of odd lengths some have a bit less, and are made again."""

    def __init__(self, path, bits, exponent):
        self.path, self.n = path, 0
        while self.n.bit_length() != bits:
            run("openssl", "genpkey", "-algorithm", "RSA", "-pkeyopt", f"rsa_keygen_bits:{bits}", "-pkeyopt",
                f"rsa_keygen_pubexp:{exponent}", "-out", self.path)
            shown = run("openssl", "pkey", "-in", self.path, "-noout", "-text").decode()
            self.n = self.number(shown, "modulus")
        self.d = self.number(shown, "privateExponent")
        self.e, self.bits, self.length = exponent, bits, (bits + 7) // 8

    @staticmethod
    def number(shown, name):
        found = re.search(name + r":\n((?:\s+[0-9a-f:]+\n)+)", shown)
        return int(re.sub(r"[\s:]", "", found.group(1)), 16)

    def raised(self, encoded):
        """The signature of an encoded message."""
        return pow(int.from_bytes(encoded, "big"), self.d, self.n).to_bytes(self.length, "big")

    def recovered(self, signature):
        return pow(int.from_bytes(signature, "big"), self.e, self.n).to_bytes(self.length, "big")

    def signed(self, alg, message):
        """What openssl signs."""
        words = ["openssl", "dgst", "-" + HASHES[alg[2:]][0], "-sign", self.path, "-binary"]
        if alg.startswith("PS"):
            words += ["-sigopt", "rsa_padding_mode:pss", "-sigopt", "rsa_pss_saltlen:digest"]
        return run(*words, text=message)


def case(key, alg, message, signature, n=None, e=None):
    modulus = n if n is not None else key.n.to_bytes(key.length, "big")
    exponent = e if e is not None else key.e.to_bytes((key.e.bit_length() + 7) // 8, "big")
    return f"op=rsa&n={modulus.hex()}&e={exponent.hex()}&alg={alg}&message={message.hex()}&signature={signature.hex()}"


def flipped(octets, bit):
    """With one bit changed, counted from the end."""
    return (int.from_bytes(octets, "big") ^ 1 << bit).to_bytes(len(octets), "big")


def resigned(key, signature, place):
    """One bit of the encoded message changed, and signed again: it stays below the modulus."""
    encoded = key.recovered(signature)
    return key.raised(flipped(encoded, place))


def changed(key, alg, message, signature, turn, rng):
    """The same case with one thing changed, which is refused."""
    info, size = 8 * (19 + int(alg[2:]) // 8), int(alg[2:])
    ways = [
        lambda: (alg, message, flipped(signature, rng.randrange(8 * key.length - 16))),
        lambda: (alg, flipped(message, rng.randrange(8 * len(message))), signature),
        lambda: (alg, message, resigned(key, signature, 8 * (key.length - 4) - rng.randrange(8))),
        lambda: (alg, message, resigned(key, signature, rng.randrange(size, info) if alg < "Q" else rng.randrange(8, size))),
        lambda: (alg, message, resigned(key, signature, rng.randrange(8))),
        lambda: (alg, message, signature[1:] if turn % 2 else signature + b"\0"),
        lambda: (alg, message, b"\0" + signature),
        lambda: ({"R": "P", "P": "R"}[alg[0]] + alg[1:], message, signature),
        lambda: (alg[:2] + {"256": "384", "384": "512", "512": "256"}[alg[2:]], message, signature),
    ]
    return ways[turn % len(ways)]()


def openssl_cases(keys, rng):
    yield "# RSA: signatures that openssl 3.0 made, and each with one thing changed: signature, message, padding, hash name or hash, last octet, length, scheme, hash function.", None
    turn = 0
    for number in range(ROUNDS):
        for key in keys:
            for alg in ("RS256", "RS384", "RS512", "PS256", "PS384", "PS512"):
                message = rng.randbytes(rng.choice((1, 3, 20, 63, 64, 111, 112, 128)))
                signature = key.signed(alg, message)
                yield case(key, alg, message, signature), "ok"
                # A round has as many turns as eight times the ways to change, so each begins a way further on.
                other, said, made = changed(key, alg, message, signature, turn + number, rng)
                yield case(key, other, said, made), "refused crypto_error"
                turn += 1


def pkcs1_forgeries(key):
    """Encoded messages that a reader which parses might take."""
    message, size, length = b"forged", "256", key.length
    whole = pkcs1_encoding(size, message, length)
    info = whole[whole.index(b"\x00", 2) + 1:]
    bare = info.replace(b"\x05\x00", b"", 1).replace(b"\x30\x31", b"\x30\x2f", 1).replace(b"\x30\x0d", b"\x30\x0b", 1)
    long_null = info.replace(b"\x05\x00", b"\x05\x81\x00", 1).replace(b"\x30\x31", b"\x30\x32", 1).replace(b"\x30\x0d", b"\x30\x0e", 1)

    def padded(inner, filler=b"\xff", head=b"\x00\x01", after=b""):
        return head + filler * (length - 3 - len(inner) - len(after)) + b"\x00" + inner + after

    yield whole, "ok"
    yield padded(info, after=b"\x00" * 16), "refused crypto_error"
    yield b"\x00\x01" + b"\xff" * 8 + b"\x00" + info + b"\x5a" * (length - 11 - len(info)), "refused crypto_error"
    yield b"\x00\x01\x00" + info + bytes(length - 3 - len(info)), "refused crypto_error"
    yield padded(bare), "refused crypto_error"
    yield padded(long_null), "refused crypto_error"
    yield padded(info, head=b"\x00\x02"), "refused crypto_error"
    yield padded(info, head=b"\x00\x00"), "refused crypto_error"
    yield padded(info, filler=b"\xfe"), "refused crypto_error"
    yield padded(digest(size, message)), "refused crypto_error"
    yield pkcs1_encoding("384", message, length), "refused crypto_error"
    yield padded(info[:4] + info[4:].replace(b"\x04\x02\x01", b"\x04\x02\x02", 1)), "refused crypto_error"
    yield b"\x00\x01" + b"\xff" * (length - 2 - len(info)) + info, "refused crypto_error"


def pss_forgeries(key):
    """Encoded messages of other forms: salts of other lengths, another trailer, bits that have to be zero."""
    message, size, bits = b"forged", "256", key.bits - 1
    length = (bits + 7) // 8
    good = pss_encoding(size, message, bits, bytes(range(32)))

    def whole(encoded):
        return bytes(key.length - len(encoded)) + encoded

    yield whole(good), "ok"
    yield whole(pss_encoding(size, message, bits, bytes(32))), "ok"
    for salt in (0, 16, 20, 31, 33, 64, length - 34):
        yield whole(pss_encoding(size, message, bits, bytes(salt))), "refused crypto_error"
    yield whole(good[:-1] + b"\xcc"), "refused crypto_error"
    yield whole(good[:-1] + b"\xbd"), "refused crypto_error"
    yield whole(flipped(good, bits - 1)), "refused crypto_error"
    if bits % 8:
        yield whole(flipped(good, bits)), "refused crypto_error"
    yield whole(flipped(good, 8 * 33)), "refused crypto_error"
    yield whole(flipped(good, 8)), "refused crypto_error"


def forgeries(keys):
    yield "# RSA: encoded messages made by hand after RFC 8017 section 9, and signed: the whole one, and ones with the hash not at the end, short padding, no NULL, another NULL, other heads and fillers, another hash name; of PSS salts of other lengths, another trailer, bits that have to be zero.", None
    for key in keys:
        for encoded, expected in pkcs1_forgeries(key):
            yield case(key, "RS256", b"forged", key.raised(encoded)), expected
        for encoded, expected in pss_forgeries(key):
            if int.from_bytes(encoded, "big") < key.n:
                yield case(key, "PS256", b"forged", key.raised(encoded)), expected


def other_cases(keys, odd, rng):
    yield "# RSA: signatures that openssl 3.0 made with keys of other exponents (7, 11, 65539, 4294967291) and of 8,192 bits.", None
    for key in keys:
        for alg in ("RS256", "RS384", "RS512", "PS256", "PS384", "PS512"):
            message = rng.randbytes(40)
            signature = key.signed(alg, message)
            yield case(key, alg, message, signature), "ok"
            yield case(key, alg, message + b"!", signature), "refused crypto_error"
    yield "# RSA: an encoded message of PSS under a modulus of 2,113 bits, made by hand, where it is an octet shorter: zero above it, and one.", None
    bits = odd.bits - 1
    for number in range(256):
        good = pss_encoding("256", b"forged", bits, bytes([number] * 32))
        if int.from_bytes(b"\x01" + good, "big") < odd.n:
            break
    yield case(odd, "PS256", b"forged", odd.raised(b"\x00" + good)), "ok"
    yield case(odd, "PS256", b"forged", odd.raised(b"\x01" + good)), "refused crypto_error"


def bounds(key, rng):
    yield "# RSA: signatures at the modulus, and keys that are refused (lengths in bits, leading zeros, even numbers, exponents), by the rules of crates/oidc_rsa.", None
    message, modulus = b"bounds", key.n.to_bytes(key.length, "big")
    signature = key.signed("RS256", message)
    number = int.from_bytes(signature, "big")
    yield case(key, "RS256", message, signature), "ok"
    for other in (key.n, key.n - 1, key.n + 1, 0, 1, 2 ** (8 * key.length) - 1):
        yield case(key, "RS256", message, other.to_bytes(key.length, "big")), "refused crypto_error"
    if number + key.n < 2 ** (8 * key.length):
        yield case(key, "RS256", message, (number + key.n).to_bytes(key.length, "big")), "refused crypto_error"
    yield case(key, "RS256", message, b""), "refused crypto_error"
    yield case(key, "RS256", b"", key.signed("RS256", b"")), "ok"
    yield case(key, "RS256", message, signature, e=b"\x00\x00" + b"\x01\x00\x01"), "ok"
    for n in (b"", b"\0", b"\x05", b"\0" + modulus, modulus[:-1] + bytes([modulus[-1] ^ 1]), modulus[1:] if modulus[-1] % 2 else modulus,
              (2 ** 2047 - 1).to_bytes(256, "big"), (2 ** 8192 + 1).to_bytes(1025, "big")):
        yield case(key, "RS256", message, signature, n=n), "refused modulus"
    for n in (2 ** 2047 + 1, 2 ** 2048 - 1, 2 ** 8192 - 1, 2 ** 8191 + 1):
        length = (n.bit_length() + 7) // 8
        yield case(key, "RS256", message, rng.randbytes(length), n=n.to_bytes(length, "big")), "refused crypto_error"
        yield case(key, "PS512", message, bytes(length), n=n.to_bytes(length, "big")), "refused crypto_error"
    for e in ("", "00", "01", "02", "04", "010000", "0100000001", "0100000000", "ffffffffffffffffff", "000000010000000001"):
        yield case(key, "RS256", message, signature, e=bytes.fromhex(e)), "refused exponent"
    for e in ("03", "ffffffff", "00ffffffff"):
        yield case(key, "RS256", message, signature, e=bytes.fromhex(e)), "refused crypto_error"
    yield case(key, "RS256", message, signature, n=b"\0", e=b"\x02"), "refused modulus"


# Files of NIST's vectors, with their schemes.
NIST_FILES = [("SigGen15_186-2.rsp", "RS"), ("SigGen15_186-3.rsp", "RS"), ("SigVer15_186-3.rsp", "RS"),
              ("../SigVer15EMTest.txt", "RS"), ("SigGenPSS_186-2.rsp", "PS"), ("SigGenPSS_186-3.rsp", "PS"),
              ("SigVerPSS_186-3.rsp", "PS")]


def nist_signatures(path):
    """The fields of each signature, with the version of NIST's program and the length of salts from the head of the file."""
    fields, last = {}, "Result" if "Ver" in path else "S"
    with open(path, encoding="ascii") as lines:
        for line in lines:
            found = re.match(r"(?:# )?(CAVS|Salt len|\w+)(?::| =)? ?(.*?)\s*$", line)
            if found:
                fields[found.group(1)] = found.group(2)
                if found.group(1) == last:
                    yield fields


def nist_cases(folder):
    """Of 2,048 bits and more, with SHA-256 and above. A salt of another length than the hash is refused here."""
    for name, scheme in NIST_FILES:
        found = [dict(fields) for fields in nist_signatures(os.path.join(folder, name))]
        salt = int(found[0].get("Salt len", 0))
        what = f"; salts of {salt} octets, which no hash has, are refused." if scheme == "PS" else "."
        if "EM" in name:
            what = ": the hash isn't at the end, or no 0x00 ends the padding."
        yield (f"# RSA: NIST CAVS {found[0]['CAVS']}, {os.path.basename(name)} of python3-cryptography-vectors 38.0.4 (Debian), of 2,048 bits"
               f" and more with SHA-256, SHA-384 and SHA-512{what}"), None
        for fields in found:
            size, n, e = fields["SHAAlg"][3:], int(fields["n"], 16), int(fields["e"], 16)
            if size not in HASHES or n.bit_length() < 2048:
                continue
            accepted = fields.get("Result", "P").startswith("P") and (scheme == "RS" or salt == int(size) // 8)
            length = (n.bit_length() + 7) // 8
            octets = e.to_bytes((e.bit_length() + 7) // 8, "big")
            yield (f"op=rsa&n={n.to_bytes(length, 'big').hex()}&e={octets.hex()}&alg={scheme}{size}&message={fields['Msg']}"
                   f"&signature={fields['S'].rjust(2 * length, '0')}"), ("ok" if accepted else "refused crypto_error")


# ---- keys of a provider's set

RSA_ALGORITHMS = ("RS256", "RS384", "RS512", "PS256", "PS384", "PS512")
MAC_ALGORITHMS = ("HS256", "HS384", "HS512")
SECRET = bytes(range(1, 65))
SAID = b"header.payload"


def said_by(made_of, alg, message, signature, own=""):
    return f"op=provider_verdict&{made_of}{own}&alg={alg}&message={message.hex()}&signature={signature.hex()}"


def mac(octets, alg, message):
    return hmac.new(octets, message, "sha" + alg[2:]).digest()


class Made:
    """The names that make a public key and a secret, and what each signs."""

    def __init__(self, key):
        self.key, self.modulus = key, key.n.to_bytes(key.length, "big")
        self.rsa = f"n={self.modulus.hex()}&e={key.e.to_bytes(3, 'big').hex()}"
        self.secret = f"secret={SECRET.hex()}"

    def signed(self):
        """Of each algorithm the names of its key, and a signature."""
        for alg in RSA_ALGORITHMS:
            yield self.rsa, alg, self.key.signed(alg, SAID)
        for alg in MAC_ALGORITHMS:
            yield self.secret, alg, mac(SECRET, alg, SAID)


def accepted_once(made):
    yield "# Keys of a provider: each algorithm, by openssl 3.0 and by Python's hmac, and with one thing changed: a bit of the signature, the message, the length, the hash function.", None
    for made_of, alg, signature in made.signed():
        other = alg[:2] + {"256": "384", "384": "512", "512": "256"}[alg[2:]]
        yield said_by(made_of, alg, SAID, signature), "ok"
        yield said_by(made_of, alg, SAID, flipped(signature, 3)), "refused crypto_error"
        yield said_by(made_of, alg, SAID + b"!", signature), "refused crypto_error"
        yield said_by(made_of, alg, SAID, signature[:-1]), "refused crypto_error"
        yield said_by(made_of, alg, SAID, signature + b"\0"), "refused crypto_error"
        yield said_by(made_of, other, SAID, signature), "refused crypto_error"
    for alg in RSA_ALGORITHMS:
        other = {"R": "P", "P": "R"}[alg[0]] + alg[1:]
        yield said_by(made.rsa, other, SAID, made.key.signed(alg, SAID)), "refused crypto_error"


def confused(made):
    yield "# Keys of a provider taken for another (RFC 8725 section 2.1): a MAC under the octets of a public key (its modulus, with a zero before it, its exponent, its DER and its PEM by openssl), or under none; a secret by RSA; algorithms of other keys; none.", None
    public = [run("openssl", "pkey", "-in", made.key.path, "-pubout", "-outform", kind) for kind in ("DER", "PEM")]
    exponent = made.key.e.to_bytes(3, "big")
    for alg in MAC_ALGORITHMS:
        for octets in (made.modulus, b"\0" + made.modulus, exponent, *public, b""):
            yield said_by(made.rsa, alg, SAID, mac(octets, alg, SAID)), "refused invalid_key"
        yield said_by(made.rsa, alg, SAID, b""), "refused invalid_key"
        yield said_by(made.rsa, alg, SAID, made.key.signed("RS" + alg[2:], SAID)), "refused invalid_key"
    for alg in RSA_ALGORITHMS:
        for signature in (made.key.signed(alg, SAID), mac(SECRET, "HS" + alg[2:], SAID), b""):
            yield said_by(made.secret, alg, SAID, signature), "refused invalid_key"
        yield said_by("secret=" + made.modulus.hex(), alg, SAID, made.key.signed(alg, SAID)), "refused invalid_key"
    for made_of in (made.rsa, made.secret):
        for alg in ("ES256", "ES384", "ES512", "EdDSA"):
            yield said_by(made_of, alg, SAID, made.key.signed("RS256", SAID)), "refused invalid_key"
        for signature in (b"", made.key.signed("RS256", SAID), mac(SECRET, "HS256", SAID)):
            yield said_by(made_of, "none", SAID, signature), "refused unsupported_alg"


def of_itself(made):
    yield "# Keys of a provider, by what they say of themselves (RFC 7517 sections 4.2 to 4.5): use, key_ops, alg, kid.", None
    fits = ["&use=sig", "&key_ops=verify", "&key_ops=sign+verify", "&key_ops=verify+verify", "&kid=", "&kid=2011-04-29",
            "&use=sig&key_ops=verify&kid=a"]
    unfit = ["&use=enc", "&use=", "&use=SIG", "&use=sig+enc", "&key_ops=", "&key_ops=sign", "&key_ops=encrypt+wrapKey",
             "&key_ops=decrypt+unwrapKey+deriveKey+deriveBits", "&use=sig&key_ops=sign", "&use=enc&key_ops=verify"]
    for made_of, alg, signature in [(made.rsa, "RS256", made.key.signed("RS256", SAID)), (made.secret, "HS256", mac(SECRET, "HS256", SAID))]:
        for own in fits:
            yield said_by(made_of, alg, SAID, signature, own), "ok"
            yield said_by(made_of, alg, SAID, flipped(signature, 0), own), "refused crypto_error"
        for own in unfit:
            yield said_by(made_of, alg, SAID, signature, own), "refused invalid_key"
        yield said_by(made_of, "none", SAID, b"", "&key_ops=sign"), "refused unsupported_alg"
    for made_of, alg, signature in made.signed():
        yield said_by(made_of, alg, SAID, signature, "&own_alg=" + alg), "ok"
        yield said_by(made_of, alg, SAID, flipped(signature, 0), "&own_alg=" + alg), "refused crypto_error"
        for own in (alg[:2] + "384" if alg[2:] == "256" else alg[:2] + "256", {"R": "P", "P": "R", "H": "R"}[alg[0]] + alg[1:], "ES256", "none"):
            yield said_by(made_of, alg, SAID, signature, "&own_alg=" + own), "refused invalid_key"
    yield said_by(made.rsa, "none", SAID, b"", "&own_alg=none"), "refused unsupported_alg"
    yield said_by(made.rsa, "RS256", SAID, made.key.signed("RS256", SAID), "&use=sig&key_ops=verify&kid=a&own_alg=RS256"), "ok"


def no_cases(made):
    yield "# Keys of a provider: lines that are no cases: README.md of crates/vectors_keys.", None
    rest = f"&alg=RS256&message={SAID.hex()}&signature="
    for start in ("", made.rsa.split("&")[0], made.rsa.split("&")[1], made.rsa + "&" + made.secret, made.rsa + "&e=03",
                  "n=05&e=010001", made.rsa.split("&")[0] + "&e=02", "secret=0", made.rsa + "&own_alg=rs256",
                  made.rsa + "&key_ops=check", made.rsa + "&key_ops=verify++sign", made.rsa + "&kty=RSA"):
        yield "op=provider_verdict&" + start + rest, "no case"
    yield "op=provider_verdict&" + made.rsa + "&alg=rs256&message=&signature=", "no case"
    yield "op=provider_verdict&" + made.secret + "&message=&signature=", "no case"
    yield "op=provider_key&" + made.secret + "&alg=HS256", "no case"
    yield "op=provider_digest&" + made.secret + "&alg=HS256", "no case"


def shown(made):
    yield "# Keys of a provider: type, kid and use, as the verifiers of tokens ask for them (RFC 7517 sections 4.1, 4.2 and 4.5), and what they print.", None
    printed = "&debug=ProviderKey%28%5Bredacted%5D%29"
    for made_of, kind in ((made.rsa, "RSA"), (made.secret, "oct"), ("secret=", "oct")):
        yield f"op=provider_key&{made_of}", f"ok kty={kind}{printed}"
        for own in ("&kid=a", "&kid=", "&kid=%C3%BC&use=sig", "&use=enc", "&use=other"):
            yield f"op=provider_key&{made_of}{own}", f"ok kty={kind}{own}{printed}"
        yield f"op=provider_key&{made_of}&key_ops=sign&own_alg=RS256", f"ok kty={kind}{printed}"


def digests(made):
    yield "# Keys of a provider: digests, by Python's hashlib (OpenID Connect Core 1.0 section 3.1.3.6).", None
    for made_of in (made.rsa, made.secret):
        for alg in (*RSA_ALGORITHMS, *MAC_ALGORITHMS, "ES256", "ES384", "ES512"):
            of = digest(alg[2:], b"access token").hex()
            yield f"op=provider_digest&{made_of}&alg={alg}&text=access+token", f"ok digest={of}"
        for alg in ("EdDSA", "none"):
            yield f"op=provider_digest&{made_of}&alg={alg}&text=access+token", "refused unsupported"


def provider_cases(key):
    made = Made(key)
    for group in (accepted_once, confused, of_itself, no_cases, shown, digests):
        yield from group(made)


def write(folder, cases):
    with open(os.path.join(folder, "stdin"), "w") as questions, open(os.path.join(folder, "stdout"), "w") as answers:
        for line, expected in cases:
            questions.write(("" if expected else "\n") + line + "\n")
            answers.write(("" if expected else "\n") + (expected or line) + "\n")


def all_cases(nist):
    rng = random.Random(1)
    with tempfile.TemporaryDirectory() as folder:
        keys = [Key(os.path.join(folder, f"{place}.pem"), *of) for place, of in enumerate(KEYS)]
        yield from openssl_cases(keys, rng)
        yield from forgeries([keys[0], keys[1], keys[4], keys[8]])
        yield from bounds(keys[0], rng)
        others = [Key(os.path.join(folder, f"other{place}.pem"), *of) for place, of in enumerate(OTHER_KEYS)]
        yield from other_cases(others, keys[9], rng)
        yield from provider_cases(keys[0])
    if nist:
        yield from nist_cases(nist)


if __name__ == "__main__":
    if len(sys.argv) not in (2, 3):
        sys.exit(__doc__)
    write(sys.argv[1], all_cases(sys.argv[2] if len(sys.argv) == 3 else None))
