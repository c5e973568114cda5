#!/usr/bin/env python3
"""Reads, judges and issues ID tokens, and answers the cases of crates/vectors_tokens of that.

    tools/plain_tokens.py answers   reads cases of header, id_claims, token, verify, verify_refreshed, hash, issue,
                                    token_response and token_answer from standard input, and answers each: a line
                                    each; any other line comes back as it came
    tools/plain_tokens.py cases     360 generated cases, a line each
    tools/plain_tokens.py readings  cases of booleans and moments as texts, under each of the four readings

It is a second reader, verifier and issuer beside oidc_tokens, over Python's json, base64, hashlib and hmac:
RFC 7515 sections 2, 4.1, 5 and 7.1, RFC 7518 section 3.1, RFC 7519 sections 5 and 7, OpenID Connect Core 1.0
sections 2, 3.1.3.3, 3.1.3.6, 3.1.3.7, 3.3.2.11, 5.1, 5.2, 10.1 and 12.2. Each member of an object is judged by
looking back at all that stand before it. It takes URLs as they are written, so it is right where these are
written as the URL Standard writes them. Scripts are judged by plain_callback.py, which stands on this one.
"""
import base64
import hashlib
import hmac
import json
import re
from collections import namedtuple

import plain_claims
from plain_records import (
    TOKENS, NoCase, Refused, answer_of, cut_scopes, is_text, members_of, moment_fault, ok, read_case, reading_in, run_reader,
    text_fault, text_or_texts_fault, texts_fault, there, token_type_of, tokens_in, tokens_of, url_fault,
)

Token = namedtuple("Token", "header members message signature")
Key = namedtuple("Key", "kind use id signature")

# ---- algorithms

KEY_TYPES = {"HS": "oct", "RS": "RSA", "PS": "RSA", "ES": "EC"}
SIGNING = [family + size for family in ("HS", "RS", "ES", "PS") for size in ("256", "384", "512")]
SIGNING += ["EdDSA", "none"]
CONTENT_ENCRYPTION = ["A128CBC-HS256", "A192CBC-HS384", "A256CBC-HS512", "A128GCM", "A192GCM", "A256GCM"]


def algorithm_fault(value):
    if not is_text(value):
        return "type"
    return None if value in SIGNING or value in CONTENT_ENCRYPTION else "algorithm"


# ---- tables: each field's kind, and whether a null stands for no value

HEADER = {
    "alg": (algorithm_fault, False),
    "typ": (text_fault, True),
    "cty": (text_fault, True),
    "kid": (text_fault, True),
    "crit": (lambda value: None, True),
}

# In the order in which they are written.
OWN = {
    "iss": (url_fault, False),
    "aud": (text_or_texts_fault, False),
    "exp": (moment_fault, False),
    "iat": (moment_fault, False),
    "auth_time": (moment_fault, True),
    "nonce": (text_fault, True),
    "acr": (text_fault, True),
    "amr": (texts_fault, True),
    "azp": (text_fault, True),
    "at_hash": (text_fault, True),
    "c_hash": (text_fault, True),
}


def fault_in(table, before, member):
    """Why a member is refused as a field of this table, after those before it."""
    if member.name not in table:
        return None
    if any(other.name == member.name for other in before):
        return "duplicate", member.name
    fault, takes_null = table[member.name]
    if member.value is None and takes_null:
        return None
    kind = fault(member.value)
    return (kind, member.name) if kind else None


def check(members, fault):
    """The first faulty member refuses."""
    for place, member in enumerate(members):
        refusal = fault(members[:place], member)
        if refusal:
            raise Refused(*refusal)


def check_there(members, needed):
    """The first of these names that is missing refuses. An empty tag is none."""
    for name in needed:
        names = (name, name + "#") if name == "sub" else (name,)
        if not any(member.name in names for member in members):
            raise Refused("missing", name)


def value_of(members, name):
    return next((member.value for member in members if member.name == name), None)


# ---- headers


def header_of(text):
    """The fields of a header that are there and aren't null."""
    members = members_of(text)
    check(members, lambda before, member: fault_in(HEADER, before, member))
    check_there(members, ["alg"])
    return {name: value_of(members, name) for name in HEADER if value_of(members, name) is not None}


# ---- claims


def claim_fault(before, member):
    return fault_in(OWN, before, member) or plain_claims.fault_of(before, member)


# The moments among them, which a reading may take as texts.
MOMENT_FIELDS = ("exp", "iat", "auth_time")


def claim_members(text, reading=plain_claims.STRICT):
    """The members of the claims of an ID token, none of which is faulty or missing."""
    members = plain_claims.read_by(members_of(text), reading, MOMENT_FIELDS)
    check(members, claim_fault)
    check_there(members, ["iss", "exp", "iat", "sub"])
    return members


def additional_of(members):
    return [(member.name, member.value) for member in members
            if member.name not in OWN and plain_claims.key_of(member.name)[0] not in plain_claims.KINDS]


def own_of(members):
    """The token's own fields, as they are written."""
    found = {name: value_of(members, name) for name in OWN}
    audience = found["aud"]
    found["aud"] = [audience] if is_text(audience) else audience or []
    return {name: value for name, value in found.items() if value is not None}


def written(members, hashes=()):
    """The text of the claims, with these hashes in the place of their own."""
    own = {**own_of(members), **dict(hashes)}
    fields = [(name, own[name]) for name in OWN if name in own]
    return plain_claims.written_object(fields + plain_claims.claims_of(members) + additional_of(members))


# ---- tokens


def encoded(of):
    return base64.urlsafe_b64encode(of).rstrip(b"=").decode()


def decoded(part):
    """Strict base64url without padding."""
    if not re.fullmatch("[A-Za-z0-9_-]*", part) or len(part) % 4 == 1:
        raise Refused("token")
    read = base64.urlsafe_b64decode(part + "=" * (-len(part) % 4))
    if encoded(read) != part:
        raise Refused("token")
    return read


def token_of(text, reading=plain_claims.STRICT):
    parts = text.split(".")
    if len(parts) != 3:
        raise Refused("token")
    header, claims, signature = [decoded(part) for part in parts]
    return Token(header_of(header), claim_members(claims, reading), parts[0] + "." + parts[1], signature)


# ---- hashes and signatures


def digest_by(alg):
    """The hash function that goes with an algorithm, where there is one."""
    return {"256": hashlib.sha256, "384": hashlib.sha384, "512": hashlib.sha512}.get(alg[-3:])


def mac(secret, alg, message):
    return hmac.new(secret.encode(), message.encode(), digest_by(alg)).digest()


def half_hash(alg, text):
    digest = digest_by(alg)(text.encode()).digest()
    return encoded(digest[:len(digest) // 2])


def signature_failure(client, header, message, signature):
    alg = header["alg"]
    if alg == "none":
        return "no_signature"
    if alg not in client["algs"] or alg.startswith("HS") and client["secret"] is None:
        return "disallowed_alg"
    if alg.startswith("HS"):
        return None if mac(client["secret"], alg, message) == signature else "crypto_error"
    kind = KEY_TYPES.get(alg[:2], "OKP")
    fitting = [key for key in client["keys"]
               if key.kind == kind and key.use in ("", "sig") and header.get("kid", key.id) == key.id]
    # A header that names an empty id asks for it, and a key without one hasn't it.
    if header.get("kid") == "":
        fitting = []
    if len(fitting) != 1:
        return "ambiguous_key" if fitting else "no_matching_key"
    return None if fitting[0].signature == signature else "crypto_error"


def hash_failure(token, access_token):
    """Why the `at_hash` of a token, where it has one, isn't that of this access token."""
    claimed, alg = own_of(token.members).get("at_hash"), token.header["alg"]
    if claimed is None:
        return None
    if digest_by(alg) is None:
        return "signing unsupported_alg"
    return None if claimed == half_hash(alg, access_token) else "token_hash"


def is_supported(header):
    kind = header.get("typ", "jwt")
    kind = "".join(c.lower() if c.isascii() else c for c in kind).removeprefix("application/")
    return ("crit" not in header and "cty" not in header and kind in ("jwt", "jose", "jose+json")
            and header["alg"] not in CONTENT_ENCRYPTION)


def first_failure(client, nonce, now, token):
    """The first check that fails, in the order of OpenID Connect Core 1.0 section 3.1.3.7."""
    own = own_of(token.members)
    if not is_supported(token.header):
        return "unsupported"
    if own["iss"] != client["issuer"]:
        return "invalid_issuer"
    if set(own["aud"]) != {client["id"]}:
        return "invalid_audience"
    failure = signature_failure(client, token.header, token.message, token.signature)
    if failure:
        return failure
    # The fraction of a second counts here, though it isn't written.
    if now > own["exp"] or now == own["exp"] and not getattr(own["exp"], "has_fraction", False):
        return "expired"
    return None if own.get("nonce") == nonce else "invalid_nonce"


# ---- ID tokens that come with refreshed tokens


def changed_claim(first, new):
    """The first of the claims that OpenID Connect Core 1.0 section 12.2 lists by which two lists of members aren't
    those of ID tokens of one sign-in."""
    was, own = own_of(first), own_of(new)
    rows = [
        ("other_issuer", own["iss"] == was["iss"]),
        ("other_subject", dict(plain_claims.claims_of(new))["sub"] == dict(plain_claims.claims_of(first))["sub"]),
        ("other_audience", set(own["aud"]) == set(was["aud"])),
        ("other_auth_time", own.get("auth_time") in (None, was.get("auth_time"))),
        ("other_nonce", own.get("nonce") in (None, was.get("nonce"))),
        ("other_authorized_party", own.get("azp") == was.get("azp")),
    ]
    return next((refusal for refusal, holds in rows if not holds), None)


def refreshed_failure(client, now, first, access_token, token):
    """The first row that fails. A client that wants no nonce takes the token's own."""
    return (first_failure(client, own_of(token.members).get("nonce"), now, token)
            or changed_claim(first, token.members) or hash_failure(token, access_token))


# ---- cases


def header(line):
    found = header_of(read_case(line, {"text"})[0]["text"].encode())
    if "crit" in found:
        found["crit"] = "1"
    return ok(list(found.items()))


def id_claims(line):
    found, _ = read_case(line, {"text"}, {"reading"})
    members = claim_members(found["text"].encode(), reading_in(found))
    additional = plain_claims.written_object(additional_of(members))
    return ok([("written", written(members)), ("additional", additional)])


def token(line):
    found, _ = read_case(line, {"text"}, {"reading"})
    text = found["text"]
    read = token_of(text, reading_in(found))
    return ok([("header", decoded(text.split(".")[0]).decode()), ("written", written(read.members)),
               ("message", read.message), ("signature", read.signature.hex())])


def algorithm_in(text):
    if text not in SIGNING:
        raise NoCase
    return text


def key_in(text):
    """A key of the issuer, kty:use:kid:hex."""
    cut = re.fullmatch("(EC|OKP|RSA|oct|):([^:]*):([^:]*):(([0-9A-Fa-f]{2})*)", text)
    if not cut:
        raise NoCase
    return Key(cut[1], cut[2], cut[3], bytes.fromhex(cut[4]))


def now_in(text):
    if not re.fullmatch("-?[0-9]+", text) or moment_fault(int(text)):
        raise NoCase
    return int(text)


def client_in(found, keys):
    if url_fault(found["issuer"]):
        raise NoCase
    algs = found.get("algs", "RS256")
    return {"id": found["id"], "issuer": found["issuer"], "secret": found.get("secret"),
            "algs": [algorithm_in(alg) for alg in algs.split(" ")] if algs else [],
            "keys": [key_in(key) for key in keys]}


def verify(line):
    found, keys = read_case(line, {"token", "id", "issuer", "nonce", "now"}, {"secret", "algs", "reading"}, "key")
    client = client_in(found, keys)
    now = now_in(found["now"])
    reading = reading_in(found)
    try:
        read = token_of(found["token"], reading)
    except Refused:
        raise NoCase from None
    failure = first_failure(client, found["nonce"], now, read)
    return "refused " + failure if failure else ok([("written", written(read.members))])


def verify_refreshed(line):
    needed = {"token", "first", "access_token", "id", "issuer", "now"}
    found, keys = read_case(line, needed, {"secret", "algs"}, "key")
    client = client_in(found, keys)
    now = now_in(found["now"])
    try:
        read, first = token_of(found["token"]), claim_members(found["first"].encode())
    except Refused:
        raise NoCase from None
    failure = refreshed_failure(client, now, first, found["access_token"], read)
    return "refused " + failure if failure else ok([("written", written(read.members))])


def hash_answer(line):
    found, _ = read_case(line, {"alg", "text"})
    alg = algorithm_in(found["alg"])
    if digest_by(alg) is None:
        return "refused unsupported_alg"
    return ok([("hash", half_hash(alg, found["text"]))])


def signed(claims, secret, alg):
    """The token whose payload is the text of these claims."""
    message = encoded(b'{"alg":"' + alg.encode() + b'"}') + "." + encoded(claims.encode())
    return message + "." + encoded(mac(secret, alg, message))


def issue(line):
    found, _ = read_case(line, {"claims", "secret", "alg"}, {"access_token", "code", "reading"})
    alg = algorithm_in(found["alg"])
    reading = reading_in(found)
    try:
        members = claim_members(found["claims"].encode(), reading)
    except Refused:
        raise NoCase from None
    if not alg.startswith("HS"):
        return "refused unsupported_alg"
    beside = {"at_hash": found.get("access_token"), "c_hash": found.get("code")}
    hashes = [(name, half_hash(alg, text)) for name, text in beside.items() if text is not None]
    return ok([("token", signed(written(members, hashes), found["secret"], alg))])


# ---- token responses, with an ID token or without


def id_token_fields(reading=plain_claims.STRICT):
    """The field of an ID token, which is read under a reading. A refusal inside it has the kind and the field that it
    names."""
    def token_fault(value):
        if is_text(value):
            token_of(value, reading)
        return text_fault(value)
    return [("id_token", token_fault, False)]


def further_in(found):
    """The extra fields that a case asks for. A reading stands beside these alone."""
    if found.get("extra", "id_token") != "id_token" or "reading" in found and "extra" not in found:
        raise NoCase
    return id_token_fields(reading_in(found)) if "extra" in found else []


def written_tokens(found):
    found = {**found, "token_type": token_type_of(found["token_type"])}
    shown = dict(there(found, [field for field, _, _ in TOKENS + id_token_fields()]))
    return json.dumps(shown, separators=(",", ":"), ensure_ascii=False)


def token_response(line):
    case, _ = read_case(line, {"text"}, {"extra", "reading"})
    found = tokens_of(members_of(case["text"].encode()), further_in(case))
    span = [("expires_in", str(value)) for _, value in there(found, ["expires_in"])]
    return ok([("written", written_tokens(found))] + span + cut_scopes(found))


def token_answer(line):
    case, _ = read_case(line, {"status", "body"}, {"type", "extra", "reading"})
    further = further_in(case)
    answer = answer_of(case)
    if answer is None:
        raise NoCase
    found, refusal = tokens_in(*answer[1], further)
    if refusal:
        return "refused " + refusal.removeprefix("token ").removesuffix(" token_answer")
    return ok([("written", written_tokens(found))])


OPERATIONS = {"header": header, "id_claims": id_claims, "token": token, "verify": verify,
              "verify_refreshed": verify_refreshed, "hash": hash_answer,
              "issue": issue, "token_response": token_response, "token_answer": token_answer}

# ---- generated cases

OBJECTS, VERDICTS = 250, 110

URLS = ['"https://a"', '"https://a/"', '"a"', "1", "null"]
MOMENTS = ["2000", "1999", "253402207200", "253402207201", "-377705023201", "-377705023202", '"2000"', "null"]
TEXTS = ['"a"', '"b"', '""', "null", "7"]
LISTS = ['["a"]', "[]", '["a","b"]', '["a",1]', "null", '"a"']
VALUES = {url_fault: URLS, moment_fault: MOMENTS, text_fault: TEXTS, texts_fault: LISTS,
          text_or_texts_fault: LISTS}
USUAL = ['"iss":"https://a"', '"exp":2000', '"iat":900', '"sub":"u"', '"aud":"a"']


class Choices(plain_claims.Choices):
    """Choices of claims, tokens and clients, most of them good."""

    def shuffled(self, of):
        of, out = list(of), []
        while of:
            out.append(of.pop(self.below(len(of))))
        return out

    def own_member(self):
        name = self.one(list(OWN)[4:] if self.below(4) > 0 else list(OWN))
        tag = self.one(["", "", "", "", "", "", "", "#"])
        return f'"{name}{tag}":{self.one(VALUES[OWN[name][0]])}'

    def claims_object(self):
        """The usual members, mostly, and a few that repeat one of them, or are faulty, or neither."""
        members = [member for member in USUAL if self.below(20) > 0]
        claims = [self.one(plain_claims.CLAIMS) for _ in range(3)]
        members += [self.own_member() for _ in range(self.below(3))]
        members += [self.member(claims) for _ in range(self.below(3))]
        return "{" + ",".join(self.shuffled(members)) + "}"

    def rarely(self, usual, others):
        return self.one(others) if self.below(9) == 0 else usual

    def header_object(self, alg):
        members = [f'"alg":"{alg}"']
        members += [self.rarely('"typ":"JWT"', ['"typ":"at+jwt"', '"typ":"application/JOSE"', '"typ":null'])]
        members += self.one([[], ['"kid":"k1"'], ['"kid":"k2"']])
        members += self.rarely([], [['"crit":["b64"]'], ['"cty":"JWT"'], ['"crit":null'], ['"x":1']])
        return "{" + ",".join(self.shuffled(members)) + "}"

    def verdict_case(self):
        """A token and a client that mostly accepts it."""
        alg = self.one(["HS256", "RS256", "RS256", "HS384", "ES512", "PS256", "EdDSA"])
        alg = self.rarely(alg, ["none", "A128GCM"])
        claims = ['"iss":"' + self.rarely("https://a", ["https://b.example", "https://a/"]) + '"',
                  '"aud":' + self.rarely('"a"', ['["a"]', '["a","b"]', '"b"', "[]", '["a","a"]']),
                  '"exp":' + self.rarely("2000", ["1000"]), '"iat":900', '"sub":"u"',
                  '"nonce":' + self.rarely('"n"', ['"m"', "null", '""'])]
        payload = "{" + ",".join(claims) + "}"
        message = encoded(self.header_object(alg).encode()) + "." + encoded(payload.encode())
        signature = mac("s", alg, message) if alg.startswith("HS") else self.rarely(b"\1", [b"\2"])
        line = [("op", "verify"), ("token", message + "." + encoded(signature)), ("id", "a"),
                ("issuer", "https://a"), ("nonce", "n"), ("now", self.one(["1000", "1999", "2000"]))]
        line += self.rarely([("secret", "s")], [[], [("secret", "t")]])
        line += self.rarely([("algs", "HS384 " + alg)] if alg in SIGNING else [], [[], [("algs", "")]])
        return line + self.issuer_keys(KEY_TYPES.get(alg[:2], "OKP"))

    def issuer_keys(self, kind):
        """Up to three keys, most of them of this type."""
        return [("key", ":".join([self.rarely(kind, ["", "EC", "RSA"]), self.one(["", "", "sig", "enc", "any"]),
                                  self.one(["", "k1", "k2"]), self.rarely("01", ["02"])]))
                for _ in range(self.one([1, 1, 2, 3]))]


def plain_form(of):
    """The form text of pairs, with no more escaped than has to be."""
    def escaped(text):
        return re.sub("[%&+\x00-\x1f\x7f]", lambda c: f"%{ord(c[0]):02X}", text).replace(" ", "+")

    return "&".join(escaped(name) + "=" + escaped(value) for name, value in of)


def distinct(made, count):
    """The first that differ of what is made."""
    out = {}
    while len(out) < count:
        out[made()] = None
    return list(out)


# A moment in several spellings, and texts that are none.
DATE_TIMES = ["1970-01-01T00:33:20Z", "1970-01-01t01:33:20.9+01:00", "1970-01-01T00:33:20", "2021-02-29T00:00:00Z",
              "9999-12-31T00:00:00Z", "2000", ""]

# Claims of an ID token beside `iss` and `sub`, for which a reading counts.
DATED = [f'"exp":"{text}","iat":900' for text in DATE_TIMES] \
    + [f'"exp":2000,"iat":"{text}"' for text in DATE_TIMES] \
    + [f'"exp":2000,"iat":900,"auth_time":"{text}"' for text in DATE_TIMES] \
    + [f'"exp":2000,"iat":900,"updated_at":"{text}"' for text in DATE_TIMES] \
    + ['"exp":2000,"iat":900,"auth_time":null,"updated_at":null,"email_verified":null', '"exp":null,"iat":900',
       '"exp":"1970-01-01T00:33:20Z","iat":"1970-01-01T00:15:00Z","auth_time":"1970-01-01T00:14:59.5Z",'
       '"email_verified":"false","updated_at":"1969-12-31T23:59:59.5Z"',
       '"exp":2000,"iat":900,"email_verified":"true","phone_number_verified":"True"',
       '"exp":2000,"iat":900,"email_verified":"true","nonce":"true","exp#":"no"',
       '"exp":"1970-01-01T00:33:20Z","iat":900,"exp":2000', '"exp":true,"iat":900',
       '"exp":2000,"iat":900,"nbf":"1970-01-01T00:15:00Z","zz":"true"',
       '"iat":"no","exp":"1970-01-01T00:33:20Z"', '"exp":"1970-01-01T00:33:20Z"']


def readings():
    """Claims and tokens under each of the four readings."""
    for beside in DATED:
        payload = '{"iss":"https://a","sub":"u",' + beside + "}"
        for reading in plain_claims.READINGS:
            yield plain_claims.case("id_claims", reading, payload)
    for beside in DATED[7 * 4:]:
        message = encoded(b'{"alg":"HS256"}') + "." + encoded(('{"iss":"https://a","sub":"u",' + beside + "}").encode())
        for reading in plain_claims.READINGS:
            yield plain_claims.case("token", reading, message + "." + encoded(mac("s", "HS256", message)))


def cases():
    choices = Choices(2)
    return distinct(lambda: plain_form([("op", "id_claims"), ("text", choices.claims_object())]), OBJECTS) \
        + distinct(lambda: plain_form(choices.verdict_case()), VERDICTS)


if __name__ == "__main__":
    run_reader(__doc__, OPERATIONS, cases, readings)
