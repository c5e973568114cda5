#!/usr/bin/env python3
"""Reads, judges and issues user info, and answers the cases of crates/vectors_tokens of that.

    tools/plain_info.py answers   reads cases of info_claims, info_request, info_answer and info_issue
                                  and answers each: a line each; any other line comes back as it came
    tools/plain_info.py cases     280 generated cases, a line each
    tools/plain_info.py readings  cases of booleans and moments as texts, under each of the four readings

It is a second reader, verifier and issuer beside oidc_user_info, over plain_tokens.py, plain_records.py and plain_claims.py:
OpenID Connect Core 1.0 sections 5.1, 5.1.2 and 5.3, RFC 6750 section 2.1. Each member of an object is judged by
looking back at all that stand before it. It takes URLs as they are written, so it is right where these are written
as the URL Standard writes them.
"""
import plain_claims
import plain_tokens
from plain_answers import fits_address
from plain_records import (
    LONGEST_BODY, NoCase, Refused, answer_of, has_essence, is_text, members_of, ok, read_case, reading_in, run_reader,
    text_or_texts_fault, url_fault,
)
from plain_tokens import check, check_there, encoded, fault_in, value_of

# In the order in which they are written. A null stands for no value.
INFO = {"iss": (url_fault, True), "aud": (text_or_texts_fault, True)}

# ---- claims


def claim_fault(before, member):
    return fault_in(INFO, before, member) or plain_claims.fault_of(before, member)


def claim_members(text, reading=plain_claims.STRICT):
    """The members of user info, none of which is faulty, with `sub` among them."""
    members = plain_claims.read_by(members_of(text), reading)
    check(members, claim_fault)
    check_there(members, ["sub"])
    return members


def additional_of(members):
    return [(member.name, member.value) for member in members
            if member.name not in INFO and plain_claims.key_of(member.name)[0] not in plain_claims.KINDS]


def audience_of(members):
    audience = value_of(members, "aud")
    return [audience] if is_text(audience) else audience


def written(members):
    """The text of the claims."""
    own = [("iss", value_of(members, "iss")), ("aud", audience_of(members))]
    own = [(name, value) for name, value in own if value is not None]
    return plain_claims.written_object(own + plain_claims.claims_of(members) + additional_of(members))


def subject_of(members):
    return next(member.value for member in members if member.name in ("sub", "sub#"))


# ---- tokens


def token_of(text, reading=plain_claims.STRICT):
    parts = text.split(".")
    if len(parts) != 3:
        raise Refused("token")
    header, claims, signature = [plain_tokens.decoded(part) for part in parts]
    header = plain_tokens.header_of(header)
    return plain_tokens.Token(header, claim_members(claims, reading), parts[0] + "." + parts[1], signature)


def first_failure(client, token):
    """The first check that fails, in the order of OpenID Connect Core 1.0 section 5.3.2."""
    if not plain_tokens.is_supported(token.header):
        return "unsupported"
    if client["issuer_match"] and value_of(token.members, "iss") != client["issuer"]:
        return "invalid_issuer"
    if client["audience_match"] and set(audience_of(token.members) or []) != {client["id"]}:
        return "invalid_audience"
    failure = plain_tokens.signature_failure(client, token.header, token.message, token.signature)
    if failure:
        return failure
    is_expected = client["subject"] in (None, subject_of(token.members))
    return None if is_expected else "invalid_subject"


# ---- requests


def request_pairs(endpoint, token, accept):
    """The pairs of the request for user info, or the word of its refusal."""
    if not all(byte == 9 or 32 <= byte <= 126 for byte in token.encode()):
        return None, "bearer"
    if not fits_address(endpoint):
        return None, "uri"
    return [("method", "GET"), ("address", endpoint), ("accept", "application/" + accept),
            ("authorization", "Bearer " + token)], None


# ---- answers


def claims_in(client, body):
    """The members of an answer that is an object, or the words of its refusal."""
    if client["signed"]:
        return None, "claims no_signature"
    members = claim_members(body, client["reading"])
    is_expected = client["subject"] in (None, subject_of(members))
    return (members, None) if is_expected else (None, "claims invalid_subject")


def claims_in_token(client, body):
    try:
        text = body.decode("utf-8")
    except UnicodeDecodeError:
        return None, "utf8"
    token = token_of(text, client["reading"])
    failure = first_failure(client, token)
    return (None, "claims " + failure) if failure else (token.members, None)


def judged(client, status, content_type, body):
    if len(body) > LONGEST_BODY:
        return None, "too_long"
    if status != 200:
        return None, "status"
    essence = "application/json" if content_type is None else content_type
    if has_essence(essence.encode(), "application/json"):
        return claims_in(client, body)
    if has_essence(essence.encode(), "application/jwt"):
        return claims_in_token(client, body)
    return None, "media_type"


# ---- cases


def info_claims(line):
    found, _ = read_case(line, {"text"}, {"reading"})
    members = claim_members(found["text"].encode(), reading_in(found))
    additional = plain_claims.written_object(additional_of(members))
    return ok([("written", written(members)), ("additional", additional)])


def info_request(line):
    found, _ = read_case(line, {"endpoint", "token", "accept"})
    if found["accept"] not in ("json", "jwt") or url_fault(found["endpoint"]):
        raise NoCase
    asked, refusal = request_pairs(found["endpoint"], found["token"], found["accept"])
    return "refused " + refusal if refusal else ok(asked)


def flag(found, name):
    if found.get(name, "1") != "1":
        raise NoCase
    return name in found


def info_answer(line):
    optional = {"type", "subject", "signed", "any_issuer", "any_audience", "reading"}
    found, keys = read_case(line, {"status", "body", "id", "issuer"}, optional, "key")
    answer = answer_of(found)
    if answer is None or url_fault(found["issuer"]):
        raise NoCase
    client = {"id": found["id"], "issuer": found["issuer"], "subject": found.get("subject"),
              "signed": flag(found, "signed"), "issuer_match": not flag(found, "any_issuer"),
              "audience_match": not flag(found, "any_audience"), "reading": reading_in(found), "secret": None,
              "algs": ["RS256"], "keys": [plain_tokens.key_in(key) for key in keys]}
    try:
        members, refusal = judged(client, *answer[1])
    except Refused as refused:
        return "refused parse " + refused.words
    return "refused " + refusal if refusal else ok([("written", written(members))])


def info_issue(line):
    found, _ = read_case(line, {"claims", "secret", "alg"}, {"reading"})
    alg = plain_tokens.algorithm_in(found["alg"])
    reading = reading_in(found)
    try:
        claims = written(claim_members(found["claims"].encode(), reading))
    except Refused:
        raise NoCase from None
    if not alg.startswith("HS"):
        return "refused unsupported_alg"
    return ok([("token", plain_tokens.signed(claims, found["secret"], alg))])


OPERATIONS = {"info_claims": info_claims, "info_request": info_request, "info_answer": info_answer,
              "info_issue": info_issue}


# ---- generated cases

OBJECTS, ANSWERS = 120, 160


class Choices(plain_tokens.Choices):
    """Choices of user info, most of it good."""

    def info_member(self):
        name = self.one(list(INFO))
        tag = self.one(["", "", "", "", "", "#"])
        return f'"{name}{tag}":{self.one(plain_tokens.VALUES[INFO[name][0]])}'

    def info_object(self):
        """The usual members, mostly, and a few that repeat one of them, or are faulty, or neither."""
        usual = ['"sub":"u"', '"iss":"https://a"', '"aud":"a"']
        members = [member for member in usual if self.below(12) > 0]
        claims = [self.one(plain_claims.CLAIMS) for _ in range(3)]
        members += [self.info_member() for _ in range(self.one([0, 0, 0, 1]))]
        members += [self.member(claims) for _ in range(self.one([0, 1, 1, 2]))]
        return "{" + ",".join(self.shuffled(members)) + "}"

    def token(self):
        """A token that mostly is accepted."""
        alg = self.rarely("RS256", ["HS256", "none", "ES256", "A128GCM"])
        payload = self.info_object() if self.below(6) == 0 else self.named_object()
        message = encoded(self.header_object(alg).encode()) + "." + encoded(payload.encode())
        return message + "." + encoded(self.rarely(b"\1", [b"\2"]))

    def named_object(self):
        members = ['"iss":' + self.rarely('"https://a"', ['"https://b"', "null", '"https://a/"']),
                   '"aud":' + self.rarely('"a"', ['["a"]', '["a","b"]', '"b"', "[]", "null"]),
                   '"sub":' + self.rarely('"u"', ['"v"', '""'])]
        return "{" + ",".join(members[self.rarely(0, [1]):]) + "}"

    def answer_case(self):
        """An answer, and a client that mostly takes it."""
        is_token = self.below(2) == 0
        body = self.token() if is_token else self.info_object()
        usual = "application/jwt" if is_token else self.one(["application/json", None])
        media = self.rarely(usual, ["application/json", "application/jwt", "text/plain", "APPLICATION/JWT; a=b", ""])
        line = [("op", "info_answer"), ("status", self.rarely("200", ["201", "401"]))]
        line += [] if media is None else [("type", media)]
        line += [("body", body), ("id", "a"), ("issuer", "https://a")]
        line += self.one([[], [("subject", "u")], [("subject", "u")]])
        line += self.rarely([("signed", "1")] if is_token else [], [[], [("signed", "1")]])
        line += self.rarely([], [[("any_issuer", "1")], [("any_audience", "1")]])
        return line + self.issuer_keys("RSA")


def readings():
    """User info under each of the four readings."""
    for beside in ['"email_verified":"true"', '"email_verified":"True"', '"phone_number_verified":"false"',
                   '"updated_at":"2021-12-22T02:10:37Z"', '"updated_at":"2021-12-22t03:10:37.5+01:00"',
                   '"updated_at":"2021-02-29T00:00:00Z"', '"updated_at":"1640139037"', '"updated_at":1640139037',
                   '"updated_at":null,"email_verified":null', '"email_verified":"no","updated_at":"no"',
                   '"exp":"2021-12-22T02:10:37Z","iat":"true","zz":"false"', '"iss":"https://a","aud":"true"']:
        for reading in plain_claims.READINGS:
            yield plain_claims.case("info_claims", reading, '{"sub":"u",' + beside + "}")


def cases():
    choices = Choices(3)
    made = plain_tokens.distinct
    return made(lambda: plain_tokens.plain_form([("op", "info_claims"), ("text", choices.info_object())]), OBJECTS) \
        + made(lambda: plain_tokens.plain_form(choices.answer_case()), ANSWERS)


if __name__ == "__main__":
    run_reader(__doc__, OPERATIONS, cases, readings)
