#!/usr/bin/env python3
"""Judges the answers of a provider, and answers the cases of crates/vectors of that: the operations of
oidc_oauth2 but `challenge`. Those with an ID token are cases of crates/vectors_tokens.

    tools/plain_answers.py answers   reads cases from standard input, and answers each: a line each; a line of
                                     an operation that isn't in OPERATIONS comes back as it came

It is a second reader beside oidc_oauth2, over Python's json, base64 and urllib.parse: RFC 6749 sections 2.3.1 and
4.1.2 to 5.2, RFC 6750 section 2.1, RFC 7009 section 2.2.1, RFC 7636 section 4.5, RFC 7662 section 2.2, RFC 8628
sections 3.2 and 3.5, OpenID Connect Core 1.0 section 3.1.3.3. ID tokens are read and judged by plain_tokens.py,
scripts by plain_callback.py. It takes URLs as they are written, so it is right where these are written as the URL
Standard writes them.
"""
import base64
import re

import plain_tokens as tokens
from plain_records import (
    ERROR, NoCase, cut_scopes, escaped, flag_fault, form, has_essence, members_of, moment_fault, ok, pairs, read_case,
    record, run_reader, text_fault, text_or_texts_fault, there, token_type_of, url_fault, whole_fault,
)

LONGEST_ADDRESS = 65_534

# ---- requests


def request_pairs(address, client, is_basic, own, later=()):
    """The pairs of a request: `own` stand before those that name the client, `later` behind them."""
    sent = [("method", "POST"), ("address", address), ("accept", "application/json"),
            ("content_type", "application/x-www-form-urlencoded")]
    named = [("client_id", client["id"])]
    if "secret" in client and is_basic:
        credentials = escaped(client["id"]) + ":" + escaped(client["secret"])
        sent.append(("authorization", "Basic " + base64.b64encode(credentials.encode()).decode()))
        named = []
    elif "secret" in client:
        named.append(("client_secret", client["secret"]))
    return form(sent + [("body", form(own + named + list(later)))])


def fits_address(address):
    """Whether a request may go to an address: visible ASCII, of limited length."""
    return len(address.encode()) <= LONGEST_ADDRESS and re.fullmatch("[!-~]*", address) is not None


# ---- cases of the token layer

DEVICE = [("device_code", text_fault, True), ("user_code", text_fault, True), ("verification_uri", url_fault, True),
          ("expires_in", whole_fault, True), ("verification_uri_complete", text_fault, False),
          ("interval", whole_fault, False)]
INTROSPECTION = [("active", flag_fault, True), ("scope", text_fault, False), ("client_id", text_fault, False),
                 ("username", text_fault, False), ("token_type", text_fault, False), ("sub", text_fault, False),
                 ("iss", text_fault, False), ("jti", text_fault, False), ("exp", moment_fault, False),
                 ("nbf", moment_fault, False), ("iat", moment_fault, False), ("aud", text_or_texts_fault, False)]


def record_of(line, fields, also=None):
    found, _ = read_case(line, {"text"})
    return record(members_of(found["text"].encode()), fields, also)


CORE_ERRORS = ["invalid_client", "invalid_grant", "invalid_request", "invalid_scope", "unauthorized_client",
               "unsupported_grant_type"]
DEVICE_ERRORS = ["authorization_pending", "slow_down", "access_denied", "expired_token"]
REVOCATION_ERRORS = ["unsupported_token_type"]


def variant_of(text, known, otherwise):
    return "".join(map(str.capitalize, text.split("_"))) if text in known else otherwise


def error_answer(known, otherwise):
    def answer(line):
        found = record_of(line, ERROR)
        texts = [(name[6:], value) for name, value in there(found, ["error_description", "error_uri"])]
        return ok([("error", found["error"]), ("variant", variant_of(found["error"], known, otherwise))] + texts)
    return answer


def device_response(line):
    found = record_of(line, DEVICE, {"verification_url": "verification_uri"})
    if found.get("interval") is None:
        found["interval"] = 5
    return ok([(name, str(value)) for name, value in there(found, [field for field, _, _ in DEVICE])])


def introspection(line):
    found = record_of(line, INTROSPECTION)
    shown = [("active", "true" if found["active"] else "false")] + cut_scopes(found)
    for name, value in there(found, [field for field, _, _ in INTROSPECTION[2:]]):
        if name == "token_type":
            value = token_type_of(value)
        shown.append((name, "\n".join(value) if isinstance(value, list) else str(value)))
    return ok(shown)


def token_type(line):
    text = token_type_of(read_case(line, {"text"})[0]["text"])
    return ok([("variant", variant_of(text, ["bearer", "mac"], "Extension")), ("text", text)])


def essence(line):
    found, _ = read_case(line, {"value", "expected"})
    if not re.fullmatch("([0-9A-Fa-f]{2})*", found["value"]):
        raise NoCase
    value = bytes.fromhex(found["value"])
    if any(byte != 9 and byte < 32 or byte == 127 for byte in value):
        raise NoCase
    return "ok" if has_essence(value, found["expected"]) else "none"


def bearer(line):
    token = read_case(line, {"token"})[0]["token"]
    if not all(byte == 9 or 32 <= byte <= 126 for byte in token.encode()):
        return "refused value"
    return ok([("value", "Bearer " + token)])


def code_request(line):
    required = {"endpoint", "id", "auth", "code"}
    found, extra = read_case(line, required, {"secret", "verifier", "redirect"}, "extra")
    further = [pairs(value) for value in extra]
    urls = [found[name] for name in ("endpoint", "redirect") if name in found]
    if found["auth"] not in ("basic", "body") or any(len(of) != 1 for of in further) or any(map(url_fault, urls)):
        raise NoCase
    if not fits_address(found["endpoint"]):
        return "refused uri"
    own = [("grant_type", "authorization_code"), ("code", found["code"])]
    own += [("code_verifier", found["verifier"])] if "verifier" in found else []
    later = [("redirect_uri", found["redirect"])] if "redirect" in found else []
    later += [pair for of in further for pair in of]
    return "ok " + request_pairs(found["endpoint"], found, found["auth"] == "basic", own, later)


OPERATIONS = {"token_response": tokens.token_response, "device_response": device_response,
              "error_response": error_answer(CORE_ERRORS, "Extension"),
              "device_error": error_answer(DEVICE_ERRORS, "Basic"),
              "revocation_error": error_answer(REVOCATION_ERRORS, "Basic"),
              "introspection": introspection, "token_type": token_type, "essence": essence, "bearer": bearer,
              "code_request": code_request, "token_answer": tokens.token_answer}


if __name__ == "__main__":
    run_reader(__doc__, OPERATIONS)
