#!/usr/bin/env python3
"""Makes the requests of a client beside the one that exchanges a code, and judges their answers and that of that one:
the cases of crates/vectors_requests.

    tools/plain_requests.py answers   reads cases from standard input, and answers each: a line each; a line of an
                                      operation that isn't in OPERATIONS comes back as it came

It is a second reader beside oidc_oauth2_requests and the calls of oidc_client that make its requests, over Python's
json, base64 and urllib.parse: RFC 6749 sections 2.3.1, 3.3, 4.3.2, 4.4.2, 5 and 6, RFC 7009 section 2, RFC 7662 section
2, RFC 8628 sections 3.1 to 3.5, OpenID Connect Core 1.0 sections 3.1.2.1 and 3.1.3.3. A request is one list of pairs,
and an answer is judged by one function, whatever was asked for. It takes URLs as they are written, so it is right where
these are written as the URL Standard writes them.
"""
import urllib.parse
from collections import namedtuple

import plain_answers
import plain_tokens as tokens
from plain_answers import DEVICE, INTROSPECTION, fits_address, request_pairs
from plain_records import (
    ERROR, LONGEST_BODY, NoCase, Refused, answer_of, escaped, form, has_essence, members_of, ok, pairs, record,
    reading_in, run_reader, tokens_of, url_fault, values,
)
from plain_urls import asks_openid, pair_in

# ---- requests

# The names that a line has beside `id` and `auth`, those that it may have beside `secret`, those that it may repeat
# beside `extra`, and the request's own pairs.
Asked = namedtuple("Asked", "names optional repeated own")

SCOPED = {"scope", "scopes"}
DEVICE_GRANT = "urn:ietf:params:oauth:grant-type:device_code"


def device_code_in(found):
    try:
        codes = record(members_of(found["response"].encode()), DEVICE, {"verification_url": "verification_uri"})
    except Refused:
        raise NoCase from None
    return codes["device_code"]


def kind_hint(found):
    if found["kind"] not in ("access", "refresh"):
        raise NoCase
    return found["kind"] + "_token"


def token_hint(found):
    return [("token_type_hint", found["hint"])] if "hint" in found else []


REQUESTS = {
    "refresh_request": Asked({"token"}, {"endpoint"}, SCOPED, lambda of: [
        ("grant_type", "refresh_token"), ("refresh_token", of["token"])]),
    "password_request": Asked({"username", "password"}, {"endpoint"}, SCOPED, lambda of: [
        ("grant_type", "password"), ("username", of["username"]), ("password", of["password"])]),
    "client_credentials_request": Asked(set(), {"endpoint"}, SCOPED, lambda of: [
        ("grant_type", "client_credentials")]),
    "device_token_request": Asked({"response"}, {"endpoint"}, set(), lambda of: [
        ("grant_type", DEVICE_GRANT), ("device_code", device_code_in(of))]),
    "device_request": Asked({"endpoint"}, set(), SCOPED | {"openid"}, lambda of: []),
    "introspection_request": Asked({"endpoint", "token"}, {"hint"}, set(), lambda of: [
        ("token", of["token"])] + token_hint(of)),
    "revocation_request": Asked({"endpoint", "token", "kind"}, set(), set(), lambda of: [
        ("token", of["token"]), ("token_type_hint", kind_hint(of))]),
}


def values_in(of, asked):
    """The values of a case by their names, but for those that may repeat."""
    once = [(name, value) for name, value in of if name not in asked.repeated | {"extra"}]
    found, required = dict(once), {"id", "auth"} | asked.names
    if len(found) != len(once) or not required <= set(found) <= required | {"secret"} | asked.optional:
        raise NoCase
    if found["auth"] not in ("basic", "body") or "endpoint" in found and url_fault(found["endpoint"]):
        raise NoCase
    return found


def scopes_in(of):
    """The scopes that the calls `scope` and `scopes` add, in their order."""
    out = []
    for name, value in of:
        if name == "scope":
            out.append(value)
        if name == "scopes" and value:
            out.extend(value.split(" "))
    return out


def refusal_at(operation, endpoint):
    """Why a client makes no request at an endpoint, or why its request can't be sent there."""
    if endpoint is None:
        return "missing_url"
    if operation == "revocation_request" and urllib.parse.urlsplit(endpoint).scheme != "https":
        return "insecure_url"
    return None if fits_address(endpoint) else "uri"


def request(operation):
    asked = REQUESTS[operation]

    def answer(line):
        of = pairs(line)[1:]
        found, further = values_in(of, asked), [pair_in(text) for text in values(of, "extra")]
        own, endpoint = asked.own(found), found.get("endpoint")
        is_openid = "openid" in asked.repeated and asks_openid(values(of, "openid"))
        refusal = refusal_at(operation, endpoint)
        if refusal:
            return "refused " + refusal
        scope = " ".join((["openid"] if is_openid else []) + scopes_in(of))
        own = own + ([("scope", scope)] if scope else [])
        return "ok " + request_pairs(endpoint, found, found["auth"] == "basic", own, further)
    return answer


# ---- answers


def judged(status, kind, body, success):
    """What an answer is worth, where `success` says what one of status 200 is worth."""
    if len(body) > LONGEST_BODY:
        return "refused too_long"
    try:
        if status == 200:
            return success(kind, body)
        if not body:
            return "refused empty_body"
        return "refused server " + escaped(record(members_of(body), ERROR)["error"])
    except Refused as refused:
        return "refused parse " + refused.words


def of_object(shown):
    def success(kind, body):
        if kind is not None and not has_essence(kind.encode(), "application/json"):
            return "refused media_type"
        return shown(body.decode("utf-8", "surrogateescape")) if body else "refused empty_body"
    return success


def answered(success, further=(), optional=()):
    required = {"status", "body", *further}

    def answer(line):
        of = pairs(line)[1:]
        found = dict(of)
        response = answer_of(found)
        if len(found) != len(of) or not required <= set(found) <= required | {"type", *optional} or response is None:
            raise NoCase
        return judged(*response[1], success)
    return answer


def as_line(operation, name):
    return lambda body: operation(form([("op", name), ("text", body)]))


def written(body, further):
    return [("written", tokens.written_tokens(tokens_of(members_of(body.encode()), further)))]


def tokens_answer(line):
    found = dict(pairs(line)[1:])
    if found.get("request") not in ("code", "refresh", "password", "client_credentials"):
        raise NoCase
    further = tokens.id_token_fields(reading_in(found))
    return answered(of_object(lambda body: ok(written(body, further))), ["request"], ["reading"])(line)


def poll_answer(line):
    further = tokens.further_in(dict(pairs(line)[1:]))
    done = of_object(lambda body: ok([("step", "done")] + written(body, further)))
    answer = answered(done, optional=["extra", "reading"])(line)
    told = {"refused server authorization_pending": "pending", "refused server slow_down": "slow_down"}
    return ok([("step", told[answer])]) if answer in told else answer


OPERATIONS = {
    **{operation: request(operation) for operation in REQUESTS},
    "tokens_answer": tokens_answer,
    "device_answer": answered(of_object(as_line(plain_answers.device_response, "device_response"))),
    "introspection_answer": answered(of_object(as_line(plain_answers.introspection, "introspection"))),
    "poll_answer": poll_answer,
    "revocation_answer": answered(lambda kind, body: "ok"),
}


if __name__ == "__main__":
    run_reader(__doc__, OPERATIONS)
