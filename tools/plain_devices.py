#!/usr/bin/env python3
"""Runs device logins from the start to the last step, and answers the cases `device_login` of crates/vectors_logins.

    tools/plain_devices.py answers   reads cases of device_login from standard input, and answers each: a line each; any
                                     other line comes back as it came
    tools/plain_devices.py cases     120 generated cases, a line each

It is a second reader beside oidc_device: RFC 8628 sections 3.1 to 3.5, OpenID Connect Core 1.0 sections 3.1.3.3 and
3.1.3.6 to 3.1.3.8. Requests and answers are those of plain_requests.py and plain_answers.py, ID tokens and hashes those of
plain_tokens.py; when a poll is due, what an answer leaves, and the order of what is judged stand here. Moments are
fractions of a second. It takes URLs as they are written, so it is right where these are written as the URL Standard writes
them; and an `exp` with a fraction of a second beside a moment with one stands in no case.
"""
import math
import re
from fractions import Fraction

import plain_requests as requests
import plain_tokens as tokens
from plain_answers import DEVICE, fits_address, request_pairs
from plain_records import (
    NoCase, answer_of, form, members_of, moment_fault, ok, pairs, reading_in, record, run_reader, there, tokens_of, url_fault,
    values,
)
from plain_urls import asks_openid

LONGEST_INTERVAL = 2**64 - 1

# ---- a line

NEEDED = {"id", "auth", "issuer", "algs", "device", "token", "start"}
REPEATED = {"key", "openid", "step"}


def call_in(text):
    """The moment of a call, and the answer to its request."""
    of = pairs(text)
    call = dict(of)
    if len(call) != len(of) or not {"now"} <= set(call) <= {"now", "nanos", "status", "type", "body", "fault"}:
        raise NoCase
    answer = answer_of(call)
    if answer is None or not re.fullmatch("[0-9]{1,9}", call.get("nanos", "0")):
        raise NoCase
    now = Fraction(int(call["nanos"]), 10**9) if "nanos" in call else Fraction(0)
    now += tokens.now_in(call["now"])
    if moment_fault(math.floor(now)):
        raise NoCase
    return now, answer


def client_in(of):
    once = [(name, value) for name, value in of if name not in REPEATED]
    found = dict(once)
    if len(found) != len(once) or not NEEDED <= set(found) <= NEEDED | {"secret", "reading"}:
        raise NoCase
    if found["auth"] not in ("basic", "body") or url_fault(found["device"]) or url_fault(found["token"]):
        raise NoCase
    client = tokens.client_in(found, values(of, "key"))
    client.update(reading=reading_in(found), device=found["device"], token=found["token"],
                  is_basic=found["auth"] == "basic", openid=asks_openid(values(of, "openid")), start=found["start"])
    return client


# ---- requests, and what their answers are worth


def post(client, address, own):
    """The pairs of a request, where its address is one that is sent to."""
    if not fits_address(address):
        return None
    named = {"id": client["id"]}
    if client["secret"] is not None:
        named["secret"] = client["secret"]
    return request_pairs(address, named, client["is_basic"], own)


def worth(sent, answer, success):
    """What a request is answered: the words of a refusal, or what `success` says of the members."""
    if sent is None:
        return "uri", None
    kind, response = answer
    if kind == "fault":
        return "request", None
    found = []
    line = requests.judged(*response, requests.of_object(lambda body: found.append(success(members_of(body.encode()))) or "ok"))
    return (None, found[0]) if line == "ok" else (line[len("refused "):], None)


def start(client, answer):
    own = [("scope", "openid")] if client["openid"] else []
    sent = post(client, client["device"], own)
    refusal, codes = worth(sent, answer, lambda members: record(members, DEVICE, {"verification_url": "verification_uri"}))
    return sent, refusal, codes


# ---- a login


class Login:
    """When a device may poll. `interval` is in seconds."""

    def __init__(self, client, codes, now):
        self.client, self.code = client, codes["device_code"]
        self.expiry, self.last = now + codes["expires_in"], now
        self.interval = 5 if codes.get("interval") is None else codes["interval"]
        self.is_over = False

    def step(self, now, answer):
        """The request that is sent, where one is, and the words of the answer."""
        if self.is_over:
            return None, "refused over"
        if now >= self.expiry:
            self.is_over = True
            return None, "refused expired"
        wait = self.last + self.interval - now
        if wait > 0:
            return None, ok([("step", "wait"), ("seconds", str(math.ceil(wait)))])
        self.last = now
        grant = [("grant_type", requests.DEVICE_GRANT), ("device_code", self.code)]
        sent = post(self.client, self.client["token"], grant)
        return sent, self.judged(now, *worth(sent, answer, self.tokens_in))

    def tokens_in(self, members):
        return tokens_of(members, tokens.id_token_fields(self.client["reading"]))

    def judged(self, now, refusal, found):
        """What a poll says, and what it leaves."""
        if refusal == "server authorization_pending":
            return ok([("step", "pending")])
        if refusal == "server slow_down":
            self.interval = min(self.interval + 5, LONGEST_INTERVAL)
            return ok([("step", "slow_down")])
        if refusal == "request":
            self.interval = max(5, min(self.interval * 2, LONGEST_INTERVAL))
            return "refused token request"
        self.is_over = True
        if refusal == "too_long":
            return "refused too_long"
        if refusal:
            return "refused token " + refusal
        return self.signed_in(now, found)

    def signed_in(self, now, found):
        if found.get("id_token") is None:
            return "refused no_id_token"
        token = tokens.token_of(found["id_token"], self.client["reading"])
        # No nonce was sent: whatever the token has is allowed.
        nonce = tokens.own_of(token.members).get("nonce")
        failure = tokens.first_failure(self.client, nonce, now, token)
        if failure:
            return "refused claims " + failure
        failure = tokens.hash_failure(token, found["access_token"])
        if failure:
            return "refused " + failure
        return ok([("step", "done")] + there(found, ["access_token", "refresh_token"])
                  + [("claims", tokens.written(token.members))])


def device_login(line):
    of = pairs(line)[1:]
    client = client_in(of)
    (now, answer), steps = call_in(client["start"]), [call_in(text) for text in values(of, "step")]
    sent, refusal, codes = start(client, answer)
    shown = [("request", sent)] if sent else []
    if refusal:
        return ok(shown + [("start", "refused " + refusal)])
    shown.append(("start", ok(there(codes, ["user_code", "verification_uri", "verification_uri_complete"]))))
    login = Login(client, codes, now)
    for now, answer in steps:
        sent, words = login.step(now, answer)
        shown += ([("request", sent)] if sent else []) + [("step", words)]
    return ok(shown)


OPERATIONS = {"device_login": device_login}

# ---- generated cases

CASES = 120

# What may be wrong with tokens.
WRONG = ["", "", "", "", "id_token", "iss", "aud", "exp", "key", "at_hash", "text"]


class Choices(tokens.Choices):
    """Logins that poll too early, in time and too late, under every kind of answer."""

    def id_token(self, wrong):
        claims = ['"iss":"https://a' + ("/" if wrong == "iss" else "") + '"', '"aud":"' + ("b" if wrong == "aud" else "a") + '"',
                  '"exp":' + ("1" if wrong == "exp" else "90000"), '"iat":900', '"sub":"u"']
        claims += ['"nonce":"n"'] if self.below(2) else []
        claims += ['"at_hash":"' + tokens.half_hash("HS256", "x" if wrong == "at_hash" else "t") + '"'] \
            if wrong == "at_hash" or self.below(2) else []
        return tokens.signed("{" + ",".join(self.shuffled(claims)) + "}", "x" if wrong == "key" else "s", "HS256")

    def tokens(self):
        wrong = self.one(WRONG)
        token = self.id_token(wrong)
        body = ['"access_token":"t"', '"token_type":"bearer"']
        body += ['"id_token":"' + (token[1:] if wrong == "text" else token) + '"'] if wrong != "id_token" else []
        body += ['"refresh_token":"r"'] if self.below(2) else []
        return [("status", "200"), ("type", "application/json"), ("body", "{" + ",".join(self.shuffled(body)) + "}")]

    def answer(self):
        kind = self.below(16)
        if kind < 4:
            return [("status", "400"), ("body", '{"error":"authorization_pending"}')]
        if kind < 6:
            return [("status", "400"), ("body", '{"error":"slow_down"}')]
        if kind < 8:
            return [("fault", "1")] if kind == 6 else []
        if kind == 8:
            return [("status", "400"), ("body", '{"error":"' + self.one(["access_denied", "expired_token", "a b"]) + '"}')]
        if kind == 9:
            return self.one([[("status", "500")], [("status", "200"), ("type", "text/html"), ("body", "x")],
                             [("status", "200"), ("body", "{")], [("status", "200")]])
        return self.tokens()

    def call(self, now, answer):
        nanos = self.one([0, 0, 0, 1, 500_000_000, 999_999_999])
        return tokens.plain_form([("now", str(now))] + ([("nanos", str(nanos))] if nanos else []) + answer)

    def codes(self):
        body = ['"device_code":"d1"', '"user_code":"U 1"', '"verification_uri":"https://a/go"',
                '"expires_in":' + self.one(["0", "40", "1800", "1800", "1800", "18446744073709551615"])]
        interval = self.one(["", "", "null", "0", "1", "5", "7"])
        interval = interval if self.below(12) else "18446744073709551615"
        body += ['"interval":' + interval] if interval else []
        body += ['"verification_uri_complete":"https://a/go?c"'] if self.below(2) else []
        if self.below(12) == 0:
            body = body[1:]
        return [("status", "200"), ("type", "application/json"), ("body", "{" + ",".join(self.shuffled(body)) + "}")]

    def case(self):
        now = self.one([1000, 0, -3])
        line = [("op", "device_login"), ("id", "a"), ("secret", "s"), ("auth", self.one(["basic", "body"])),
                ("issuer", "https://a"), ("algs", "HS256"), ("device", "https://a/device"), ("token", "https://a/token")]
        line += [("openid", "off")] if self.below(4) == 0 else []
        line.append(("start", self.call(now, self.codes() if self.below(20) else self.answer())))
        for _ in range(2 + self.below(7)):
            now += self.one([0, 1, 4, 5, 5, 6, 10, 11, 40, -2])
            line.append(("step", self.call(now, self.answer())))
        return tokens.plain_form(line)


def cases():
    return tokens.distinct(Choices(11).case, CASES)


if __name__ == "__main__":
    run_reader(__doc__, OPERATIONS, cases)
