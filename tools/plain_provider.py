#!/usr/bin/env python3
"""Plays a provider, and answers the cases `provider` and `provider_logins` of crates/vectors_provider.

    tools/plain_provider.py answers   reads cases from standard input, and answers each: a line each; any other line
                                      comes back as it came

It is a second reader beside oidc_provider: RFC 6749 sections 2.3.1, 4.1, 5.1 and 5.2, RFC 6750 sections 2.1 and 3.1, RFC
7636 section 4, OpenID Connect Core 1.0 sections 2, 3.1.2, 3.1.3 and 5.3. The grants are a plain list here, which is
searched from its front, where the product has hashed maps. ID tokens are those of plain_tokens.py, user info that of
plain_info.py, requests and callbacks those of plain_callback.py.
"""
import base64
import hashlib

import plain_callback
import plain_claims
import plain_info
import plain_tokens
import plain_urls
from plain_records import NoCase, Refused, escaped, form, ok, pairs, read_case, run_reader, values

SAFE = set(range(0x20, 0x7F)) | {0x09}


def is_header_text(text):
    return all(byte in SAFE for byte in text.encode())


def only(of, name):
    found = values(of, name)
    return found[0] if len(found) == 1 else None


def query_of(url):
    """The pairs of a URL's query."""
    return pairs(url.partition("#")[0].partition("?")[2])


def basic(client):
    plain = escaped(client["id"]) + ":" + escaped(client["secret"])
    return "Basic " + base64.b64encode(plain.encode()).decode()


def challenge_of(verifier):
    """RFC 7636 section 4.6: of any text, however long."""
    return base64.urlsafe_b64encode(hashlib.sha256(verifier.encode()).digest()).decode().rstrip("=")


def check_url(text):
    """A URL as it is written."""
    try:
        url = plain_urls.parsed(text)
    except plain_urls.Unread:
        url = text
    if url is None:
        raise NoCase
    return url


def members_by(reader, text):
    try:
        return reader(text.encode())
    except Refused:
        raise NoCase from None


class Provider:
    """A provider: its settings, its clients, and what it granted."""

    def __init__(self, settings, clients):
        self.settings, self.clients, self.grants = settings, clients, []

    # ---- the authorization endpoint

    def refusal(self, asked):
        query = query_of(asked["url"])
        client = next((known for known in self.clients if known["id"] == only(query, "client_id")), None)
        tests = [
            ("client", client is not None),
            ("redirect", client is not None and only(query, "redirect_uri") == client["redirect"]),
            ("request", only(query, "response_type") == "code" and only(query, "code_challenge_method") == "S256"
             and None not in [only(query, name) for name in ("state", "nonce", "code_challenge")]),
            ("subject", plain_info.subject_of(asked["claims"]) == plain_info.subject_of(asked["user_info"])),
            ("code_used", all(grant["code"] != asked["code"] for grant in self.grants)),
            ("token_used", all(grant["token"] != asked["token"] for grant in self.grants)),
            ("token_text", is_header_text(asked["token"])),
        ]
        return next((word for word, holds in tests if not holds), None), query, client

    def authorize(self, asked):
        word, query, client = self.refusal(asked)
        if word:
            return "refused " + word
        own = [("iss", self.settings["issuer"]), ("aud", [client["id"]]), ("nonce", only(query, "nonce")),
               ("at_hash", plain_tokens.half_hash("HS256", asked["token"]))]
        id_token = plain_tokens.signed(plain_tokens.written(asked["claims"], own), client["secret"], "HS256")
        body = [("access_token", asked["token"]), ("token_type", "bearer"), ("id_token", id_token)]
        self.grants.append({
            "client": client["id"], "redirect": client["redirect"], "challenge": only(query, "code_challenge"),
            "code": asked["code"], "token": asked["token"], "redeemed": False,
            "token_body": plain_claims.written_object(body), "info_body": plain_info.written(asked["user_info"]),
        })
        return ok([("query", form([("code", asked["code"]), ("state", only(query, "state"))]))])

    # ---- the two endpoints that answer requests

    def client_asking(self, request, body):
        """The client that authenticates, where one does."""
        def does(client):
            if request["authorization"] is not None:
                return request["authorization"] == basic(client)
            return only(body, "client_id") == client["id"] and only(body, "client_secret") == client["secret"]
        return next((client for client in self.clients if does(client)), None)

    def tokens(self, request):
        body = pairs(request["body"])
        client = self.client_asking(request, body)
        if client is None:
            return 401, '{"error":"invalid_client"}'
        if only(body, "grant_type") != "authorization_code":
            return 400, '{"error":"unsupported_grant_type"}'
        code, verifier = only(body, "code"), only(body, "code_verifier")
        for grant in self.grants:
            if (grant["code"] == code and not grant["redeemed"] and grant["client"] == client["id"]
                    and grant["redirect"] == only(body, "redirect_uri") and verifier is not None
                    and grant["challenge"] == challenge_of(verifier)):
                grant["redeemed"] = True
                return 200, grant["token_body"]
        return 400, '{"error":"invalid_grant"}'

    def user_info(self, request):
        for grant in self.grants:
            if grant["redeemed"] and request["authorization"] == "Bearer " + grant["token"]:
                return 200, grant["info_body"]
        return 401, ""

    def call(self, request):
        """Status and body."""
        asked = request["method"], request["address"]
        if asked == ("POST", check_url(self.settings["token"])):
            return self.tokens(request)
        if asked == ("GET", self.settings["user_info"]):
            return self.user_info(request)
        return 404, ""


# ---- cases


def pairs_of_call(text, required, optional=frozenset(), repeated=None):
    """The values of a call by their names, and the list of those of the name that may repeat."""
    return read_case("op=call&" + text, required, optional, repeated)


def registration_in(text):
    found, _ = pairs_of_call(text, {"id", "secret", "redirect"})
    check_url(found["redirect"])
    return found


def authorization_in(text, more=frozenset()):
    found, _ = pairs_of_call(text, {"url", "claims", "user_info", "code", "token"} | more)
    found["url"] = check_url(found["url"])
    found["claims"] = members_by(plain_tokens.claim_members, found["claims"])
    found["user_info"] = members_by(plain_info.claim_members, found["user_info"])
    return found


def request_in(text):
    found, headers = pairs_of_call(text, {"method", "address"}, {"body"}, "authorization")
    if found["method"] not in ("GET", "POST", "PUT") or not all(map(is_header_text, headers)):
        raise NoCase
    return {"method": found["method"], "address": found["address"], "body": found.get("body", ""),
            "authorization": headers[0] if headers else None}


def line_in(line, names, calls):
    """The settings of a line, its clients, its further values, and its calls in their order, each read."""
    of = pairs(line)[1:]
    once = [(name, value) for name, value in of if name not in calls and name != "registration"]
    found = dict(once)
    if len(found) != len(once) or set(found) != names:
        raise NoCase
    for name in ("issuer", "token", "user_info"):
        check_url(found[name])
    clients = [registration_in(value) for value in values(of, "registration")]
    return found, clients, [(name, calls[name](value)) for name, value in of if name in calls]


def is_doubled(clients):
    return len({client["id"] for client in clients}) != len(clients)


def response_words(status, body):
    shown = [("type", "application/json"), ("body", body)] if body else []
    return ok([("status", str(status))] + shown)


def provider(line):
    calls = {"authorize": authorization_in, "call": request_in}
    settings, clients, steps = line_in(line, {"issuer", "token", "user_info"}, calls)
    if is_doubled(clients):
        return "refused same_client"
    played = Provider(settings, clients)
    answers = {"authorize": played.authorize, "call": lambda request: response_words(*played.call(request))}
    return ok([(name, answers[name](value)) for name, value in steps])


# ---- whole logins


class Served:
    """The answers of a provider to the requests of a callback, as they are sent."""

    def __init__(self, played, sent):
        self.played, self.sent = played, sent

    def __getitem__(self, number):
        asked = dict(pairs(self.sent[number].partition(" ")[2]))
        status, body = self.played.call({"method": asked["method"], "address": asked["address"],
                                         "authorization": asked.get("authorization"), "body": asked.get("body", "")})
        return "response", (status, "application/json" if body else None, body.encode())


def client_in(text):
    try:
        return plain_callback.client_in(b"op=client&" + text.encode())
    except plain_callback.NoEvent:
        raise NoCase from None


def begin_in(text):
    try:
        op, found = plain_callback.fields(b"op=begin&" + text.encode())
        return plain_callback.begin_in(found)
    except plain_callback.NoEvent:
        raise NoCase from None


def callback_in(text):
    found, _ = pairs_of_call(text, {"now", "query"})
    return {"now": plain_tokens.now_in(found["now"]), "query": found["query"]}


def sign_in_in(text):
    found = authorization_in(text, {"now"})
    return {**found, "now": plain_tokens.now_in(found["now"])}


def sign_in_pairs(client, logins, played, asked):
    """An authorization, and a callback with the query that comes of it."""
    words = played.authorize(asked)
    if not words.startswith("ok "):
        return [("sign_in", words)]
    query = dict(pairs(words[len("ok "):]))["query"]
    told = callback_pairs(client, logins, played, {"now": asked["now"], "query": query})
    return told[:-1] + [("sign_in", told[-1][1])]


def callback_pairs(client, logins, played, callback):
    sent = []
    callback = {**callback, "answers": Served(played, sent)}
    try:
        verdict = ok(plain_callback.signed_in(client, logins, callback, sent))
    except plain_callback.Denied as denied:
        verdict = "refused " + str(denied)
    return [("request", line.partition(" ")[2]) for line in sent] + [("callback", verdict)]


def begin_words(client, logins, begin):
    words = plain_callback.begin_lines(client, logins, begin)[0].split(" ", 2)
    return ok([("url", words[2])]) if words[1] == "ok" else "refused " + words[2]


def provider_logins(line):
    calls = {"begin": begin_in, "authorize": authorization_in, "callback": callback_in, "sign_in": sign_in_in}
    found, clients, steps = line_in(line, {"issuer", "token", "user_info", "client"}, calls)
    client = client_in(found["client"])
    if is_doubled(clients):
        return "refused same_client"
    played, logins, told = Provider(found, clients), [], []
    for name, value in steps:
        if name == "begin":
            told.append((name, begin_words(client, logins, value)))
        elif name == "authorize":
            told.append((name, played.authorize(value)))
        elif name == "sign_in":
            told += sign_in_pairs(client, logins, played, value)
        else:
            told += callback_pairs(client, logins, played, value)
    return ok(told)


OPERATIONS = {"provider": provider, "provider_logins": provider_logins}

if __name__ == "__main__":
    run_reader(__doc__, OPERATIONS)
