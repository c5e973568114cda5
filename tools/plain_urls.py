#!/usr/bin/env python3
"""Writes the URLs to which a user is sent to sign in and to sign out, and answers the cases of crates/vectors_tokens of
these, `authorize` and `logout`.

    tools/plain_urls.py answers   reads cases from standard input, and answers each: a line each
    tools/plain_urls.py cases     generated cases, a line each

It is a second writer beside oidc_client, over Python's urllib.parse, hashlib and base64: RFC 6749 sections 3.1 and
4.1.1, RFC 7636 section 4.3, OpenID Connect Core 1.0 sections 3.1.2.1, 3.2.2.1 and 3.3.2.1, OpenID Connect RP-Initiated
Logout 1.0 section 2. ID tokens are read by plain_tokens.py. It takes the URLs of a case as they are written, so it is
right where these are written as the URL Standard writes them. plain_callback.py has the URLs of its scripts read by `parsed`.
"""
import base64
import hashlib
import re
import sys

import plain_tokens
from plain_records import NoCase, Refused, answer_by, form, ok, pairs, url_fault, values

REQUIRED = {"endpoint", "id", "flow", "state", "nonce"}
OPTIONAL = {"client_redirect", "redirect", "verifier", "display", "id_token_hint", "login_hint", "max_age"}
REPEATED = {"scope", "scopes", "extra", "acr", "claims_locale", "prompt", "ui_locale", "openid"}
LONGEST = 1_048_576
# A span of time has at most 2^64 - 1 seconds.
MOST_SECONDS = 2**64 - 1


def check_names(of):
    once = [name for name, _ in of if name not in REPEATED]
    if len(set(once)) != len(once) or not REQUIRED <= set(once) <= REQUIRED | OPTIONAL:
        raise NoCase


def response_type(flow):
    if flow in ("code", "id_token", "id_token token"):
        return flow
    if not flow.startswith("hybrid "):
        raise NoCase
    return flow[len("hybrid "):]


def challenge(verifier):
    if not 43 <= len(verifier.encode()) <= 128:
        raise NoCase
    digest = hashlib.sha256(verifier.encode()).digest()
    return base64.urlsafe_b64encode(digest).rstrip(b"=").decode()


def pair_in(text):
    of = pairs(text)
    if len(of) != 1:
        raise NoCase
    return of[0]


def check_token(text):
    try:
        plain_tokens.token_of(text)
    except Refused:
        raise NoCase


def asks_openid(switches):
    if not set(switches) <= {"on", "off"}:
        raise NoCase
    return (switches or ["on"])[-1] == "on"


def scopes_of(of):
    scopes = ["openid"] if asks_openid(values(of, "openid")) else []
    for name, value in of:
        if name == "scope":
            scopes.append(value)
        elif name == "scopes":
            scopes += value.split(" ") if value else []
    return scopes


def seconds(text):
    if not re.fullmatch("[0-9]+", text) or int(text) > MOST_SECONDS:
        raise NoCase
    return str(int(text))


def check_urls(found):
    for name in ("endpoint", "client_redirect", "redirect"):
        if name in found and url_fault(found[name]):
            raise NoCase


def list_of(of):
    """The pairs of the request, in their order."""
    found = dict(of)
    check_urls(found)
    out = [("response_type", response_type(found["flow"])), ("client_id", found["id"]), ("state", found["state"])]
    if "verifier" in found:
        out += [("code_challenge", challenge(found["verifier"])), ("code_challenge_method", "S256")]
    redirect = found.get("redirect", found.get("client_redirect"))
    out += [] if redirect is None else [("redirect_uri", redirect)]
    scope = " ".join(scopes_of(of))
    out += [("scope", scope)] if scope else []
    out += [pair_in(text) for text in values(of, "extra")]
    out += [("nonce", found["nonce"])]
    if "id_token_hint" in found:
        check_token(found["id_token_hint"])
    if "max_age" in found:
        found["max_age"] = seconds(found["max_age"])
    lists = {"acr_values": "acr", "claims_locales": "claims_locale", "prompt": "prompt", "ui_locales": "ui_locale"}
    for name in ("acr_values", "claims_locales", "display", "id_token_hint", "login_hint", "max_age", "prompt",
                 "ui_locales"):
        if name in lists:
            texts = values(of, lists[name])
            out += [(name, " ".join(texts))] if texts else []
        elif name in found:
            out += [(name, found[name])]
    return out


def extended(endpoint, of):
    """The endpoint with pairs behind its query."""
    before, mark, fragment = endpoint.partition("#")
    path, _, query = before.partition("?")
    return path + "?" + (query + "&" if query else "") + form(of) + mark + fragment


def authorize(line):
    of = pairs(line)[1:]
    check_names(of)
    url = extended(dict(of)["endpoint"], list_of(of))
    return "refused too_long" if len(url.encode()) > LONGEST else ok([("url", url)])


LOGOUT_NAMES = {"id_token_hint": "id_token_hint", "logout_hint": "logout_hint", "client_id": "client_id",
                "redirect": "post_logout_redirect_uri", "state": "state"}


def logout(line):
    of = pairs(line)[1:]
    once = [name for name, _ in of if name != "ui_locale"]
    found = dict(of)
    if len(set(once)) != len(once) or not {"endpoint"} <= set(once) <= {"endpoint", *LOGOUT_NAMES}:
        raise NoCase
    check_urls(found)
    if "id_token_hint" in found:
        check_token(found["id_token_hint"])
    out = [(written, found[name]) for name, written in LOGOUT_NAMES.items() if name in found]
    locales = values(of, "ui_locale")
    out += [("ui_locales", " ".join(locales))] if locales else []
    url = extended(found["endpoint"], out) if out else found["endpoint"]
    if re.fullmatch(r"[^?#]*\?(#.*)?", url):
        url = url.replace("?", "", 1)
    return "refused too_long" if len(url.encode()) > LONGEST else ok([("url", url)])


OPERATIONS = {"authorize": authorize, "logout": logout}

# ---- URLs

# The schemes that this reader takes apart, with their ports.
PORTS = {"http": 80, "https": 443}
FORBIDDEN_IN_HOST = r"[\x00-\x20#%<>?\[\\\]^|\x7f]"
HOST = r"[A-Za-z0-9_-]+(\.[A-Za-z0-9_-]+)*"
SPACES = "".join(map(chr, range(33)))


class Unread(Exception):
    """A URL that this reader says nothing of."""


def percent_encoded(text, others):
    """A text with percent escapes for the bytes that are no visible ASCII, and for the others."""
    def escaped_byte(byte):
        return chr(byte) if 32 < byte < 127 and chr(byte) not in others else f"%{byte:02X}"
    return "".join(map(escaped_byte, text.encode()))


def host_of(authority, scheme):
    """Host and port, or None where they are refused. Of hosts it knows names of ASCII letters alone."""
    name, _, port = authority.partition(":")
    if name == "" or re.search(FORBIDDEN_IN_HOST, name) or not re.fullmatch("[0-9]*", port):
        return None
    last = name.lower().split(".")[-1]
    if not re.fullmatch(HOST, name) or re.fullmatch("[0-9]+|0x.*", last) or "xn--" in name.lower():
        raise Unread(authority)
    number = int(port) if port else PORTS[scheme]
    if number > 65_535:
        return None
    return name.lower() + ("" if number == PORTS[scheme] else ":" + str(number))


def path_of(path):
    """A path without its segments . and .., whose dots may be escaped."""
    out, segments = [], path.split("/")
    for place, segment in enumerate(segments):
        plain = segment.lower().replace("%2e", ".")
        if plain == "..":
            out = out[:-1]
        if plain not in (".", ".."):
            out.append(percent_encoded(segment, '"#<>?^`{}'))
        elif place == len(segments) - 1:
            out.append("")
    return "/" + "/".join(out)


def parsed(text):
    """The text of a URL as the URL Standard writes it again (sections 4.4 and 4.5), or None where it refuses it. A URL
    of a scheme that isn't in PORTS is taken as it is written."""
    cut = re.fullmatch("([A-Za-z][A-Za-z0-9+.-]*):(.*)", re.sub("[\t\n\r]", "", text.strip(SPACES)), re.DOTALL)
    if not cut:
        return None
    scheme = cut[1].lower()
    if scheme not in PORTS:
        return scheme + ":" + cut[2]
    rest, mark, fragment = cut[2].partition("#")
    rest, question, query = rest.partition("?")
    authority, _, path = rest.replace("\\", "/").lstrip("/").partition("/")
    if "@" in authority:
        raise Unread(text)
    host = host_of(authority, scheme)
    if host is None:
        return None
    query, fragment = percent_encoded(query, "\"#<>'"), percent_encoded(fragment, '"<>`')
    return scheme + "://" + host + path_of(path) + question + query + mark + fragment


# ---- generated cases

CASES = 90

TEXTS = ["a", "b c", "é", "100%", "x&y=z", "~", "*-._", "+", "\U0001f600", "urn:x:y", ""]
TAGS = ["en", "fr-CA", "de", "ja-Kana-JP"]
URLS = ["https://c/", "http://localhost:8888/", "https://c/?a=b&c=d", "app://x/y", "https://c/#f"]
ENDPOINTS = ["https://example/authorize", "https://example/authorize?", "https://example/?a=b", "https://example/a?b#f",
             "https://example/#f", "https://u:p@example:8443/a/b?c=%20&d", "https://example/a?b=c&"]
FLOWS = ["code", "code", "id_token", "id_token token", "hybrid code id_token", "hybrid code token", "hybrid other",
         "hybrid "]
PAIRS = ["foo=bar", "x=", "state=s", "nonce=x", "%26=%3D", "redirect_uri=https%3A%2F%2Fd%2F"]
TOKEN = "eyJhbGciOiJSUzI1NiJ9." + plain_tokens.encoded(
    b'{"iss":"https://a","aud":"a","exp":2000,"iat":900,"sub":"u"}') + ".AQ"


class Choices(plain_tokens.Choices):
    """Choices of requests: a few calls each, in any order."""

    def call(self):
        text, tag = self.one(TEXTS), self.one(TAGS)
        return self.one([
            ("scope", self.one(["email", "profile", text])), ("scopes", self.one(["a b", "a", "a  b"])),
            ("extra", self.one(PAIRS)), ("extra", self.one(PAIRS)), ("acr", text), ("claims_locale", tag),
            ("prompt", self.one(["none", "login", "consent", "select_account", text])), ("ui_locale", tag),
            ("openid", self.one(["on", "off"]))])

    def setting(self):
        return self.one([
            ("client_redirect", self.one(URLS)), ("redirect", self.one(URLS)), ("verifier", "v" * self.one([43, 44, 128])),
            ("display", self.one(["page", "popup", "touch", "wap", self.one(TEXTS)])), ("id_token_hint", TOKEN),
            ("login_hint", self.one(TEXTS)), ("max_age", self.one(["0", "1800", "007", str(MOST_SECONDS)]))])

    def bad(self):
        return self.one([("verifier", "v" * self.one([42, 129])), ("redirect", "x"), ("id_token_hint", "a.b.c"),
                         ("max_age", self.one(["-1", "", str(MOST_SECONDS + 1)])), ("extra", "a=b&c=d"), ("openid", "1"),
                         ("other", "x"), ("state", "again")])

    def case(self):
        calls = dict(self.setting() for _ in range(self.below(4)))
        added = list(calls.items()) + [self.call() for _ in range(self.below(6))]
        added += [self.bad()] if self.below(12) == 0 else []
        own = [("endpoint", self.one(ENDPOINTS)), ("id", self.one(["aaa", "a b"])), ("flow", self.one(FLOWS)),
               ("state", self.one(["s", self.one(TEXTS)])), ("nonce", self.one(["n", self.one(TEXTS)]))]
        return [("op", "authorize")] + own + self.shuffled(added)


def cases():
    choices = Choices(4)
    return plain_tokens.distinct(lambda: plain_tokens.plain_form(choices.case()), CASES)


def main(words):
    if words == ["cases"]:
        for case in cases():
            print(case)
    elif words == ["answers"]:
        for line in sys.stdin.read().split("\n")[:-1]:
            print(answer_by(OPERATIONS, line))
    else:
        sys.exit(__doc__)


if __name__ == "__main__":
    main(sys.argv[1:])
