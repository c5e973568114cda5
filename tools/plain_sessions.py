#!/usr/bin/env python3
"""Runs the calls of sessions, and answers the cases `sessions` of crates/vectors_logins.

    tools/plain_sessions.py answers   reads cases of sessions from standard input, and answers each: a line each; any
                                      other line comes back as it came
    tools/plain_sessions.py cases     the cases by hand and the generated ones, a line each; and those of ID tokens and
                                      logout tokens handed in for each other, which plain_callback.py and plain_front.py
                                      answer too

It is a second reader beside oidc_session: OpenID Connect Back-Channel Logout 1.0 sections 2.4 to 2.6. It keeps a plain
list of sessions and one of accepted token ids, and looks through all of them at each call. Tokens, their headers and
their MACs are those of plain_tokens.py; the claims of a logout token and the order of its checks stand here.
"""

import json
import random

import plain_claims
import plain_tokens as tokens
from plain_callback import Denied, deny
from plain_records import (
    NoCase, Refused, form, is_text, members_of, moment_fault, ok, pairs, run_reader, text_fault, text_or_texts_fault,
    url_fault,
)

EVENT = "http://schemas.openid.net/event/backchannel-logout"


def events_fault(value):
    return None if isinstance(value, plain_claims.Object) else "type"


# Each claim's kind, whether a null stands for no value, and whether it has to be there, in the order of the table.
CLAIMS = {
    "iss": (url_fault, False, True),
    "aud": (text_or_texts_fault, False, True),
    "iat": (moment_fault, False, True),
    "exp": (moment_fault, False, True),
    "jti": (text_fault, False, True),
    "events": (events_fault, False, True),
    "sub": (text_fault, True, False),
    "sid": (text_fault, True, False),
    "nonce": (lambda value: None, True, False),
}


# ---- logout tokens


def claim_fault(before, member):
    """Why a claim is refused, after those before it."""
    if member.name not in CLAIMS:
        return None
    if any(other.name == member.name for other in before):
        return "duplicate", member.name
    fault, takes_null, _ = CLAIMS[member.name]
    if member.value is None and takes_null:
        return None
    kind = fault(member.value)
    return (kind, member.name) if kind else None


def logout_token_of(text):
    """The header, the claims that are there and aren't null, the message and the signature."""
    parts = text.split(".")
    if len(parts) != 3:
        raise Refused("token")
    header, claims, signature = [tokens.decoded(part) for part in parts]
    header, members = tokens.header_of(header), members_of(claims)
    tokens.check(members, claim_fault)
    tokens.check_there(members, [name for name, (_, _, needed) in CLAIMS.items() if needed])
    found = {name: tokens.value_of(members, name) for name in CLAIMS}
    return header, {name: value for name, value in found.items() if value is not None}, parts[0] + "." + parts[1], signature


def is_known(header):
    kind = header.get("typ", "jwt")
    kind = "".join(c.lower() if c.isascii() else c for c in kind).removeprefix("application/")
    return "crit" not in header and "cty" not in header and kind in ("logout+jwt", "jwt")


def signature_fault(verifier, message, signature):
    if not verifier["alg"].startswith("HS"):
        return "unsupported_alg" if verifier["alg"] == "none" else "invalid_key"
    return None if tokens.mac(verifier["secret"], verifier["alg"], message) == signature else "crypto_error"


def logout_in(verifier, accepted, now, text):
    """The claims of a logout token that is accepted."""
    try:
        header, claims, message, signature = logout_token_of(text)
    except Refused as refused:
        raise Denied("parse " + refused.words) from None
    audiences = [claims["aud"]] if is_text(claims["aud"]) else claims["aud"]
    deny(None if is_known(header) else "unsupported")
    deny(None if claims["iss"] == verifier["issuer"] else "invalid_issuer")
    deny(None if set(audiences) == {verifier["id"]} else "invalid_audience")
    deny(None if header["alg"] == verifier["alg"] != "none" else "wrong_algorithm")
    fault = signature_fault(verifier, message, signature)
    deny("signature " + fault if fault else None)
    deny(None if now < claims["exp"] else "expired")
    deny(None if isinstance(dict(claims["events"]).get(EVENT), plain_claims.Object) else "events")
    deny(None if "sub" in claims or "sid" in claims else "no_name")
    deny("nonce" if "nonce" in claims else None)
    deny("replayed" if claims["jti"] in accepted else None)
    return claims


# ---- sessions: a plain list of (id, subject, sid, end), and a list of accepted token ids


class Site:
    def __init__(self, verifier):
        self.verifier, self.sessions, self.accepted = verifier, [], []

    def keep(self, stays):
        before = len(self.sessions)
        self.sessions = [session for session in self.sessions if stays(session)]
        return before - len(self.sessions)

    def live(self, id, now):
        return [session for session in self.sessions if session[0] == id and now < session[3]]

    def open(self, of):
        end, now = tokens.now_in(of["end"]), tokens.now_in(of["now"])
        deny("ended" if now >= end else None)
        deny("taken" if self.live(of["id"], now) else None)
        self.keep(lambda session: session[0] != of["id"])
        self.sessions.append((of["id"], of["subject"], of.get("sid"), end))
        return "ok"

    def look(self, of):
        found = self.live(of["id"], tokens.now_in(of["now"]))
        return ok([("subject", found[0][1]), ("end", str(found[0][3]))]) if found else "none"

    def close(self, of):
        return "ok" if self.keep(lambda session: session[0] != of["id"]) else "none"

    def sweep(self, of):
        now = tokens.now_in(of["now"])
        return ok([("removed", str(self.keep(lambda session: now < session[3])))])

    def logout(self, of):
        claims = logout_in(self.verifier, self.accepted, tokens.now_in(of["now"]), of["token"])
        self.accepted.append(claims["jti"])
        return ok([("removed", str(self.keep(lambda session: not (
            claims.get("sub", session[1]) == session[1] and claims.get("sid", session[2]) == session[2]))))])


# The names of each call, and those that it may lack.
CALLS = {"open": ({"id", "subject", "end", "now"}, {"sid"}), "look": ({"id", "now"}, set()), "close": ({"id"}, set()),
         "sweep": ({"now"}, set()), "logout": ({"token", "now"}, set())}


def call_of(name, text):
    of = pairs(text)
    found, (needed, optional) = dict(of), CALLS[name]
    if len(found) != len(of) or not needed <= set(found) <= needed | optional:
        raise NoCase
    for moment in ("now", "end"):
        if moment in found:
            tokens.now_in(found[moment])
    return found


def sessions(line):
    of = pairs(line)[1:]
    once = [(name, value) for name, value in of if name not in CALLS]
    verifier = dict(once)
    if len(once) != len(verifier) or set(verifier) != {"id", "issuer", "secret", "alg"}:
        raise NoCase
    if url_fault(verifier["issuer"]) or verifier["alg"] not in tokens.SIGNING:
        raise NoCase
    calls = [(name, call_of(name, value)) for name, value in of if name in CALLS]
    site, answers = Site(verifier), []
    for name, found in calls:
        try:
            answers.append((name, getattr(site, name)(found)))
        except Denied as denied:
            answers.append((name, "refused " + str(denied)))
    return ok(answers)


OPERATIONS = {"sessions": sessions}

# ---- cases by hand and generated


def token(claims, header=None, secret="bbb", raw=None):
    """A token of these claims, or of this text of claims."""
    header = header or {"alg": "HS256"}
    text = raw if raw is not None else json.dumps(claims, separators=(",", ":"), ensure_ascii=False)
    message = ".".join(tokens.encoded(part.encode()) for part in (json.dumps(header, separators=(",", ":")), text))
    alg = header["alg"] if str(header.get("alg")).startswith("HS") else "HS256"
    return message + "." + tokens.encoded(tokens.mac(secret, alg, message))


def claims(jti="j1", **more):
    """Claims of a logout of u1; None takes one away."""
    of = {"iss": "https://example", "aud": "aaa", "iat": 900, "exp": 2000, "jti": jti, "events": {EVENT: {}}, "sub": "u1"}
    of.update(more)
    return {name: value for name, value in of.items() if value is not ...}


def line(calls, alg="HS256", secret="bbb"):
    head = [("op", "sessions"), ("id", "aaa"), ("issuer", "https://example"), ("secret", secret), ("alg", alg)]
    return form(head + [(name, form(of)) for name, of in calls])


def opening(id, subject, sid=None, end=2000, now=1000):
    of = [("id", id), ("subject", subject)] + ([("sid", sid)] if sid is not None else [])
    return "open", of + [("end", str(end)), ("now", str(now))]


def at(name, now=None, **of):
    return name, list(of.items()) + ([("now", str(now))] if now is not None else [])


THREE = [opening("s1", "u1", "x"), opening("s2", "u1", "y"), opening("s3", "u2")]

# A fault of each check, in the order of the checks: what it changes of the header, of the claims and of the secret.
FAULTS = [({"typ": "at+jwt"}, {}, {}), ({}, {"iss": "https://other"}, {}), ({}, {"aud": "b"}, {}), ({"alg": "HS384"}, {}, {}),
          ({}, {}, {"secret": "ccc"}), ({}, {"exp": 1000}, {}), ({}, {"events": {}}, {}), ({}, {"sub": ...}, {}),
          ({}, {"nonce": "n"}, {})]


def ladder():
    """Tokens of one `jti` with all faults, each with one fewer from the front, and the last with none."""
    for first in range(len(FAULTS) + 1):
        header, of, by = {"alg": "HS256"}, {}, {}
        for fault in FAULTS[first:]:
            for change, own in zip(fault, (header, of, by)):
                own.update(change)
        yield token(claims(**of), header, **by)


def by_hand():
    both = token(claims("j1", sid="x"))
    yield line(THREE + [at("logout", 1000, token=both), at("look", 1000, id="s1"), at("look", 1000, id="s2"),
                        at("logout", 1000, token=both), at("logout", 1000, token=token(claims("j2"))),
                        at("look", 1000, id="s2"), at("look", 1000, id="s3")])
    yield line(THREE + [at("look", 1999, id="s3"), at("look", 2000, id="s3"), opening("s3", "u2", None, 3000, 1999),
                        opening("s3", "u2", None, 3000, 2000), at("look", 2999, id="s3"), opening("s4", "u2", None, 1000, 1000)])
    yield line(THREE + [at("close", id="s1"), at("close", id="s1"), at("close", id="s9"), at("sweep", 1999), at("sweep", 2000),
                        at("sweep", 2000), at("look", 1000, id="s2")])
    for typ in ("logout+jwt", "JWT", "application/logout+jwt", "Application/JWT", "LOGOUT+JWT", "jose", "",
                "application/application/jwt", "at+jwt"):
        yield line(THREE + [at("logout", 1000, token=token(claims(), {"alg": "HS256", "typ": typ}))])
    for header in ({"alg": "HS256", "cty": "JWT"}, {"alg": "HS256", "crit": ["exp"]}, {"alg": "HS256", "crit": None},
                   {"alg": "HS256", "typ": None}, {"alg": "HS256", "typ": 1},
                   {"alg": "none"}, {"alg": "A128GCM"}, {"alg": "HS384"}, {"alg": "RS256"}, {"alg": "XX"}, {"typ": "JWT"}):
        yield line(THREE + [at("logout", 1000, token=token(claims(), header))])
    for more in ({"events": {}}, {"events": []}, {"events": None}, {"events": "x"}, {"events": {EVENT: "x"}},
                 {"events": {EVENT: None}}, {"events": {"other": {}, EVENT: {"a": 1}}}, {"events": ...},
                 {"sub": ..., "sid": "x"}, {"sid": "x"}, {"sid": "z"}, {"sub": "u2", "sid": "x"}, {"sub": ...},
                 {"sub": None}, {"sub": None, "sid": None}, {"sid": None}, {"sub": 1}, {"sid": []}, {"sub": "u9"},
                 {"nonce": None}, {"nonce": "n"}, {"nonce": {}}, {"exp": 1000}, {"exp": 1001}, {"exp": "2000"},
                 {"exp": ...}, {"iat": ...}, {"iat": "x"}, {"iat": 5000}, {"jti": ...}, {"jti": 1}, {"jti": ""},
                 {"aud": ["aaa"]}, {"aud": ["aaa", "aaa"]}, {"aud": ["aaa", "b"]}, {"aud": "b"}, {"aud": []}, {"aud": ...},
                 {"iss": "https://example/"}, {"iss": "https://other"}, {"iss": "x"}, {"iss": ...}, {"more": 1}):
        yield line(THREE + [at("logout", 1000, token=token(claims(**more))), at("look", 1000, id="s1"), at("look", 1000, id="s2")])
    twice = '{"iss":"https://example","aud":"aaa","iat":900,"exp":2000,"jti":"j1","events":%s,"sub":"u1"%s}'
    event, none = '{"' + EVENT + '":{}}', '{"' + EVENT + '":1}'
    for events, more in ((event[:-1] + "," + none[1:], ""), (none[:-1] + "," + event[1:], ""), (event, ',"jti":"j2"'),
                         (event, ',"nonce":null,"nonce":1'), (event, ',"a":1,"a":2')):
        yield line(THREE + [at("logout", 1000, token=token(None, raw=twice % (events, more)))])
    good = token(claims())
    unsigned = token(claims(), {"alg": "none"})
    for text in (unsigned[:unsigned.rindex(".") + 1], "", "a.b", good + ".", good[:-1], good[:-1] + ("A" if good[-1] != "A" else "E"), good.replace(".", "!", 1),
                 token(claims(), secret="ccc"), token(None, raw="[]"), token(None, raw="{}")):
        yield line(THREE + [at("logout", 1000, token=text)])
    yield line([at("logout", 1000, token=good), at("logout", 1000, token=good), *THREE, at("logout", 1000, token=good)])
    late = token(claims(exp=1000))
    yield line(THREE + [at("logout", 999, token=late), at("logout", 1000, token=late), at("logout", 999, token=late)])
    # A token that is refused isn't kept: the same, or another of its `jti`, is accepted after it.
    yield line(THREE + [at("logout", 1000, token=late), at("logout", 999, token=late), at("logout", 999, token=late)])
    for refused in (token(claims(nonce="n")), token(claims(), secret="ccc"), token(claims(aud="b"))):
        yield line(THREE + [at("logout", 1000, token=refused), at("logout", 1000, token=good)])
    yield line(THREE + [at("logout", 1000, token=good)] + [at("logout", 1000, token=text) for text in ladder()])
    yield line(THREE + [at("logout", 1000, token=token(claims(exp=...), {"alg": "HS256", "typ": "at+jwt"}))])
    # A session that has ended stands until it is closed, swept or logged out.
    ended = [opening("s1", "u1", None, 1500), opening("s2", "u1"), at("look", 1500, id="s1")]
    yield line(ended + [at("close", id="s1"), at("close", id="s1"), at("logout", 1500, token=good)])
    yield line(ended + [at("logout", 1500, token=good), at("close", id="s1")])
    yield line([opening("s1", "u1", "x", 1500), opening("s1", "u2", "y", 2000, 1500), at("logout", 1500, token=token(claims())),
                at("look", 1500, id="s1"), at("logout", 1500, token=token(claims("j2", sub=..., sid="x"))),
                at("logout", 1500, token=token(claims("j3", sub=..., sid="y"))), at("look", 1500, id="s1")])
    for alg in ("HS384", "HS512", "RS256", "none", "XX"):
        yield line(THREE + [at("logout", 1000, token=token(claims(), {"alg": alg}))], alg)
    yield line([at("look", 1000, id="")]) + "&look=id%3Ds1"
    yield line([opening("", "", "", 2000), at("look", 1000, id="")])


# So many runs of so many calls, over few ids, subjects and sessions of a provider.
RUNS, LENGTH = 20, 60


def generated():
    draw = random.Random(1)
    for _ in range(RUNS):
        now, calls, count = 1000, [], 0
        for _ in range(LENGTH):
            now += draw.choice([0, 0, 1, 5])
            id = "s" + str(draw.randrange(6))
            kind = draw.choice(["open", "open", "open", "look", "look", "close", "sweep", "logout", "logout"])
            if kind == "open":
                sid = draw.choice([None, "x", "y", "z"])
                calls.append(opening(id, "u" + str(draw.randrange(3)), sid, now + draw.choice([0, 1, 10, 40]), now))
            elif kind == "sweep":
                calls.append(at("sweep", now))
            elif kind == "logout":
                count += draw.choice([0, 1, 1, 1])
                names = draw.choice([{"sub": "u0"}, {"sub": "u1"}, {"sub": ..., "sid": "x"}, {"sid": "y"}, {"sub": "u2", "sid": "x"}])
                calls.append(at("logout", now, token=token(claims("j" + str(count), **names))))
            elif kind == "close":
                calls.append(at("close", id=id))
            else:
                calls.append(at("look", now, id=id))
        yield line(calls)


# ---- ID tokens and logout tokens, handed in for each other

STATE, NONCE, VERIFIER = "CSRF123", "NONCE456", "dBjftJeZ4CVP-mB92K27uhbUJU1p1r_wW1gFWFOEjXk"
SIGNS_IN = {"iss": "https://example", "aud": ["aaa"], "exp": 2000, "iat": 900, "nonce": NONCE, "sub": "u1"}


def login(id_token):
    """A script of one login, whose token response holds this text."""
    body = json.dumps({"access_token": "abc", "token_type": "Bearer", "id_token": id_token}, separators=(",", ":"))
    client = [("op", "client"), ("id", "aaa"), ("secret", "bbb"), ("issuer", "https://example"), ("auth", "https://example/a"),
              ("token", "https://example/t"), ("algs", "HS256")]
    begin = [("op", "begin"), ("state", STATE), ("nonce", NONCE), ("verifier", VERIFIER)]
    callback = [("op", "callback"), ("now", "1000"), ("query", tokens.plain_form([("code", "c1"), ("state", STATE)])),
                ("token_status", "200"), ("token_body", body)]
    script = "".join(tokens.plain_form(of) + "\n" for of in (client, begin, callback))
    return tokens.plain_form([("op", "run"), ("script", script)])


def front(id_token, nonce=NONCE):
    """An answer of an implicit flow that holds this text."""
    return tokens.plain_form([
        ("op", "front"), ("query", tokens.plain_form([("state", STATE), ("id_token", id_token)])), ("id", "aaa"),
        ("issuer", "https://example"), ("algs", "HS256"), ("secret", "bbb"), ("state", STATE), ("nonce", nonce), ("now", "1000")])


def apart():
    """Texts, each as a login's ID token in both flows and as a logout token: one alone takes it."""
    event = {EVENT: {}}
    both = {**SIGNS_IN, "jti": "j1", "events": event}
    for text in (token(SIGNS_IN), token(both), token(claims(), {"alg": "HS256", "typ": "logout+jwt"}), token(claims()),
                 token(claims(nonce=None)), token(claims(nonce=""))):
        yield login(text)
        yield front(text)
        yield line(THREE + [at("logout", 1000, token=text)])
    yield front(token(claims()), "")
    yield front(token(claims(nonce="")), "")


def session_cases():
    return [*by_hand(), *generated()]


def apart_cases():
    return list(apart())


def cases():
    return session_cases() + apart_cases()


if __name__ == "__main__":
    run_reader(__doc__, OPERATIONS, cases)
