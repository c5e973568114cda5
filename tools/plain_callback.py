#!/usr/bin/env python3
"""Runs scripts of logins from the begin to the end of the callback, and answers the cases `run` of
crates/vectors_logins.

    tools/plain_callback.py answers   reads cases of run from standard input, and answers each: a line each; any
                                      other line comes back as it came
    tools/plain_callback.py cases     generated cases, a line each: 150 short scripts, and 6 long ones
    tools/plain_callback.py report    reads one script from standard input, and writes its report; the status is
                                      that of the program

It is a second reader beside oidc_login and oidc_cli: RFC 6749 sections 2.3.1 and 4.1.1 to 4.1.4, RFC 7636
sections 4.2 to 4.5, OpenID Connect Core 1.0 sections 3.1.2, 3.1.3 and 5.3. The requests and answers of tokens are
those of plain_answers.py and plain_records.py, ID tokens those of plain_tokens.py, user info and its answers those
of plain_info.py, URLs those of plain_urls.py; the order of what is judged stands here. The pending logins are a plain
list here, which is searched from its front, where the product has a hashed map.
"""
import re
import sys

import plain_claims
import plain_info
import plain_tokens as tokens
import plain_urls as urls
from plain_answers import fits_address, request_pairs
from plain_records import (
    Refused, answer_of, escaped, form, moment_fault, ok, pairs, pairs_in, read_case, run_reader, tokens_in, values,
)

LONGEST_SCRIPT = 67_108_864
LONGEST_QUERY = 1_048_576

# ---- lines of a script

ANSWERS = {layer + name for layer in ("token_", "info_") for name in ("status", "type", "body", "fault")}

# What stands on each kind of line: the names that it needs, and those that it may have.
NAMES = {
    "client": ({"id", "issuer", "auth", "token", "algs"}, {"secret", "userinfo", "redirect", "reading"}),
    "begin": ({"state", "nonce", "verifier"}, {"redirect", "userinfo"}),
    "callback": ({"now", "query"}, ANSWERS),
}


class NoEvent(Exception):
    """A line that is no event in its place."""


def check(holds):
    if not holds:
        raise NoEvent


def fields(line):
    """The operation of a line, and its values by their names. Each name stands once, and no other does."""
    of = pairs_in(line)
    check(of and of[0][0] == "op" and of[0][1] in NAMES)
    op, found = of[0][1], dict(of[1:])
    required, optional = NAMES[op]
    check(len(found) == len(of) - 1 and required <= set(found) <= required | optional)
    return op, found


def check_urls(found, names):
    check(all(urls.parsed(found[name]) is not None for name in names if name in found))


def client_in(line):
    """The client of a script's first line."""
    op, client = fields(line)
    check(op == "client")
    check_urls(client, ["issuer", "auth", "token", "userinfo", "redirect"])
    client["algs"] = client["algs"].split(" ") if client["algs"] else []
    check(all(alg in tokens.SIGNING for alg in client["algs"]))
    check(client.get("reading", "lenient") == "lenient")
    client["reading"] = plain_claims.READINGS["lenient"] if "reading" in client else plain_claims.STRICT
    return client


def begin_in(found):
    check_urls(found, ["redirect"])
    check(found.get("userinfo", "json") in ("json", "jwt"))
    return found


def callback_in(found):
    """A callback, with its moment as a number and its two answers."""
    check(re.fullmatch("-?[0-9]+", found["now"]))
    now = int(found["now"])
    answers = [answer_of(found, layer) for layer in ("token_", "info_")]
    check(not moment_fault(now) and None not in answers)
    is_first_there = "token_status" in found or "token_fault" in found
    check(is_first_there or not any(name.startswith("info_") for name in found))
    return {"query": found["query"], "now": now, "answers": answers}


# ---- the pending logins: a list of begins, in their order


def is_pending(logins, state):
    return any(begin["state"] == state for begin in logins)


def taken(logins, state):
    """The login of this state, which is pending; it leaves the list."""
    return logins.pop([begin["state"] for begin in logins].index(state))


# ---- begins


def authorization_url(client, begin):
    """The authorization URL. A redirect of the begin stands in the place of the client's."""
    of = [("id", client["id"]), ("flow", "code"), ("state", begin["state"]), ("nonce", begin["nonce"]),
          ("verifier", begin["verifier"])]
    of += [("redirect", begin["redirect"])] if "redirect" in begin else []
    return urls.extended(urls.parsed(client["auth"]), urls.list_of(of))


def begin_lines(client, logins, begin):
    if "redirect" in client:
        begin.setdefault("redirect", client["redirect"])
    if not 43 <= len(begin["verifier"].encode()) <= 128:
        return ["begin refused verifier"]
    if "userinfo" in begin and "userinfo" not in client:
        return ["begin refused user_info_endpoint"]
    if is_pending(logins, begin["state"]):
        return ["begin refused pending"]
    url = authorization_url(client, begin)
    if len(url.encode()) > urls.LONGEST:
        return ["begin refused too_long"]
    logins.append(begin)
    return ["begin ok " + url]


# ---- callbacks, in the order in which they are judged


class Denied(Exception):
    """A callback that is refused: the words of the refusal."""


def deny(words):
    if words:
        raise Denied(words)


def named_login(logins, query):
    """The login that a query names, which is pending no longer, whatever comes of it."""
    deny("too_long callback" if len(query.encode()) > LONGEST_QUERY else None)
    states = values(pairs(query), "state")
    deny("state" if len(states) != 1 or not is_pending(logins, states[0]) else None)
    return taken(logins, states[0])


def code_in(query):
    errors, codes = values(pairs(query), "error"), values(pairs(query), "code")
    deny("provider " + escaped(errors[0]) if errors else None)
    deny("callback" if len(codes) != 1 else None)
    return codes[0]


def token_request(client, login, code):
    address = urls.parsed(client["token"])
    deny("token uri" if not fits_address(address) else None)
    own = [("grant_type", "authorization_code"), ("code", code), ("code_verifier", login["verifier"])]
    later = [("redirect_uri", login["redirect"])] if "redirect" in login else []
    return "request " + request_pairs(address, client, True, own, later)


def tokens_answered(client, answer):
    kind, response = answer
    deny("token request" if kind == "fault" else None)
    found, refusal = tokens_in(*response, tokens.id_token_fields(client["reading"]))
    deny(refusal)
    return found


def accepted(client, login, now, found):
    """The ID token among the fields of a token response, which is the login's."""
    deny("no_id_token" if found.get("id_token") is None else None)
    token = tokens.token_of(found["id_token"], client["reading"])
    # The issuer of a script has no keys of its own.
    verifier = {"id": client["id"], "issuer": client["issuer"], "secret": client.get("secret"),
                "algs": client["algs"], "keys": []}
    failure = tokens.first_failure(verifier, login["nonce"], now, token)
    deny("claims " + failure if failure else None)
    deny(tokens.hash_failure(token, found["access_token"]))
    return token


def info_request(client, login, access_token):
    """The request for user info goes to the endpoint's text as it was given."""
    asked, refusal = plain_info.request_pairs(client["userinfo"], access_token, login["userinfo"])
    deny("user_info " + refusal if refusal else None)
    return "request " + form(asked)


def info_answered(client, login, subject, answer):
    """The members of a user info answer about this subject."""
    kind, response = answer
    deny("user_info request" if kind == "fault" else None)
    verifier = {"id": client["id"], "issuer": client["issuer"], "subject": subject,
                "signed": login["userinfo"] == "jwt", "issuer_match": True, "audience_match": True,
                "reading": client["reading"], "secret": None, "algs": ["RS256"], "keys": []}
    try:
        members, refusal = plain_info.judged(verifier, *response)
    except Refused as refused:
        raise Denied("user_info parse " + refused.words) from None
    deny("too_long user_info_answer" if refusal == "too_long" else None)
    deny("user_info " + refusal if refusal else None)
    return members


def signed_in(client, logins, callback, sent):
    """What a callback signs in with. The requests that it sends are added to `sent`."""
    login = named_login(logins, callback["query"])
    sent.append(token_request(client, login, code_in(callback["query"])))
    found = tokens_answered(client, callback["answers"][0])
    token = accepted(client, login, callback["now"], found)
    shown = [("access_token", found["access_token"])]
    if found.get("refresh_token") is not None:
        shown.append(("refresh_token", found["refresh_token"]))
    shown.append(("claims", tokens.written(token.members)))
    if "userinfo" in login:
        sent.append(info_request(client, login, found["access_token"]))
        subject = plain_info.subject_of(token.members)
        members = info_answered(client, login, subject, callback["answers"][1])
        shown.append(("user_info", plain_info.written(members)))
    return shown


def callback_lines(client, logins, callback):
    sent = []
    try:
        verdict = "ok " + form(signed_in(client, logins, callback, sent))
    except Denied as denied:
        verdict = "refused " + str(denied)
    return sent + ["callback " + verdict]


# ---- reports


def step_lines(client, logins, line):
    """The lines of a begin or a callback."""
    op, found = fields(line)
    check(op != "client")
    if op == "begin":
        return begin_lines(client, logins, begin_in(found))
    return callback_lines(client, logins, callback_in(found))


def lines_of(script):
    lines = script.split(b"\n")
    return lines[:-1] if lines[-1] == b"" else lines


def report_lines(script, out):
    """Adds the lines of a report to `out`, and gives the number of the line at fault, or None."""
    if len(script) > LONGEST_SCRIPT:
        return 0
    number, logins = 1, []
    try:
        lines = lines_of(script)
        check(lines)
        client = client_in(lines[0])
        out.append("client ok")
        for number, line in enumerate(lines[1:], 2):
            out += step_lines(client, logins, line)
    except NoEvent:
        return number
    out.append(f"pending {len(logins)}")
    return None


def report(script):
    """Status and report of the bytes of a script."""
    out = []
    fault = report_lines(script, out)
    if fault is not None:
        out.append(f"script fault line {fault}")
    return 0 if fault is None else 3, "".join(line + "\n" for line in out)


# ---- cases


def run(line):
    status, text = report(read_case(line, {"script"})[0]["script"].encode())
    return ok([("status", str(status)), ("report", text)])


OPERATIONS = {"run": run}


# ---- generated cases

SCRIPTS = 150
LONG_SCRIPTS = 6
LONG_LINES = 200

# States that differ in little: by case, a space, a letter more, where they are cut, what a form text escapes.
STATES = ["", "a", "A", "a ", " a", "aa", "b", "ab", "ba", "a&b", "a=b", "a%b", "a+b", "é", "e", "0", "00", "s1", "s2", "s12",
          "s" * 40, "s" * 41, "s" * 40 + "t", "t" + "s" * 40]

# What may be wrong with a callback: its query, the answer to its token request, the ID token there, the user info.
WRONG = ["state", "states", "error", "code", "codes", "token_fault", "token_gone", "token_status", "token_type",
         "token_body", "access_token", "no_id_token", "alg", "secret", "iss", "aud", "exp", "nonce", "at_hash"]
WRONG_INFO = ["info_fault", "info_gone", "info_status", "info_type", "info_subject", "info_claims", "info_claims",
              "info_token", "info_token"]


class Choices(plain_info.Choices):
    """Choices of scripts with up to three logins at a time, most of whose callbacks have one thing wrong, or none."""

    def client_line(self):
        of = [("op", "client"), ("id", "a"), ("issuer", "https://a"),
              ("auth", self.rarely("https://a/", ["https://a?b=c#f"])),
              ("token", self.rarely("https://a/t", ["https://a", "https://a/é"])),
              ("algs", self.rarely("HS256", ["RS256 HS256", "HS384", ""]))]
        of += self.rarely([("secret", "s")], [[], [("secret", "~ s")]])
        endpoint = self.rarely("https://a/u", [None, "https://a/é", "HTTPS://A"])
        of += [] if endpoint is None else [("userinfo", endpoint)]
        return of + self.one([[], [], [("redirect", "https://c/")]])

    def begin_line(self, name):
        of = [("op", "begin"), ("state", "s" + name), ("nonce", "n" + name)]
        of += [("verifier", "v" * self.rarely(43, [43, 42]))]
        of += self.one([[("userinfo", "json")]] * 5 + [[("userinfo", "jwt")], []])
        return of + self.rarely([], [[("redirect", "https://d/?e")]])

    def query(self, name, wrong):
        of = [("code", "c" + name)] if "code" not in wrong else []
        of += [("state", "s" + self.one(["", "3"]) if "state" in wrong else "s" + name)]
        of += [("code", "c")] if "codes" in wrong else []
        of += [("state", "s" + self.one("12"))] if "states" in wrong else []
        of += [("error", self.one(["access_denied", "a b", ""]))] if "error" in wrong else []
        return tokens.plain_form(self.shuffled(of))

    def id_token(self, name, wrong):
        claims = ['"iss":"https://a' + ("/" if "iss" in wrong else "") + '"',
                  '"aud":' + (self.one(['"b"', '["a","b"]']) if "aud" in wrong else self.one(['"a"', '["a"]'])),
                  '"exp":' + ("1000" if "exp" in wrong else "2000"), '"iat":900',
                  '"nonce":"n' + (self.one(["1", "2"]) if "nonce" in wrong else name) + '"', '"sub":"u"']
        claims += self.one([[], [], ['"at_hash":"' + tokens.half_hash("HS256", "t") + '"']])
        claims += ['"at_hash":"x"'] if "at_hash" in wrong else []
        claims += self.one([[], [], ['"name#en":"x"'], ['"zz":[null]']])
        alg = self.one(["HS384", "HS512"]) if "alg" in wrong else "HS256"
        return tokens.signed("{" + ",".join(claims) + "}", "x" if "secret" in wrong else "s", alg)

    def token_body(self, name, wrong):
        access = self.one(["t\\n", "é", "w"]) if "access_token" in wrong else "t"
        members = ['"access_token":"' + access + '"', '"token_type":"Bearer"']
        members += self.one([[], ['"refresh_token":"r"'], ['"expires_in":1,"scope":"a b"']])
        members += [] if "no_id_token" in wrong else ['"id_token":"' + self.id_token(name, wrong) + '"']
        members = members[1:] if "token_body" in wrong else members
        return "{" + ",".join(self.shuffled(members)) + "}"

    def token_answer(self, name, wrong):
        if "token_fault" in wrong:
            return [("token_fault", "1")]
        status = self.one(["400", "201"]) if "token_status" in wrong else "200"
        body = self.one(['{"error":"invalid_grant"}', ""]) if "token_status" in wrong else self.token_body(name, wrong)
        media = "text/html" if "token_type" in wrong else self.one(["application/json", None])
        return [("token_status", status), ("token_body", body)] + ([] if media is None else [("token_type", media)])

    def info_body(self, wrong):
        """The body of a user info answer, and its media type."""
        subject = "v" if "info_subject" in wrong else "u"
        if "info_token" in wrong:
            claims = self.rarely('"iss":"https://a","aud":"a",', ['"iss":"https://b",', '"iss":"https://a",'])
            token = tokens.signed("{" + claims + f'"sub":"{subject}"' + "}", "s", "HS256")
            return self.rarely(token, [self.token(), token + "."]), "application/jwt"
        members = [f'"sub":"{subject}"'] + self.one([[], ['"name":"A"'], ['"zz":{}', '"iss":"https://b"']])
        if "info_claims" in wrong:
            members += [self.member(plain_claims.CLAIMS), self.member(plain_claims.CLAIMS[:1])]
        return "{" + ",".join(self.shuffled(members)) + "}", self.one(["application/json", None])

    def info_answer(self, wrong):
        if "info_fault" in wrong:
            return [("info_fault", "1")]
        body, media = self.info_body(wrong)
        media = self.one(["text/plain", ""]) if "info_type" in wrong else media
        status = self.one(["201", "401"]) if "info_status" in wrong else "200"
        return [("info_status", status), ("info_body", body)] + ([] if media is None else [("info_type", media)])

    def callback_line(self, name):
        wrong = {self.one(WRONG + WRONG_INFO * 2) for _ in range(self.one([0, 0, 1, 1, 1, 2]))}
        of = [("op", "callback"), ("now", self.one(["1000", "1999"])), ("query", self.query(name, wrong))]
        if "token_gone" in wrong:
            return of
        of += self.token_answer(name, wrong)
        return of if "info_gone" in wrong else of + self.info_answer(wrong)

    def name(self, waiting):
        """The name of a login: mostly one of these, where there is one."""
        return self.rarely(self.one(waiting or "123"), "123")

    def later_lines(self, count):
        """Begins and callbacks; rarely a line that stood before, or one that is no event."""
        lines, waiting = [self.begin_line("1")], {"1"}
        for _ in range(count):
            kind = self.below(24)
            if kind == 0:
                lines.append(self.one([[("op", "x")], self.client_line(), [("op", "begin"), ("state", "s1")]]))
            elif kind < 4:
                lines.append(self.one(lines))
            elif kind < 9 or not waiting and kind < 23:
                name = self.name(sorted(set("123") - waiting))
                lines.append(self.begin_line(name))
                waiting.add(name)
            else:
                name = self.name(sorted(waiting))
                lines.append(self.callback_line(name))
                waiting.discard(name)
        return lines

    def script(self):
        lines = [self.client_line()] + self.later_lines(2 + self.below(5))
        return "".join(tokens.plain_form(line) + "\n" for line in lines)


class LongChoices(tokens.Choices):
    """Choices of long scripts, in which very many logins begin and end over few states. Each begin has a nonce of its
    own, so that an answer to one login signs in no other."""

    CLIENT = [("op", "client"), ("id", "a"), ("issuer", "https://a"), ("auth", "https://a"), ("token", "https://a/t"),
              ("algs", "HS256"), ("secret", "s")]

    def begin_line(self, state, number):
        return [("op", "begin"), ("state", state), ("nonce", str(number)), ("verifier", "v" * self.rarely(43, [42]))]

    def query(self, state):
        of = [("state", state), ("code", "c")]
        return tokens.plain_form(self.rarely(of, [of[1:], of + [("state", self.one(STATES))], of[:1], [("error", "x")] + of]))

    def callback_line(self, state, nonce):
        of = [("op", "callback"), ("now", "1000"), ("query", self.query(state))]
        if self.below(3) > 0:
            return of + self.one([[], [("token_fault", "1")]])
        token = tokens.signed(f'{{"iss":"https://a","aud":"a","exp":2000,"iat":900,"nonce":"{nonce}","sub":"u{nonce}"}}', "s", "HS256")
        body = f'{{"access_token":"t{nonce}","token_type":"Bearer","id_token":"{token}"}}'
        return of + [("token_status", "200"), ("token_body", body)]

    def script(self):
        """Half of the callbacks are with the nonce of the state's last begin."""
        lines, nonces = [self.CLIENT], {}
        for number in range(LONG_LINES):
            state = self.one(STATES)
            if self.below(2) == 0:
                lines.append(self.begin_line(state, number))
                nonces.setdefault(state, number)
            else:
                nonce = nonces.pop(state, number) if self.below(2) == 0 else number
                lines.append(self.callback_line(state, nonce))
        return "".join(tokens.plain_form(line) + "\n" for line in lines)


def scripts(choices, count):
    return tokens.distinct(lambda: tokens.plain_form([("op", "run"), ("script", choices.script())]), count)


def short_cases():
    return scripts(Choices(5), SCRIPTS)


def long_cases():
    return scripts(LongChoices(6), LONG_SCRIPTS)


def cases():
    return short_cases() + long_cases()


def main():
    if sys.argv[1:] != ["report"]:
        return run_reader(__doc__, OPERATIONS, cases)
    status, text = report(sys.stdin.buffer.read())
    sys.stdout.write(text)
    sys.exit(status)


if __name__ == "__main__":
    main()
