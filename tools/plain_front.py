#!/usr/bin/env python3
"""Judges the answers of implicit and hybrid flows, and answers the cases `front` of crates/vectors_logins.

    tools/plain_front.py answers   reads cases of front from standard input, and answers each: a line each; any other
                                   line comes back as it came
    tools/plain_front.py cases     90 generated cases, a line each

It is a second reader beside `front_channel` of oidc_login: RFC 6749 sections 3.1, 4.2.2 and 10.12, OpenID Connect Core
1.0 sections 3.2.2.5 to 3.2.2.11 and 3.3.2.5 to 3.3.2.12. ID tokens, keys and hashes are those of plain_tokens.py; the
order of what is judged stands here.
"""
import plain_tokens as tokens
from plain_info import flag
from plain_callback import LONGEST_QUERY, Denied, deny
from plain_records import Refused, escaped, ok, pairs, read_case, reading_in, run_reader, values

# The hashes that an ID token may hold: its claim, the name of what that is a hash of, and the refusal of another.
HASHES = [("at_hash", "access_token", "token_hash"), ("c_hash", "code", "code_hash")]


def hash_failures(token, query, demanded):
    """What is wrong with what stands beside an ID token, by the hashes that it has. One that it hasn't binds nothing,
    but for the claims that are demanded."""
    alg, own = token.header["alg"], tokens.own_of(token.members)
    beside = [(own.get(claim), values(query, name), refusal, claim in demanded) for claim, name, refusal in HASHES]
    has_hash = tokens.digest_by(alg) is not None
    failures = ["signing unsupported_alg" for claimed, found, _, _ in beside
                if claimed is not None and found and not has_hash]
    for claimed, found, refusal, is_demanded in beside:
        is_other = has_hash and claimed is not None and [tokens.half_hash(alg, text) for text in found] != [claimed]
        is_absent = is_demanded and claimed is None
        if len(found) > 1 or found and (is_other or is_absent):
            failures.append(refusal)
    return failures


def judged(client, state, nonce, now, text):
    """The ID token of the form text of an answer, read under the client's reading, and the pairs of that."""
    deny("too_long" if len(text.encode()) > LONGEST_QUERY else None)
    query = pairs(text)
    deny("state" if values(query, "state") != [state] else None)
    errors, found = values(query, "error"), values(query, "id_token")
    deny("provider " + escaped(errors[0]) if errors else None)
    deny("no_id_token" if len(found) != 1 else None)
    try:
        token = tokens.token_of(found[0], client["reading"])
    except Refused as refused:
        raise Denied("parse " + refused.words) from None
    failure = tokens.first_failure(client, nonce, now, token)
    deny("claims " + failure if failure else None)
    deny(next(iter(hash_failures(token, query, client["demanded"])), None))
    return token, query


def front(line):
    needed = {"query", "id", "issuer", "algs", "state", "nonce", "now"}
    found, keys = read_case(line, needed, {"secret", "reading", "code_hash"}, "key")
    client, now = tokens.client_in(found, keys), tokens.now_in(found["now"])
    client["reading"] = reading_in(found)
    client["demanded"] = ["c_hash"] if flag(found, "code_hash") else []
    try:
        token, query = judged(client, found["state"], found["nonce"], now, found["query"])
    except Denied as denied:
        return "refused " + str(denied)
    beside = [(name, text) for _, name, _ in HASHES for text in values(query, name)]
    return ok([("claims", tokens.written(token.members))] + beside)


OPERATIONS = {"front": front}

# ---- generated cases

CASES = 90

# What may be wrong with an answer: its state, its error, its ID token, what stands beside that.
WRONG = ["state", "states", "error", "id_token", "id_tokens", "text", "alg", "key", "iss", "aud", "exp", "nonce",
         "at_hash", "at_hash", "c_hash", "c_hash", "access_tokens", "codes"]
STATES = ["s", "s", "", "a b", "a&b=c", "é", "%41"]
OTHERS = ["S", "s ", "t", ""]


class Choices(tokens.Choices):
    """Choices of answers, most of which have one thing wrong, or none."""

    def hash_claim(self, claim, alg, text, wrong):
        """A hash, mostly that of this text, and of `x` where it is wrong. EdDSA has none: there it is any text."""
        if claim in wrong:
            text = "x"
        elif self.below(3) == 0:
            return []
        return [f'"{claim}":"' + ("h" if alg == "EdDSA" else tokens.half_hash(alg, text)) + '"']

    def id_token(self, alg, wrong):
        claims = ['"iss":"https://a' + ("/" if "iss" in wrong else "") + '"',
                  '"aud":' + (self.one(['"b"', '["a","b"]']) if "aud" in wrong else self.one(['"a"', '["a"]'])),
                  '"exp":' + ("1000" if "exp" in wrong else "2000"), '"iat":900',
                  '"nonce":"' + ("m" if "nonce" in wrong else "n") + '"', '"sub":"u"']
        claims += self.hash_claim("at_hash", alg, "t", wrong) + self.hash_claim("c_hash", alg, "c", wrong)
        claims = "{" + ",".join(self.shuffled(claims)) + "}"
        if alg.startswith("HS"):
            return tokens.signed(claims, "x" if "key" in wrong else "s", alg)
        header = f'{{"alg":"{alg}"}}'
        return ".".join(tokens.encoded(part) for part in (header.encode(), claims.encode(), b"\1"))

    def query(self, state, alg, wrong):
        of = [("state", self.one(OTHERS) if "state" in wrong else state)]
        of += [("state", state)] if "states" in wrong else []
        of += [("error", self.one(["access_denied", "a b", ""]))] if "error" in wrong else []
        token = self.id_token(alg, wrong)
        of += [("id_token", token[1:] if "text" in wrong else token)] if "id_token" not in wrong else []
        of += [("id_token", token)] if "id_tokens" in wrong else []
        for name, text, again in ("access_token", "t", "access_tokens"), ("code", "c", "codes"):
            of += [(name, text)] if again in wrong or self.below(4) > 0 else []
            of += [(name, self.one([text, "x"]))] if again in wrong else []
        return tokens.plain_form(self.shuffled(of))

    def case(self):
        wrong = {self.one(WRONG) for _ in range(self.one([0, 0, 1, 1, 1, 2]))}
        alg, state = self.one(["HS256", "HS256", "HS384", "RS256", "ES512", "EdDSA"]), self.one(STATES)
        line = [("op", "front"), ("query", self.query(state, alg, wrong)), ("id", "a"), ("issuer", "https://a"),
                ("algs", "none" if "alg" in wrong else "PS256 " + alg), ("state", state), ("nonce", "n"),
                ("now", self.one(["1000", "1999"]))]
        if alg.startswith("HS"):
            return tokens.plain_form(line + [("secret", "s")])
        kind = tokens.KEY_TYPES.get(alg[:2], "OKP")
        return tokens.plain_form(line + [("key", f"{kind}:sig::" + ("02" if "key" in wrong else "01"))])


def cases():
    return tokens.distinct(Choices(7).case, CASES)


if __name__ == "__main__":
    run_reader(__doc__, OPERATIONS, cases)
