"""Reads form texts, records and the answers to a token request: what plain_tokens.py, plain_answers.py,
plain_info.py, plain_urls.py and plain_callback.py share. It is imported by these, and is no program.

It stands on Python's json and urllib.parse, and on the reader of members of plain_claims.py: URL Standard
sections 5.1 and 5.2, RFC 6749 sections 5.1 and 5.2, RFC 9110 sections 5.5, 5.6.3 and 8.3.1.
"""
import re
import sys
from urllib.parse import quote_plus, unquote_to_bytes

import plain_claims

LONGEST_BODY = 1_048_576

# ---- form texts


def pairs_in(line):
    """The pairs of the bytes of a form text (URL Standard section 5.1)."""
    def read(part):
        return unquote_to_bytes(part.replace(b"+", b" ")).decode("utf-8", "replace")
    cut = [piece.partition(b"=") for piece in line.split(b"&") if piece]
    return [(read(name), read(value)) for name, _, value in cut]


def pairs(text):
    return pairs_in(text.encode())


def values(query, name):
    return [value for key, value in query if key == name]


def escaped(text):
    return quote_plus(text, safe="*-._").replace("~", "%7E")


def form(of):
    return "&".join(escaped(name) + "=" + escaped(value) for name, value in of)


# ---- cases


class NoCase(Exception):
    """A line that is no case."""


class Refused(Exception):
    """A text that doesn't read: the kind of the refusal, and the field."""

    def __init__(self, kind, field=""):
        super().__init__(kind, field)
        self.words = form([("kind", kind), ("field", field)])


def ok(of=()):
    return "ok " + form(of) if of else "ok"


def read_case(line, required, optional=frozenset(), repeated=None):
    """The values of a case by their names, and the list of those of the name that may repeat."""
    of = pairs(line)
    once = [(name, value) for name, value in of[1:] if name != repeated]
    found = dict(once)
    if len(found) != len(once) or not required <= set(found) <= required | optional:
        raise NoCase
    return found, values(of[1:], repeated)


def reading_in(found):
    """The reading that a case names."""
    if found.get("reading") == "strict" or found.get("reading", "strict") not in plain_claims.READINGS:
        raise NoCase
    return plain_claims.READINGS[found.get("reading", "strict")]


def answer_by(operations, line):
    """The answer of a case of one of these operations; any other line as it came."""
    operation = operations.get(re.split("[=&]", line + "=")[1]) if line.startswith("op=") else None
    if operation is None:
        return line
    try:
        return operation(line)
    except NoCase:
        return "no case"
    except Refused as refused:
        return "refused " + refused.words


def run_reader(page, operations, cases=None, readings=None):
    """Runs a reader for the program's words: `cases` and `readings` print generated cases, where it has some, and
    `answers` the answer to each line of standard input. With other words it prints its page."""
    words = sys.argv[1:]
    if words == ["answers"]:
        for line in sys.stdin.read().split("\n")[:-1]:
            print(answer_by(operations, line))
    elif words == ["cases"] and cases:
        for case in cases():
            print(case)
    elif words == ["readings"] and readings:
        for case in readings():
            print(case)
    else:
        sys.exit(page)


# ---- members, and what a value is refused for, where it isn't of a kind


def members_of(text):
    """The members of an object's bytes, in their order."""
    try:
        return plain_claims.members_of(text.decode("utf-8"))
    except (UnicodeDecodeError, RecursionError):
        raise Refused("syntax") from None
    except plain_claims.Refused as refused:
        raise Refused(*refused.args[1:]) from None


def is_text(value):
    return isinstance(value, str)


def is_number(value):
    return isinstance(value, int) and not isinstance(value, bool)


def is_array_of_texts(value):
    is_array = isinstance(value, list) and not isinstance(value, plain_claims.Object)
    return is_array and all(map(is_text, value))


def unless(is_kind):
    return lambda value: None if is_kind(value) else "type"


def url_fault(value):
    if not is_text(value):
        return "type"
    return None if re.match("[A-Za-z][A-Za-z0-9+.-]*:", value) else "url"


def moment_fault(value):
    if not is_number(value):
        return "type"
    return None if plain_claims.FIRST <= value <= plain_claims.LAST else "moment"


text_fault = unless(is_text)
texts_fault = unless(is_array_of_texts)
text_or_texts_fault = unless(lambda value: is_text(value) or is_array_of_texts(value))
flag_fault = unless(lambda value: isinstance(value, bool))
whole_fault = unless(lambda value: is_number(value) and value >= 0)

# ---- records


def record(members, fields, also=None):
    """The fields of a record: the first faulty member refuses, then the first that is missing. `also` has
    further names of fields."""
    found = {}
    kinds = {field: (fault, is_required) for field, fault, is_required in fields}
    for name, value, _ in members:
        field = (also or {}).get(name, name)
        if field not in kinds:
            continue
        fault, is_required = kinds[field]
        if field in found:
            raise Refused("duplicate", name)
        if (value is not None or is_required) and fault(value):
            raise Refused(fault(value), name)
        found[field] = value
    for field, _, is_required in fields:
        if is_required and field not in found:
            raise Refused("missing", field)
    return found


def there(found, names):
    """A pair for each of these fields that is there."""
    return [(name, found[name]) for name in names if found.get(name) is not None]


ERROR = [("error", text_fault, True), ("error_description", text_fault, False), ("error_uri", text_fault, False)]
TOKENS = [("access_token", text_fault, True), ("token_type", text_fault, True),
          ("expires_in", whole_fault, False), ("refresh_token", text_fault, False), ("scope", text_fault, False)]


def token_type_of(text):
    """A type of tokens, whose letters count in either case, if they are of ASCII."""
    return text.encode().lower().decode()


def cut_scopes(found):
    return [("scopes", found["scope"].replace(" ", "\n"))] if found.get("scope") is not None else []


# ---- the answer to a token request


def has_essence(value, expected):
    """Whether the bytes of a header's value have this essence of a media type."""
    is_plain = all(byte == 9 or 32 <= byte <= 126 for byte in value)
    return is_plain and value.partition(b";")[0].strip(b" \t").lower() == expected.encode().lower()


def answer_of(line, layer=""):
    """What the provider answers: `ok` and a response, or a fault; None where the line can't be. The names on the
    line begin with `layer`."""
    found = {name: line[layer + name] for name in ("status", "type", "body", "fault") if layer + name in line}
    if "status" not in found:
        wrong = "type" in found or "body" in found or found.get("fault", "1") != "1"
        return None if wrong else ("fault", None)
    status, kind = found["status"], found.get("type")
    if "fault" in found or not re.fullmatch("[1-9][0-9]{2}", status):
        return None
    if kind is not None and not all(byte == 9 or 32 <= byte <= 126 for byte in kind.encode()):
        return None
    return ("ok", (int(status), kind, found.get("body", "").encode()))


def tokens_of(members, further=()):
    """The fields of a token response: all faults of its own come before those of the further ones."""
    return {**record(members, TOKENS), **record(members, further)}


def tokens_in(status, content_type, body, further=()):
    """The fields of an answer, or the words of its refusal."""
    if len(body) > LONGEST_BODY:
        return None, "too_long token_answer"
    try:
        if status != 200:
            if not body:
                return None, "token empty_body"
            return None, "token server " + escaped(record(members_of(body), ERROR)["error"])
        if content_type is not None and not has_essence(content_type.encode(), "application/json"):
            return None, "token media_type"
        if not body:
            return None, "token empty_body"
        return tokens_of(members_of(body), further), None
    except Refused as refused:
        return None, "token parse " + refused.words
