#!/usr/bin/env python3
"""Reads the claims of an end user by looking back, and writes cases of crates/vectors of that.

    tools/plain_claims.py cases             5,000 generated cases, a line each
    tools/plain_claims.py answers           the line that answers each of them
    tools/plain_claims.py readings          cases of booleans and moments as texts, under each of the four readings
    tools/plain_claims.py readings answers  the line that answers each of these
    tools/plain_claims.py read TEXT         what this reader says of one object

It is a second reader beside oidc_claims, which fills slots in one pass. This one judges each member of
an object against all that stand before it, and then looks each claim up in the whole list (OpenID
Connect Core 1.0 sections 5.1, 5.1.1, 5.1.2 and 5.2).
"""
import json
import math
import re
import sys
from collections import namedtuple
from datetime import datetime, timedelta, timezone
from urllib.parse import quote

Member = namedtuple("Member", "name value text")

# ---- the claims, in the order in which they are written

TEXT, FLAG, MOMENT, ADDRESS = "text", "flag", "moment", "address"

# name, kind of its values, whether it may stand in several languages
CLAIMS = [
    ("sub", TEXT, False),
    ("name", TEXT, True),
    ("given_name", TEXT, True),
    ("family_name", TEXT, True),
    ("middle_name", TEXT, True),
    ("nickname", TEXT, True),
    ("preferred_username", TEXT, False),
    ("profile", TEXT, True),
    ("picture", TEXT, True),
    ("website", TEXT, True),
    ("email", TEXT, False),
    ("email_verified", FLAG, False),
    ("gender", TEXT, False),
    ("birthday", TEXT, False),
    ("birthdate", TEXT, False),
    ("zoneinfo", TEXT, False),
    ("locale", TEXT, False),
    ("phone_number", TEXT, False),
    ("phone_number_verified", FLAG, False),
    ("address", ADDRESS, False),
    ("updated_at", MOMENT, False),
]
KINDS = {name: kind for name, kind, _ in CLAIMS}
LOCALIZED = {name for name, _, localized in CLAIMS if localized}

# The parts of an address, in the order in which they are written: the byte order of their names.
PARTS = ["country", "formatted", "locality", "postal_code", "region", "street_address"]

# The members of user info that are no claims.
FIELDS = ["iss", "aud"]

# The seconds of the first and the last moment that a claim may name.
FIRST, LAST = -377_705_023_201, 253_402_207_200


class Refused(Exception):
    """A place, a kind and a field. The place of a text that is no object is None."""


# ---- members

# How deep the value of a member may nest.
DEEPEST = 127


class Float:
    """A number that isn't whole, or out of range."""


class Object(list):
    """An object's members, as name and value, duplicates kept."""


def fraction(digits):
    """A number that isn't whole. One past the range of a float isn't read at all."""
    if math.isinf(float(digits)):
        raise ValueError
    return Float()


def whole(digits):
    number = int(digits)
    return number if -(2**63) <= number < 2**64 and digits != "-0" else fraction(digits)


def depth(value):
    """How deep a value nests: a text or a number not at all."""
    if isinstance(value, Object):
        return 1 + max((depth(inner) for _, inner in value), default=0)
    return 1 + max(map(depth, value), default=0) if isinstance(value, list) else 0


def holds_float(value):
    """Whether a float is in a value. A later member of the same name replaces an earlier one."""
    if isinstance(value, Object):
        return any(holds_float(inner) for inner in dict(value).values())
    if isinstance(value, list):
        return any(holds_float(inner) for inner in value)
    return isinstance(value, Float)


def is_lone(value):
    """Whether half of a surrogate pair stands in a value by itself, which no UTF-8 has (RFC 3629 section 3)."""
    if isinstance(value, Object):
        return any(is_lone(name) or is_lone(inner) for name, inner in value)
    if isinstance(value, list):
        return any(map(is_lone, value))
    return isinstance(value, str) and any("\ud800" <= c <= "\udfff" for c in value)


def members_of(text):
    """The members of an object, with the texts of their values."""
    def constant(_):
        raise ValueError

    try:
        value = json.loads(
            text, object_pairs_hook=Object, parse_float=fraction, parse_int=whole, parse_constant=constant
        )
    except ValueError:
        raise Refused(None, "syntax", "")
    if not isinstance(value, Object) or any(depth(inner) > DEEPEST for _, inner in value) or is_lone(value):
        raise Refused(None, "syntax", "")
    if any(holds_float(inner) for _, inner in value):
        raise Refused(None, "number", "")
    return [Member(name, inner, part) for (name, inner), part in zip(value, texts_of(text))]


def texts_of(text):
    """The texts of the values of an object that reads."""
    text = text.strip(" \t\r\n")[1:-1]
    items, level, quoted, start, i = [], 0, False, 0, 0
    while i < len(text):
        c = text[i]
        if quoted:
            if c == "\\":
                i += 1
            elif c == '"':
                quoted = False
        elif c == '"':
            quoted = True
        elif c in "{[":
            level += 1
        elif c in "}]":
            level -= 1
        elif c == ":" and level == 0:
            start = i + 1
        elif c == "," and level == 0:
            items.append(text[start:i])
        i += 1
    items.append(text[start:])
    return [item.strip(" \t\r\n") for item in items]


# ---- texts that stand for booleans and moments

Reading = namedtuple("Reading", "booleans moments")
READINGS = {
    "strict": Reading(False, False),
    "booleans": Reading(True, False),
    "moments": Reading(False, True),
    "lenient": Reading(True, True),
}
STRICT = READINGS["strict"]

EPOCH = datetime(1970, 1, 1, tzinfo=timezone.utc)

# `date-time` of RFC 3339 section 5.6. Every digit is one of ASCII.
DATE_TIME = re.compile(
    r"([0-9]{4})-([0-9]{2})-([0-9]{2})[Tt]([0-9]{2}):([0-9]{2}):([0-9]{2})(?:\.([0-9]+))?"
    r"(?:[Zz]|([+-])([0-9]{2}):([0-9]{2}))"
)


class Moment(int):
    """Seconds, rounded down, and whether a fraction stands behind them. Digits past the ninth are dropped."""
    has_fraction = False


def moment_of(text):
    """The moment of a text, by Python's datetime; none where it is no date and time."""
    parts = DATE_TIME.fullmatch(text)
    if not parts:
        return None
    year, month, day, hour, minute, second = (int(part) for part in parts.groups()[:6])
    hours, minutes = int(parts[9] or 0), int(parts[10] or 0)
    if hours > 23 or minutes > 59:
        return None
    # datetime has no year 0. Dates repeat every 400 years, which have 146,097 days.
    cycles = 1 if year == 0 else 0
    try:
        clock = datetime(year + 400 * cycles, month, day, hour, minute, second, tzinfo=timezone.utc)
    except ValueError:
        return None
    ahead = timedelta(hours=hours, minutes=minutes) * (-1 if parts[8] == "-" else 1)
    moment = Moment((clock - EPOCH - ahead - timedelta(days=146_097 * cycles)) // timedelta(seconds=1))
    moment.has_fraction = int((parts[7] or "0")[:9]) > 0
    return moment


def as_read(kind, value, reading):
    """The value that a text stands for. One that is no moment stands for a number that is out of range, since both
    are refused alike."""
    if kind == FLAG and reading.booleans and value in ("true", "false"):
        return value == "true"
    if kind == MOMENT and reading.moments and isinstance(value, str):
        seconds = moment_of(value)
        return LAST + 1 if seconds is None else seconds
    return value


def read_by(members, reading, own=()):
    """The members under a reading: standard claims, and those moments that are a token's own."""
    def kind_of(name):
        return MOMENT if name in own else KINDS.get(key_of(name)[0])

    return [member._replace(value=as_read(kind_of(member.name), member.value, reading)) for member in members]


# ---- judging a member by those before it

def key_of(name):
    """Base and tag of a name. An empty tag is none."""
    base, _, tag = name.partition("#")
    return base, tag or None


def home_of(name):
    if name in FIELDS:
        return "field"
    return "standard" if key_of(name)[0] in KINDS else "additional"


def repeats(before, name):
    base, tag = key_of(name)
    for other in before:
        if key_of(other.name)[0] == base and (base not in LOCALIZED or key_of(other.name)[1] == tag):
            return True
    return False


def part_fault(before, member):
    """Why a member of an address is refused."""
    if member.name not in PARTS:
        return None
    if any(other.name == member.name for other in before):
        return "duplicate", member.name
    return None if member.value is None or isinstance(member.value, str) else ("type", member.name)


def address_fault(member):
    """An address is read again from its own text."""
    if not isinstance(member.value, Object):
        return "type", member.name
    try:
        parts = members_of(member.text)
    except Refused as refused:
        return refused.args[1:]
    for place, part in enumerate(parts):
        fault = part_fault(parts[:place], part)
        if fault:
            return fault
    return None


def value_fault(kind, member):
    value = member.value
    if kind == TEXT:
        return None if isinstance(value, str) else ("type", member.name)
    if kind == FLAG:
        return None if isinstance(value, bool) else ("type", member.name)
    if kind == MOMENT:
        if isinstance(value, bool) or not isinstance(value, int):
            return "type", member.name
        return None if FIRST <= value <= LAST else ("moment", member.name)
    return address_fault(member)


def fault_of(before, member):
    """Why a member is refused after those before it."""
    base, tag = key_of(member.name)
    if home_of(member.name) != "standard":
        return None
    if repeats(before, member.name):
        return "duplicate", member.name
    if base not in LOCALIZED and tag is not None:
        return "tag", member.name
    if base != "sub" and member.value is None:
        return None
    return value_fault(KINDS[base], member)


def check(members):
    for place, member in enumerate(members):
        fault = fault_of(members[:place], member)
        if fault:
            raise Refused(place, *fault)
    if not any(home_of(m.name) == "standard" and key_of(m.name)[0] == "sub" for m in members):
        raise Refused(len(members), "missing", "sub")


# ---- what is written

def address_of(member):
    parts = {part.name: part.value for part in members_of(member.text)}
    return {name: parts[name] for name in PARTS if parts.get(name) is not None}


def claims_of(members):
    """The written claims of a list without a fault: each is looked up in the whole list."""
    out = []
    for name, kind, localized in CLAIMS:
        found = {}
        for member in members:
            base, tag = key_of(member.name)
            if base == name and member.value is not None:
                found[tag] = address_of(member) if kind == ADDRESS else member.value
        for tag in sorted(found, key=lambda tag: b"" if tag is None else b"\0" + tag.encode()):
            out.append((name if tag is None else f"{name}#{tag}", found[tag]))
    return out


def additional_of(members):
    return [(m.name, m.value) for m in members if home_of(m.name) == "additional"]


def written(value):
    """Compact JSON. A nested object's members stand once each, in the byte order of their names."""
    if isinstance(value, Object):
        value = dict(value)
        return "{" + ",".join(pair(name, value[name]) for name in sorted(value, key=str.encode)) + "}"
    if isinstance(value, list):
        return "[" + ",".join(written(inner) for inner in value) + "]"
    return json.dumps(value, ensure_ascii=False, separators=(",", ":"))


def pair(name, value):
    return json.dumps(name, ensure_ascii=False) + ":" + written(value)


def written_object(members):
    return "{" + ",".join(pair(name, value) for name, value in members) + "}"


def form(pairs):
    """The form text of pairs (URL Standard, section 5.2)."""
    def escaped(text):
        return quote(text, safe="*-._ ").replace("~", "%7E").replace(" ", "+")

    return "&".join(f"{escaped(name)}={escaped(value)}" for name, value in pairs)


def answer_of(text, reading=STRICT):
    """What the operation `standard` of crates/vectors answers for an object."""
    try:
        members = read_by(members_of(text), reading)
        check(members)
    except Refused as refused:
        place, kind, field = refused.args
        return "refused " + form([("place", "" if place is None else str(place)), ("kind", kind), ("field", field)])
    claims, additional = written_object(claims_of(members)), written_object(additional_of(members))
    return "ok " + form([("claims", claims), ("additional", additional)])


# ---- generated lists

COUNT = 5_000

TAGS = ["", "", "", "#", "#en", "#en", "#de", "#en#x"]

# The tags of claims that have none.
NO_TAGS = ["", "", "", "", "", "", "#", "#en"]

VALUES = {
    TEXT: ['"a"', '"b"', '""', "null"],
    FLAG: ["true", "false", "null"],
    MOMENT: ["1311280970", "-1", "253402207200", "253402207201", "18446744073709551615", "-377705023202", "null"],
    ADDRESS: [
        '{"country":"x","y":1}',
        '{"region":"r","locality":"l","formatted":"f"}',
        '{"street_address":"s","postal_code":"p","country":null}',
        '{"country":null,"country":"x"}',
        '{"y":1.5,"y":1,"country":1}',
        '{"region":1}',
        "{}",
        "null",
    ],
}

OTHERS = ["1", "[]", "{}", '"x"', "true", "null"]

ADDITIONAL = ["zz", "zz#en", "Name", "exp", "iss", "aud"]


class Choices:
    """A generator of Knuth's MMIX, whose upper bits choose."""

    def __init__(self, state):
        self.state = state

    def below(self, count):
        self.state = (self.state * 6_364_136_223_846_793_005 + 1_442_695_040_888_963_407) % 2**64
        return (self.state >> 33) % count

    def one(self, choices):
        return choices[self.below(len(choices))]

    def member(self, claims):
        """A member, mostly of one of these claims and with a value of its kind."""
        if self.below(8) == 0:
            return f'"{self.one(ADDITIONAL)}":{self.one(OTHERS)}'
        name, kind, localized = self.one(claims)
        value = self.one(OTHERS if self.below(12) == 0 else VALUES[kind])
        return f'"{name}{self.one(TAGS if localized else NO_TAGS)}":{value}'

    def object(self):
        """An object of up to seven members, most often with a subject. Few claims, so that some repeat."""
        claims = [self.one(CLAIMS) for _ in range(4)]
        members = ['"sub":"a"'] if self.below(8) > 0 else []
        members += [self.member(claims) for _ in range(self.below(7))]
        return "{" + ",".join(members) + "}"


def texts():
    choices = Choices(1)
    return [choices.object() for _ in range(COUNT)]


# ---- cases of readings

FLAGS = ['true', 'false', '"true"', '"false"', '"True"', '"False"', '"TRUE"', '"FALSE"', '"tRue"', '" true"', '"true "',
         '"true\\n"', '"t\\u0072ue"', '"truefalse"', '""', '"null"', '"yes"', '"1"', '"0"', '1', '0', '[true]', '["true"]',
         '{}', 'null']

NUMBERS = ["0", "-1", "1640139037", "253402207200", "253402207201", "-377705023201", "-377705023202",
           "18446744073709551615", "-9223372036854775808"]

DATE_TIMES = [
    # spellings of one moment
    "2021-12-22T02:10:37Z", "2021-12-22T02:10:37.000Z", "2021-12-22t02:10:37z", "2021-12-22t03:10:37+01:00",
    "2021-12-21T21:40:37-04:30", "2021-12-22T02:10:37+00:00", "2021-12-22T02:10:37-00:00", "2021-12-23T02:09:37+23:59",
    "2021-12-21T02:11:37-23:59",
    # fractions
    "2021-12-22T02:10:37.5Z", "2021-12-22T02:10:37.123456789Z", "2021-12-22T02:10:37.999999999Z",
    "2021-12-22T02:10:37.1234567891Z", "2021-12-22T02:10:37.9999999999Z", "2021-12-22T02:10:37.00000000000000000001+01:00",
    "2021-12-22T02:10:37.Z", "2021-12-22T02:10:37.", "2021-12-22T02:10:37,5Z", "2021-12-22T02:10:37..5Z",
    "2021-12-22T02:10:37.5.5Z", "2021-12-22T02:10:37.-5Z", "2021-12-22T02:10:37.5 Z",
    # around the epoch, where rounding down is not rounding toward zero
    "1970-01-01T00:00:00Z", "1969-12-31T23:59:59Z", "1969-12-31T23:59:59.5Z", "1970-01-01T00:00:00.5Z",
    "1970-01-01T00:00:00+00:01", "1969-12-31T23:59:00.999999999-00:01",
    # both ends of the range
    "9999-12-30T22:00:00Z", "9999-12-30T22:00:00.999999999Z", "9999-12-30T22:00:01Z", "9999-12-31T21:59:00+23:59",
    "9999-12-31T21:59:01+23:59", "9999-12-31T23:59:59+23:59", "9999-12-31T23:59:59Z", "9999-12-29T22:01:00-23:59",
    "9999-12-29T22:01:01-23:59", "0000-01-01T00:00:00Z", "0000-01-01T00:00:00+23:59", "0000-01-01T00:00:00.5+23:59",
    "0000-02-29T00:00:00Z", "0000-12-31T23:59:59Z", "0001-01-01T00:00:00Z", "0001-01-01T00:00:00-23:59",
    # hours, minutes and seconds
    "2021-12-22T00:00:00Z", "2021-12-22T23:59:59Z", "2021-12-22T24:00:00Z", "2021-12-22T23:60:00Z", "2021-12-22T23:59:60Z",
    "2016-12-31T23:59:60Z", "2021-12-22T2:10:37Z", "2021-12-22T02:1:37Z", "2021-12-22T02:10:7Z", "2021-12-22T02:10Z",
    "2021-12-22T021037Z", "2021-12-22T02:10:370Z", "2021-12-22T-2:10:37Z",
    # offsets
    "2021-12-22T02:10:37+24:00", "2021-12-22T02:10:37-24:00", "2021-12-22T02:10:37+23:60", "2021-12-22T02:10:37-00:60",
    "2021-12-22T02:10:37+0100", "2021-12-22T02:10:37+01", "2021-12-22T02:10:37+1:00", "2021-12-22T02:10:37+01:0",
    "2021-12-22T02:10:37+01:00:00", "2021-12-22T02:10:37+01:00Z", "2021-12-22T02:10:37", "2021-12-22T02:10:37ZZ",
    "2021-12-22T02:10:37UTC", "2021-12-22T02:10:37[UTC]", "2021-12-22T02:10:37Z[UTC]", "2021-12-22T02:10:37+",
    "2021-12-22T02:10:37\u221201:00",
    # days and months
    "1900-02-28T00:00:00Z", "1900-02-29T00:00:00Z", "2000-02-29T00:00:00Z", "2020-02-29T00:00:00Z", "2021-02-28T00:00:00Z",
    "2021-02-29T00:00:00Z", "2020-02-30T00:00:00Z", "2021-04-30T00:00:00Z", "2021-04-31T00:00:00Z", "2021-01-31T00:00:00Z",
    "2021-01-32T00:00:00Z", "2021-12-00T00:00:00Z", "2021-00-22T00:00:00Z", "2021-13-22T00:00:00Z", "2021-1-22T00:00:00Z",
    "2021-12-2T00:00:00Z",
    # years
    "12021-12-22T02:10:37Z", "02021-12-22T02:10:37Z", "+2021-12-22T02:10:37Z", "+002021-12-22T02:10:37Z",
    "-2021-12-22T02:10:37Z", "-0001-12-22T02:10:37Z", "21-12-22T02:10:37Z", "221-12-22T02:10:37Z",
    # separators, white space and what is no date
    "2021-12-22 02:10:37Z", "2021-12-22_02:10:37Z", "2021-12-22T 02:10:37Z", "2021/12/22T02:10:37Z", "2021-12-22T02.10.37Z",
    "20211222T021037Z", "2021-356T02:10:37Z", "2021-W51-3T02:10:37Z", " 2021-12-22T02:10:37Z", "2021-12-22T02:10:37Z ",
    "\t2021-12-22T02:10:37Z", "2021-12-22T02:10:37Z\n", "2021-12-22", "02:10:37Z", "", "Z", "T", "now", "1640139037", "0",
    "-1", "253402207200", "1.5", "true", "null",
    # digits of other scripts
    "\uff12021-12-22T02:10:37Z", "\u0662\u0660\u0662\u0661-12-22T02:10:37Z", "2021-12-22T02:10:3\u0667Z",
    "2021-12-22T02:10:37.\u0665Z", "2021-12-22T02:10:37+0\u0661:00",
]

# Members beside `sub` that show what a reading reaches, and what comes before it.
BESIDE = [
    '"email_verified":"true","phone_number_verified":"false"',
    '"email_verified":"true","email_verified":true', '"email_verified":"no","email_verified":"true"',
    '"email_verified#de":"true"', '"email_verified#":"true"', '"updated_at#de":"2021-12-22T02:10:37Z"',
    '"updated_at":"2021-12-22T02:10:37Z","updated_at":0', '"updated_at":null,"updated_at":"2021-12-22T02:10:37Z"',
    '"updated_at":"2021-12-22T02:10:37Z","email_verified":"True"', '"email_verified":"True","updated_at":"now"',
    '"zz":"true","zz#de":"2021-12-22T02:10:37Z","exp":"2021-12-22T02:10:37Z","Email_verified":"true"',
    '"name":"true","birthdate":"2021-12-22T02:10:37Z","gender":"false"', '"name":true', '"address":{"country":"true"}',
    '"address":{"country":true}', '"updated_at":["2021-12-22T02:10:37Z"]', '"updated_at":{}', '"updated_at":true',
    '"updated_at":null', '"updated_at":1.5',
]


def case(operation, reading, text):
    """A line. The strict reading is the one that no name says."""
    named = "" if reading == "strict" else f"reading={reading}&"
    return f"op={operation}&{named}text=" + text.replace("%", "%25").replace("&", "%26").replace("+", "%2B")


def quoted(text):
    return json.dumps(text, ensure_ascii=False)


def read_objects():
    """Objects, and the name of a reading, which is each of the four."""
    members = ['"email_verified":' + value for value in FLAGS]
    members += ['"updated_at":' + value for value in NUMBERS + [quoted(text) for text in DATE_TIMES]]
    for beside in members + BESIDE:
        for reading in READINGS:
            yield reading, '{"sub":"a",' + beside + "}"


def readings():
    return [case("standard", reading, text) for reading, text in read_objects()]


def main(words):
    if words == ["readings"]:
        for line in readings():
            print(line)
    elif words == ["readings", "answers"]:
        for reading, text in read_objects():
            print(answer_of(text, READINGS[reading]))
    elif words == ["cases"]:
        for text in texts():
            print("op=standard&text=" + text)
    elif words == ["answers"]:
        for text in texts():
            print(answer_of(text))
    elif len(words) == 2 and words[0] == "read":
        print(answer_of(words[1]))
    else:
        sys.exit(__doc__)


if __name__ == "__main__":
    main(sys.argv[1:])
