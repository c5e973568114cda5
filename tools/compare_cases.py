#!/usr/bin/env python3
"""Has the second readers answer the cases of the programs of cases, and compares their answers with the expected lines.

    tools/compare_cases.py           the tables of all seven: `stdin` and `stdout` of crates/vectors, crates/vectors_keys,
                                     crates/vectors_discovery, crates/vectors_requests, crates/vectors_tokens,
                                     crates/vectors_logins and crates/vectors_provider
    tools/compare_cases.py NAME ..   the tables of these crates

It writes how many cases of each operation were compared, and each line that a reader answers otherwise, and ends with
status 1 where there is one. It runs no program of the product: that this writes the expected lines, `rt ci` shows.

Cases of an operation without a reader aren't compared, nor are those that hold a piece of ASIDE and are answered
otherwise. These count as differences too: a line that groups cases and isn't the same in both tables, a piece that no
case needs any more, and generated cases that don't stand in their table.
"""
import os
import sys
from collections import Counter

sys.dont_write_bytecode = True

import plain_answers
import plain_callback
import plain_claims
import plain_devices
import plain_discovery
import plain_front
import plain_info
import plain_keys
import plain_provider
import plain_requests
import plain_rsa
import plain_sessions
import plain_tokens
import plain_urls
from plain_records import answer_by, pairs, read_case, reading_in

CRATES = os.path.join(os.path.dirname(os.path.abspath(__file__)), os.pardir, "crates")


def standard(line):
    found, _ = read_case(line, {"text"}, {"reading"})
    return plain_claims.answer_of(found["text"], reading_in(found))


# The operations that have a reader, by the crate that has their cases.
READERS = {
    "vectors": {"standard": standard, **plain_answers.OPERATIONS, **plain_keys.OPERATIONS},
    "vectors_keys": plain_rsa.OPERATIONS,
    "vectors_discovery": plain_discovery.OPERATIONS,
    "vectors_requests": plain_requests.OPERATIONS,
    "vectors_tokens": {**plain_tokens.OPERATIONS, **plain_info.OPERATIONS, **plain_urls.OPERATIONS},
    "vectors_logins": {**plain_callback.OPERATIONS, **plain_front.OPERATIONS, **plain_sessions.OPERATIONS,
                       **plain_devices.OPERATIONS},
    "vectors_provider": plain_provider.OPERATIONS,
}

# Pieces of cases with a URL that the URL Standard writes otherwise, or refuses (sections 3.5, 4.4 and 4.5). The readers
# take URLs as they are written; the expected line is the standard's.
ASIDE = {
    "vectors": [
        "op=code_request&endpoint=https://example&",
        "op=code_request&endpoint=HTTPS://EXAMPLE:443/a/../token&",
        "op=code_request&endpoint=++https://example/to%0A%09ken+&",
        "op=code_request&endpoint=https:\\\\example\\token&",
        "op=code_request&endpoint=https://example/tök+en&",
        "op=code_request&endpoint=https://ü.example/?ü&",
        "op=code_request&endpoint=https://example/%257f%7F&",
        "op=code_request&endpoint=urn:ü%01b%01&",
        "op=code_request&endpoint=https://example/+++",
    ],
    "vectors_requests": [
        "endpoint=HTTPS://EXAMPLE:443/token&",
        "endpoint=HTTPS://EXAMPLE/revoke&",
        "endpoint=https://example/é&",
    ],
    "vectors_keys": [],
    "vectors_discovery": [],
    "vectors_tokens": [
        '"iss":"https://",',
        '"iss":"https://a+b/",',
        '"iss":"https://a:65536/",',
        "&issuer=https://&",
        "op=authorize&endpoint=https://example&",
        "op=logout&endpoint=HTTPS://EXAMPLE:443/end&",
    ],
    "vectors_logins": [],
    "vectors_provider": [],
}


# The generated cases, by the crate in whose table they stand.
GENERATED = {
    "vectors": [lambda: ["op=standard&text=" + text for text in plain_claims.texts()],
                plain_claims.readings],
    "vectors_keys": [],
    "vectors_discovery": [lambda: list(plain_discovery.cases())],
    "vectors_requests": [],
    "vectors_tokens": [plain_tokens.cases, plain_info.cases, plain_urls.cases,
                       lambda: list(plain_tokens.readings()), lambda: list(plain_info.readings())],
    "vectors_logins": [plain_callback.short_cases, plain_callback.long_cases, plain_front.cases,
                       plain_sessions.session_cases, plain_sessions.apart_cases, plain_devices.cases],
    "vectors_provider": [],
}


def lines_of(name, table):
    with open(os.path.join(CRATES, name, table), encoding="utf-8", newline="\n") as lines:
        return lines.read().split("\n")[:-1]


def is_comment(line):
    return not line or line.startswith("#")


def operation_of(line):
    """The operation that a line asks for, where it asks for one."""
    of = pairs(line)
    return of[0][1] if of and of[0][0] == "op" else ""


class Tables:
    """The two tables of a crate, and what was found in them."""

    def __init__(self, name):
        self.name, self.readers = name, READERS[name]
        self.cases, self.expected = lines_of(name, "stdin"), lines_of(name, "stdout")
        self.compared, self.unread, self.needed, self.aside, self.different = Counter(), Counter(), set(), 0, 0

    def differ(self, text):
        self.different += 1
        print(self.name + ": " + text)

    def compare_case(self, number, case, wanted):
        operation = operation_of(case)
        if operation not in self.readers:
            self.unread[operation] += 1
            return
        answer = answer_by(self.readers, case)
        pieces = [piece for piece in ASIDE[self.name] if piece in case]
        if answer == wanted:
            self.compared[operation] += 1
        elif pieces:
            self.aside += 1
            self.needed.update(pieces)
        else:
            self.differ(f"line {number}: {case}\n  expected {wanted}\n  reader   {answer}")

    def compare(self):
        if len(self.cases) != len(self.expected):
            self.differ(f"{len(self.cases)} lines of stdin, {len(self.expected)} of stdout")
            return
        for number, (case, wanted) in enumerate(zip(self.cases, self.expected), 1):
            if not is_comment(case):
                self.compare_case(number, case, wanted)
            elif case != wanted:
                self.differ(f"line {number} of stdin groups cases, and isn't that of stdout")
        for piece in ASIDE[self.name]:
            if piece not in self.needed:
                self.differ(f"no case needs the piece {piece}")
        text = "\n".join(self.cases)
        for generated in GENERATED[self.name]:
            cases = generated()
            if "\n".join(cases) not in text:
                self.differ(f"{len(cases)} generated cases don't stand in stdin, the first of them {cases[0][:80]}")

    def show(self):
        def counts(of):
            return ", ".join(f"{operation} {count}" for operation, count in sorted(of.items()) if operation)

        print(f"{self.name}: {self.compared.total()} answered as expected ({counts(self.compared)})")
        print(f"  {self.aside} set aside, {self.different} different; without a reader: {counts(self.unread)}")


def compare(name):
    """Compares the tables of a crate. True where nothing differs."""
    tables = Tables(name)
    tables.compare()
    tables.show()
    return tables.different == 0


def main(names):
    if not set(names) <= set(READERS):
        sys.exit(__doc__)
    results = [compare(name) for name in names or READERS]
    sys.exit(0 if all(results) else 1)


if __name__ == "__main__":
    main(sys.argv[1:])
