#!/usr/bin/env python3
"""Case F of document 01, call by call, from Python: prints the same text as case_f.c.

    case_f.py [LIBRARY]     the shared object, or else what POGANDIR_LIBRARY names

Opens a realm, makes the nine calls, and prints after each what it changed. Then a header that is refused, and the same walk as
a file with its listing.
"""

import sys

import pogandir as pg

ROLES = {pg.ROLE_INITIATOR: "initiator", pg.ROLE_RESPONDER: "responder", pg.ROLE_SERVER: "server"}
STAGES = {pg.STAGE_OPENED: "opened", pg.STAGE_AUTHENTICATED: "after step 4", pg.STAGE_DONE: "done"}

CASE_F = [
    pg.step(pg.STEP_INITIATE, a=1, b=2),
    pg.step(pg.STEP_ISSUE, m=4),
    pg.step(pg.STEP_AUTHENTICATE, run=0, m=11),
    pg.step(pg.STEP_RESPOND, a=1, b=2),
    pg.term(pg.KIND_PAIR, 15, 16),
    pg.step(pg.STEP_ACCEPT, run=2, m=17),
    pg.step(pg.STEP_FINISH, run=0, m=18),
    pg.step(pg.STEP_RESPOND, a=1, b=2),
    pg.step(pg.STEP_ACCEPT, run=3, m=17),
]


# Terms in notation.


def parts(tables, i):
    """The parts of a message without its brackets: a pair whose right half is a pair again is one list."""
    word = tables.terms[i]
    if pg.term_kind(word) == pg.KIND_PAIR:
        return notation(tables, pg.term_left(word)) + ", " + parts(tables, pg.term_right(word))
    return notation(tables, i)


def notation(tables, i):
    """p1 a principal, t5 a time, N0 a nonce, K(p1) a long-term key, k1 a session key, [p1, p2] a pair, {p1, t5}k1 an encryption."""
    word = tables.terms[i]
    left = pg.term_left(word)
    kind = pg.term_kind(word)
    if kind == pg.KIND_PRINCIPAL:
        return f"p{left}"
    if kind == pg.KIND_TIME:
        return f"t{pg.term_time(word)}"
    if kind == pg.KIND_NONCE:
        return f"N{left}"
    if kind == pg.KIND_LONG_TERM_KEY:
        return f"K(p{left})"
    if kind == pg.KIND_SESSION_KEY:
        return f"k{left}"
    if kind == pg.KIND_PAIR:
        return "[" + parts(tables, i) + "]"
    return "{" + parts(tables, left) + "}" + notation(tables, pg.term_right(word))


# Lines.


def print_items(name, items):
    """The name before the first item only."""
    for item in items or ["none"]:
        print(f"   {name:16}{item}")
        name = ""


def numbered(tables, numbers):
    return [f"{i}: {notation(tables, i)}" for i in sorted(numbers)]


def run_text(r, row):
    """A run that was only opened holds no key and no times; a server run has no Ta."""
    text = f"{r}: {ROLES[row[pg.RUN_ROLE]]}, a p{row[pg.RUN_A]}, b p{row[pg.RUN_B]}, {STAGES[row[pg.RUN_STAGE]]}"
    if row[pg.RUN_STAGE] != pg.STAGE_OPENED:
        text += f", K k{row[pg.RUN_K]}, Ts {row[pg.RUN_TS]}"
        if row[pg.RUN_ROLE] != pg.ROLE_SERVER:
            text += f", Ta {row[pg.RUN_TA]}"
    return text


def entry_text(e, entry):
    return f"{e}: b p{entry.b}, K k{entry.k}, Ta {entry.ta}"


# A call and its answer in words.


def call_text(tables, record):
    if record.adds:
        return f"add a term of kind {record.kind}, L {record.l}, R {record.r}"
    if record.step == pg.STEP_INITIATE:
        return f"step 1: p{record.a} opens an initiator run for p{record.b} and asks the server"
    if record.step == pg.STEP_RESPOND:
        return f"step 2: p{record.b} opens a responder run for p{record.a}"
    # Case F has steps 1 to 6 alone: the others take term m, which is present in this walk.
    who = "the server" if record.step == pg.STEP_ISSUE else f"run {record.run}"
    return f"step {record.step}: {who} takes {record.m}: {notation(tables, record.m)}"


def answer_text(reply):
    if reply.kind == pg.ANSWER_NUMBER:
        return f"term {reply.number}, {'new' if reply.added == 1 else 'old'}"
    if reply.kind == pg.ANSWER_OK_RUN:
        return f"ok, run {reply.number}, +{reply.added}"
    if reply.kind == pg.ANSWER_OK:
        return f"ok, +{reply.added}"
    return f"refused {reply.number}"


def show_call(tables, number, record, known):
    """Makes one call and prints what it changed; gives back what the intruder then knows."""
    terms = tables.realm.terms
    sent = tables.sent()
    print(f"\n{number}. {call_text(tables, record)}")
    reply = tables.call(record)
    known_after = tables.known()
    print_items("answer", [answer_text(reply)])
    print_items("clock", [tables.realm.clock])
    print_items("terms added", numbered(tables, range(terms, tables.realm.terms)))
    print_items("newly on wire", numbered(tables, tables.sent() - sent))
    print_items("runs", [run_text(r, row) for r, row in enumerate(tables.rows())])
    print_items("replay cache", [entry_text(e, entry) for e, entry in enumerate(tables.entries())])
    print_items("newly derivable", numbered(tables, known_after - known))
    return known_after


def header_text(header):
    return f"a realm of n {header.n}, flags {header.flags}, Ls {header.ls}, La {header.la}"


def show_refused_header(library, header):
    """What a refused header gives is no realm: every call on it is answered 10."""
    opened = library.pogandir_open(header)
    print(f"\n{header_text(header)}: refused {opened.refusal}")
    reply = pg.Tables(library, opened.realm).call(CASE_F[0])
    print_items("its first call", [answer_text(reply)])


def show_file(library, header):
    """Writes the walk as a file and prints the listing of that file."""
    file = library.write(header, CASE_F)
    print(f"\nthe walk as a file: refusal 0, {len(file)} bytes; its listing:")
    print(library.list(file), end="")


def main():
    library = pg.Library(sys.argv[1] if len(sys.argv) > 1 else None)
    header = pg.Header(pg.MARK_HD, 3, 0, 100, 10)
    tables = library.open(header)
    print(f"{header_text(header)}: opened, clock {tables.realm.clock}")
    known = set()
    for number, record in enumerate(CASE_F, 1):
        known = show_call(tables, number, record, known)
    # A realm has at least three principals.
    show_refused_header(library, pg.Header(pg.MARK_HD, 2, 0, 100, 10))
    show_file(library, header)


if __name__ == "__main__":
    main()
