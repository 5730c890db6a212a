"""Pogandir from Python: include/pogandir.h by ctypes, and the tables of a realm.

The library is a shared object that is linked from the archive; README.md has the command. Its path is an argument of
`Library`, or else the environment variable POGANDIR_LIBRARY.

    tables = Library().open(Header(MARK_HD, 3, 0, 100, 10))
    reply = tables.call(step(STEP_INITIATE, a=1, b=2))

The constants have the names of the header without POGANDIR_.
"""

import ctypes
import os

VERSION = "0.8.0"

# How many places each lent table has, and how long files and listings get.
TERMS = 512
RUNS = 64
ROW_WORDS = 7
RUN_WORDS = 448
WIRE_WORDS = 8
CACHE_PLACES = 16
RECORD_WORDS = 7
LISTING_BYTES = 224758
FILE_BYTES = 65536

# Marks, two letters as a number.
MARK_HD = 0x4844
MARK_HW = 0x4857
MARK_H5 = 0x4835
MARK_H4 = 0x4834
MARK_TM = 0x544D
MARK_ST = 0x5354

# Rule sets.
RULES_HD = 0
RULES_H5 = 1
RULES_H4 = 2

# Kinds of terms.
KIND_PRINCIPAL = 0
KIND_TIME = 1
KIND_NONCE = 2
KIND_LONG_TERM_KEY = 3
KIND_SESSION_KEY = 4
KIND_PAIR = 5
KIND_ENCRYPTED = 6

# Nonces and session keys: the first of the intruder's own, and the last one.
FIRST_OWN = 64
LAST_NUMBER = 95

# Steps.
STEP_INITIATE = 1
STEP_RESPOND = 2
STEP_ISSUE = 3
STEP_AUTHENTICATE = 4
STEP_ACCEPT = 5
STEP_FINISH = 6
STEP_TICK = 7
STEP_PURGE = 8
STEP_LEAK = 9
STEP_QUERY = 10

# The words of a row of the table of runs.
RUN_ROLE = 0
RUN_STAGE = 1
RUN_A = 2
RUN_B = 3
RUN_K = 4
RUN_TS = 5
RUN_TA = 6

ROLE_INITIATOR = 1
ROLE_RESPONDER = 2
ROLE_SERVER = 3

STAGE_OPENED = 1
STAGE_AUTHENTICATED = 2
STAGE_DONE = 3

# Kinds of answers.
ANSWER_NUMBER = 0
ANSWER_OK_RUN = 1
ANSWER_OK = 2
ANSWER_REFUSED = 3

# Refusals.
REFUSED_FILE = 1
REFUSED_HEADER = 2
REFUSED_RECORD = 3
REFUSED_KIND = 4
REFUSED_UNUSED = 5
REFUSED_RANGE = 6
REFUSED_TABLES = 10
REFUSED_STAGE = 11
REFUSED_CLOCK = 12
REFUSED_RUNS_FULL = 13
REFUSED_FORM = 14
REFUSED_UNDERIVABLE = 15
REFUSED_TICKET = 16
REFUSED_AUTHENTICATOR = 17
REFUSED_REPLAY = 18
REFUSED_CACHE_FULL = 19
REFUSED_TERMS_FULL = 20
REFUSED_ROOM = 21
REFUSED_AHEAD = 22


# The structs, field by field as in the header.


class Struct(ctypes.Structure):
    """A struct whose numbers fit their fields; ctypes by itself would cut them off."""

    def __init__(self, *values, **named):
        super().__init__(*values, **named)
        given = {**dict(zip((field[0] for field in self._fields_), values)), **named}
        for name, value in given.items():
            if isinstance(value, int) and getattr(self, name) != value:
                raise ValueError(f"{name}: {value} does not fit its field")


class Header(Struct):
    _fields_ = [
        ("mark", ctypes.c_uint16),
        ("n", ctypes.c_uint8),
        ("flags", ctypes.c_uint32),
        ("ls", ctypes.c_uint32),
        ("la", ctypes.c_uint32),
    ]


class Realm(Struct):
    _fields_ = [
        ("n", ctypes.c_uint8),
        ("rules", ctypes.c_uint8),
        ("flags", ctypes.c_uint32),
        ("ls", ctypes.c_uint32),
        ("la", ctypes.c_uint32),
        ("clock", ctypes.c_uint32),
        ("terms", ctypes.c_size_t),
        ("runs", ctypes.c_size_t),
        ("entries", ctypes.c_size_t),
    ]


class Entry(Struct):
    _fields_ = [
        ("b", ctypes.c_uint16),
        ("k", ctypes.c_uint16),
        ("ta", ctypes.c_uint32),
    ]


class Record(Struct):
    _fields_ = [
        ("adds", ctypes.c_bool),
        ("kind", ctypes.c_uint8),
        ("l", ctypes.c_uint16),
        ("r", ctypes.c_uint16),
        ("step", ctypes.c_uint8),
        ("run", ctypes.c_uint8),
        ("a", ctypes.c_uint8),
        ("b", ctypes.c_uint8),
        ("m", ctypes.c_uint16),
        ("t", ctypes.c_uint32),
    ]


class Reply(Struct):
    _fields_ = [
        ("realm", Realm),
        ("kind", ctypes.c_uint8),
        ("number", ctypes.c_uint16),
        ("added", ctypes.c_uint16),
    ]


class Listed(Struct):
    _fields_ = [
        ("fits", ctypes.c_bool),
        ("count", ctypes.c_size_t),
    ]


class Filed(Struct):
    _fields_ = [
        ("refusal", ctypes.c_uint8),
        ("count", ctypes.c_size_t),
    ]


class Opened(Struct):
    _fields_ = [
        ("realm", Realm),
        ("refusal", ctypes.c_uint8),
    ]


_BYTES = ctypes.POINTER(ctypes.c_uint8)
_WORDS = ctypes.POINTER(ctypes.c_uint32)
_LONG_WORDS = ctypes.POINTER(ctypes.c_uint64)
_ENTRIES = ctypes.POINTER(Entry)
_LENGTH = ctypes.c_size_t

# Each function's result, then its arguments.
FUNCTIONS = {
    "pogandir_open": (Opened, [Header]),
    "pogandir_call": (Reply, [Realm, _LONG_WORDS, _LENGTH, _WORDS, _LENGTH, _LONG_WORDS, _LENGTH, _ENTRIES, _LENGTH, Record]),
    "pogandir_known": (ctypes.c_uint8, [Realm, _LONG_WORDS, _LENGTH, _LONG_WORDS, _LENGTH, _LONG_WORDS, _LENGTH]),
    "pogandir_list": (Listed, [_BYTES, _LENGTH, _BYTES, _LENGTH]),
    "pogandir_write": (Filed, [Header, _WORDS, _LENGTH, _BYTES, _LENGTH, _LENGTH]),
}


def term(kind, l, r=0):
    """A call that adds a term."""
    return Record(adds=True, kind=kind, l=l, r=r)


def step(number, run=0, a=0, b=0, m=0, t=0):
    """A call that takes a step."""
    return Record(step=number, run=run, a=a, b=b, m=m, t=t)


def term_kind(word):
    return word >> 32


def term_left(word):
    return word >> 16 & 0xFFFF


def term_right(word):
    return word & 0xFFFF


def term_time(word):
    return word & 0xFFFFFFFF


def term_word(kind, l, r=0):
    """The word of a term, to look for it in a table."""
    return kind << 32 | l << 16 | r


def members(packed):
    """The terms in a packed set: the wire, or what the intruder can derive."""
    return {i for i in range(64 * len(packed)) if packed[i // 64] >> i % 64 & 1}


def words_of(record):
    """A record as pogandir_write takes it: its mark, then its fields."""
    if record.adds:
        return [MARK_TM, record.kind, record.l, record.r, 0, 0, 0]
    return [MARK_ST, record.step, record.run, record.a, record.b, record.m, record.t]


class Refused(Exception):
    """A refusal; `number` says which."""

    def __init__(self, number):
        super().__init__(f"refused {number}")
        self.number = number


class Library:
    """The functions of the shared object at a path."""

    def __init__(self, path=None):
        shared = ctypes.CDLL(path or os.environ["POGANDIR_LIBRARY"])
        for name, (result, arguments) in FUNCTIONS.items():
            function = getattr(shared, name)
            function.restype = result
            function.argtypes = arguments
            setattr(self, name, function)

    def open(self, header):
        """The tables of a new realm; raises Refused, 1 or 2, for a header that opens none."""
        opened = self.pogandir_open(header)
        if opened.refusal != 0:
            raise Refused(opened.refusal)
        return Tables(self, opened.realm)

    def write(self, header, records):
        """A walk file's bytes; raises Refused."""
        words = [word for record in records for word in words_of(record)]
        lent = (ctypes.c_uint32 * max(1, len(words)))(*words)
        out = (ctypes.c_uint8 * FILE_BYTES)()
        filed = self.pogandir_write(header, lent, len(words), out, FILE_BYTES, 0)
        if filed.refusal != 0:
            raise Refused(filed.refusal)
        return bytes(out[:filed.count])

    def list(self, file):
        """The listing of a walk file's bytes, as text."""
        lent = (ctypes.c_uint8 * max(1, len(file)))(*file)
        out = (ctypes.c_uint8 * LISTING_BYTES)()
        listed = self.pogandir_list(lent, len(file), out, LISTING_BYTES)
        return bytes(out[:listed.count]).decode("ascii")


class Tables:
    """A realm and its tables, which are lent to each call."""

    def __init__(self, library, realm):
        self.library = library
        self.realm = realm
        self.terms = (ctypes.c_uint64 * TERMS)()
        self.runs = (ctypes.c_uint32 * RUN_WORDS)()
        self.wire = (ctypes.c_uint64 * WIRE_WORDS)()
        self.cache = (Entry * CACHE_PLACES)()

    def copy(self):
        """The same realm in tables of its own: a call on one leaves the other as it is."""
        other = Tables(self.library, Realm.from_buffer_copy(self.realm))
        for name in ("terms", "runs", "wire", "cache"):
            table = getattr(self, name)
            setattr(other, name, type(table).from_buffer_copy(table))
        return other

    def call(self, record):
        """Adds a term or takes a step. The reply has the realm for the next call."""
        reply = self.library.pogandir_call(
            self.realm, self.terms, TERMS, self.runs, RUN_WORDS, self.wire, WIRE_WORDS, self.cache, CACHE_PLACES, record
        )
        self.realm = reply.realm
        return reply

    def known(self):
        """The terms that the intruder can derive; raises Refused, 10, for tables that do not hold together."""
        out = (ctypes.c_uint64 * WIRE_WORDS)()
        refusal = self.library.pogandir_known(self.realm, self.terms, TERMS, self.wire, WIRE_WORDS, out, WIRE_WORDS)
        if refusal != 0:
            raise Refused(refusal)
        return members(out)

    def sent(self):
        """The terms on the wire."""
        return members(self.wire)

    def rows(self):
        """The rows of the runs: seven words each."""
        return [list(self.runs[r * ROW_WORDS : (r + 1) * ROW_WORDS]) for r in range(self.realm.runs)]

    def entries(self):
        """The entries of the replay cache."""
        return list(self.cache[: self.realm.entries])
