/* Pogandir from C and C++: the Kerberos exchange of a realm against a
 * Dolev-Yao intruder, call by call over the caller's own tables, and whole
 * walk files.
 *
 * The functions are those of the crate `exported`; `tools/archive`
 * writes them to target/staticlib/libexported.a. What each is said to do here
 * is proved of its source; docs/TRUST.md says what stands outside the proof.
 * docs/MODEL.md explains the realm, its terms, its steps and its refusals.
 *
 * Pointers and lengths. A table is a pointer and its number of elements.
 *   - Each pointer is valid for its length and aligned for its element. It is
 *     not null, also where the length is 0.
 *   - What is written overlaps nothing else that is handed over.
 *   - A `bool` is 0 or 1.
 *   - Nobody else reads or writes the tables during a call.
 * Nothing else is required. The tables, the realm and the fields of a call may
 * hold any values, and a table of pogandir_call or pogandir_known that is lent
 * with other than its full number of places is answered 10; neither is
 * undefined.
 *
 * No pointer is kept after a call, and there is no global state. So separate
 * tables can be used from separate threads.
 *
 * For 64-bit targets; the layouts are asserted below. C99 and later, C++11 and
 * later.
 */
#ifndef POGANDIR_H
#define POGANDIR_H

#include <stdbool.h>
#include <stddef.h>
#include <stdint.h>

#define POGANDIR_VERSION "0.8.0"
#define POGANDIR_VERSION_MAJOR 0
#define POGANDIR_VERSION_MINOR 8
#define POGANDIR_VERSION_PATCH 0

#ifdef __cplusplus
extern "C" {
#endif

/* ---- numbers ----------------------------------------------------------- */

/* How many places each lent table has, and how long files and listings get. */
enum {
    POGANDIR_TERMS = 512,           /* terms: words of 64 bits */
    POGANDIR_RUNS = 64,             /* rows in the table of runs */
    POGANDIR_ROW_WORDS = 7,         /* words in a row */
    POGANDIR_RUN_WORDS = 448,       /* runs: words of 32 bits, 64 rows of 7 */
    POGANDIR_WIRE_WORDS = 8,        /* a packed set of terms: words of 64 bits */
    POGANDIR_CACHE_PLACES = 16,     /* the replay cache: entries */
    POGANDIR_RECORD_WORDS = 7,      /* words of a record for pogandir_write */
    POGANDIR_LISTING_BYTES = 224758,/* room for the listing of any file */
    POGANDIR_FILE_BYTES = 65536     /* a walk file at most */
};

/* Marks, two letters as a number. The first four begin a file, and each of them
 * names a rule set. */
enum {
    POGANDIR_MARK_HD = 0x4844,      /* a header, 3 to 16 principals */
    POGANDIR_MARK_HW = 0x4857,      /* a header, 3 to 32 principals */
    POGANDIR_MARK_H5 = 0x4835,      /* a header, 3 to 32 principals */
    POGANDIR_MARK_H4 = 0x4834,      /* a header, 3 to 32 principals */
    POGANDIR_MARK_TM = 0x544D,      /* a term */
    POGANDIR_MARK_ST = 0x5354       /* a step */
};

/* Rule sets: what steps 3 and 4 send and step 4 takes. docs/MODEL.md has them. */
enum {
    POGANDIR_RULES_HD = 0,          /* HD, HW: the server sends the ticket apart */
    POGANDIR_RULES_H5 = 1,          /* the initiator passes it on, beside its part */
    POGANDIR_RULES_H4 = 2           /* the initiator passes it on, inside its part */
};

/* Kinds of terms, with their operands. */
enum {
    POGANDIR_KIND_PRINCIPAL = 0,    /* L: the principal's number */
    POGANDIR_KIND_TIME = 1,         /* L * 65536 + R */
    POGANDIR_KIND_NONCE = 2,        /* L: 0 to 95 */
    POGANDIR_KIND_LONG_TERM_KEY = 3,/* L: the principal's number */
    POGANDIR_KIND_SESSION_KEY = 4,  /* L: 0 to 95 */
    POGANDIR_KIND_PAIR = 5,         /* terms L and R */
    POGANDIR_KIND_ENCRYPTED = 6     /* term L under the key that is term R */
};

/* Nonces and session keys: the last one, and the first of the intruder's. */
enum {
    POGANDIR_FIRST_OWN = 64,
    POGANDIR_LAST_NUMBER = 95
};

/* Steps, with the fields that each uses. */
enum {
    POGANDIR_STEP_INITIATE = 1,     /* a, b: an initiator run opens and asks */
    POGANDIR_STEP_RESPOND = 2,      /* a, b: a responder run of b opens for a */
    POGANDIR_STEP_ISSUE = 3,        /* m: the server answers a request */
    POGANDIR_STEP_AUTHENTICATE = 4, /* run, m: the initiator takes the reply */
    POGANDIR_STEP_ACCEPT = 5,       /* run, m: the responder takes a delivery */
    POGANDIR_STEP_FINISH = 6,       /* run, m: the initiator takes the answer */
    POGANDIR_STEP_TICK = 7,         /* t: the clock becomes t */
    POGANDIR_STEP_PURGE = 8,        /* b: b forgets entries past their life */
    POGANDIR_STEP_LEAK = 9,         /* run: a server run's key leaks */
    POGANDIR_STEP_QUERY = 10        /* m: can the intruder derive it? */
};

/* The words of a row of the table of runs; row r begins at word 7 * r. What is
 * not yet taken of k, ts and ta is 0, which is also a key and a time: the stage
 * tells which. */
enum {
    POGANDIR_RUN_ROLE = 0,
    POGANDIR_RUN_STAGE = 1,
    POGANDIR_RUN_A = 2,
    POGANDIR_RUN_B = 3,
    POGANDIR_RUN_K = 4,
    POGANDIR_RUN_TS = 5,
    POGANDIR_RUN_TA = 6
};

enum {
    POGANDIR_ROLE_INITIATOR = 1,
    POGANDIR_ROLE_RESPONDER = 2,
    POGANDIR_ROLE_SERVER = 3
};

enum {
    POGANDIR_STAGE_OPENED = 1,
    POGANDIR_STAGE_AUTHENTICATED = 2, /* an initiator after step 4 */
    POGANDIR_STAGE_DONE = 3
};

/* Kinds of answers: what `number` of a reply is. */
enum {
    POGANDIR_ANSWER_NUMBER = 0,     /* a term: its number; added is 1 if it is new */
    POGANDIR_ANSWER_OK_RUN = 1,     /* a step: the run that it opened or names */
    POGANDIR_ANSWER_OK = 2,         /* a step that names no run: 0 */
    POGANDIR_ANSWER_REFUSED = 3     /* the number of the refusal */
};

/* Refusals. 10 comes before all others, 22 between 17 and 18, the rest in
 * rising order; the first that applies is given. */
enum {
    POGANDIR_REFUSED_FILE = 1,          /* over 65536 bytes, or no known header first */
    POGANDIR_REFUSED_HEADER = 2,        /* a header value */
    POGANDIR_REFUSED_RECORD = 3,        /* another mark, or a record cut short */
    POGANDIR_REFUSED_KIND = 4,          /* no such kind or step */
    POGANDIR_REFUSED_UNUSED = 5,        /* an unused field is not 0 */
    POGANDIR_REFUSED_RANGE = 6,         /* a field out of range, or not present */
    POGANDIR_REFUSED_TABLES = 10,       /* the tables do not hold together */
    POGANDIR_REFUSED_STAGE = 11,        /* the run's role or stage does not fit */
    POGANDIR_REFUSED_CLOCK = 12,        /* the clock would go back */
    POGANDIR_REFUSED_RUNS_FULL = 13,    /* 64 runs exist */
    POGANDIR_REFUSED_FORM = 14,         /* m has not the step's form */
    POGANDIR_REFUSED_UNDERIVABLE = 15,  /* the intruder cannot derive m */
    POGANDIR_REFUSED_TICKET = 16,       /* the ticket's life is over */
    POGANDIR_REFUSED_AUTHENTICATOR = 17,/* the authenticator's life is over */
    POGANDIR_REFUSED_REPLAY = 18,       /* the entry is in the replay cache */
    POGANDIR_REFUSED_CACHE_FULL = 19,   /* the cache holds 16 entries */
    POGANDIR_REFUSED_TERMS_FULL = 20,   /* the new terms do not all fit */
    POGANDIR_REFUSED_ROOM = 21,         /* no room in the buffer for the walk */
    POGANDIR_REFUSED_AHEAD = 22         /* the authenticator's time is ahead */
};

/* ---- types ------------------------------------------------------------- */

/* A header, as a walk file begins with it. */
typedef struct pogandir_header {
    uint16_t mark;      /* POGANDIR_MARK_HD, _HW, _H5 or _H4 */
    uint8_t n;          /* principals, the server among them */
    uint32_t flags;     /* bit p marks principal p bad */
    uint32_t ls;        /* ticket life */
    uint32_t la;        /* authenticator life */
} pogandir_header;

/* A realm: its header's values, its clock, and how many places of each table
 * are in use. It goes by value: after a call the reply has the next one. It has
 * padding, so two are compared by their fields. */
typedef struct pogandir_realm {
    uint8_t n;
    uint8_t rules;      /* POGANDIR_RULES_..; any other number is answered 10 */
    uint32_t flags;
    uint32_t ls;
    uint32_t la;
    uint32_t clock;
    size_t terms;
    size_t runs;
    size_t entries;
} pogandir_realm;

/* An entry of the replay cache. */
typedef struct pogandir_entry {
    uint16_t b;         /* the responder */
    uint16_t k;         /* the number of the session key */
    uint32_t ta;        /* the authenticator's time */
} pogandir_entry;

/* A call. Where `adds`, a term of kind, l and r; else a step, of the fields
 * from `step` on. Those of the other sort are not read. */
typedef struct pogandir_record {
    bool adds;
    uint8_t kind;
    uint16_t l;
    uint16_t r;
    uint8_t step;
    uint8_t run;
    uint8_t a;
    uint8_t b;
    uint16_t m;
    uint32_t t;
} pogandir_record;

/* The answer to a call. */
typedef struct pogandir_reply {
    pogandir_realm realm;   /* the realm after the call */
    uint8_t kind;           /* POGANDIR_ANSWER_.. */
    uint16_t number;        /* a term, a run, 0 or a refusal, by the kind */
    uint16_t added;         /* how many terms were added */
} pogandir_reply;

/* What pogandir_list did. */
typedef struct pogandir_listed {
    bool fits;          /* whether the buffer has room for any listing */
    size_t count;       /* the bytes of the listing, or 0 */
} pogandir_listed;

/* What pogandir_write did. */
typedef struct pogandir_filed {
    uint8_t refusal;    /* 0: written */
    size_t count;       /* the bytes of the file, or 0 */
} pogandir_filed;

/* What pogandir_open made. */
typedef struct pogandir_opened {
    pogandir_realm realm;   /* the new realm, or zeros */
    uint8_t refusal;        /* 0: opened */
} pogandir_opened;

/* ---- functions --------------------------------------------------------- */

/* A new realm: the header's values, its mark's rule set, clock 0, empty tables.
 *
 * refusal is 0 and the realm is new; or 1, the mark is not known; or 2, a
 * header value: n below 3 or above the mark's limit, a flag on principal 0 or
 * at n and above, a life of 0. A refused header gives a realm of zeros, on
 * which every call is answered 10.
 *
 * The tables of a new realm are the caller's: all of the full number of places
 * and no bit set in the wire. Places of terms, runs and cache may hold anything,
 * since none past its count is read. */
pogandir_opened pogandir_open(pogandir_header header);

/* Adds a term or takes a step.
 *
 * terms has POGANDIR_TERMS places, runs POGANDIR_RUN_WORDS, wire
 * POGANDIR_WIRE_WORDS and cache POGANDIR_CACHE_PLACES; any other length is
 * answered 10.
 *
 * The answer is the first refusal that applies, or what the call gives:
 *   - a term: POGANDIR_ANSWER_NUMBER, its number, and added is 1 if it is new,
 *     0 if it was present;
 *   - steps 1 to 3: POGANDIR_ANSWER_OK_RUN and the run that was opened; steps
 *     4, 5, 6 and 9 the run that they name; added is how many terms are new;
 *   - steps 7, 8 and 10: POGANDIR_ANSWER_OK.
 *
 * Refused: the realm of the reply is that of the call, and every place of
 * every table is as it was. Accepted: the realm of the reply has the new clock
 * and counts, and is the one for the next call; new terms stand behind the
 * others, what was sent is marked on the wire, and the row of the run and the
 * cache are as the step says. All other places keep their values, but those
 * that forgetting freed, which become 0.
 *
 * New terms stand in this order: each after its parts, left before right, body
 * before key; docs/MODEL.md has it with an example.
 *
 * Places of terms, runs and cache at or past their counts are not read. A mark
 * on the wire at or past the number of terms is answered 10; so to undo a call,
 * copy the realm and the tables before it and bring them back. Lowering the
 * counts is not enough. */
pogandir_reply pogandir_call(pogandir_realm realm,
                             uint64_t *terms, size_t terms_length,
                             uint32_t *runs, size_t runs_length,
                             uint64_t *wire, size_t wire_length,
                             pogandir_entry *cache, size_t cache_length,
                             pogandir_record record);

/* Which terms the intruder can derive, all at once.
 *
 * Reads the realm's header values and its number of terms, the terms and the
 * wire. The clock, the runs and the replay cache have no part in it. out has
 * POGANDIR_WIRE_WORDS words.
 *
 * 0: bit i of out (see pogandir_has) is set if and only if term i is present
 * and the intruder can derive it. 10: the header values, the terms and the
 * wire do not hold together, or a length is not the full one; out is as it
 * was. No other table is written. */
uint8_t pogandir_known(pogandir_realm realm,
                       const uint64_t *terms, size_t terms_length,
                       const uint64_t *wire, size_t wire_length,
                       uint64_t *out, size_t out_length);

/* The listing of a walk file, whatever its bytes.
 *
 * If out has at least POGANDIR_LISTING_BYTES, fits is true, the first count
 * bytes of out are the listing, and the others are as they were. A shorter
 * buffer: fits is false, count 0, and every byte is as it was. */
pogandir_listed pogandir_list(const uint8_t *file, size_t file_length,
                              uint8_t *out, size_t out_length);

/* A header and a list of records as a walk file, into out from byte `at` on.
 *
 * words has POGANDIR_RECORD_WORDS words for each record: its mark, then its
 * fields in the order of the file (TM: kind, L, R, and three that are not
 * read; ST: step, run, a, b, m, t).
 *
 * refusal is 0, count bytes from `at` on are the file, and all other bytes are
 * as they were. Or a refusal, the first that applies, and every byte is as it
 * was: 1 (the file would be over POGANDIR_FILE_BYTES, or the header's mark is
 * not known), 2, then 3 to 6 of the first record that has one, and 21 last, if
 * fewer bytes are left at the offset than the file needs. 3 is an unknown mark
 * or a number of words that is no multiple of POGANDIR_RECORD_WORDS; a word that
 * is wider than its field gets what the field gets. Whether a run or a term is
 * there is not looked at: only the walk can tell. */
pogandir_filed pogandir_write(pogandir_header header,
                              const uint32_t *words, size_t words_length,
                              uint8_t *out, size_t out_length, size_t at);

/* ---- helpers ----------------------------------------------------------- */

/* A term's word is kind * 2^32 + L * 2^16 + R. */
static inline uint32_t pogandir_term_kind(uint64_t word)
{
    return (uint32_t)(word >> 32);
}

/* L: the number of an atom, the left of a pair, the body of an encryption. */
static inline uint16_t pogandir_term_left(uint64_t word)
{
    return (uint16_t)(word >> 16 & 0xFFFFu);
}

/* R: the right of a pair, the key of an encryption. */
static inline uint16_t pogandir_term_right(uint64_t word)
{
    return (uint16_t)(word & 0xFFFFu);
}

/* The time that a time term stands for. */
static inline uint32_t pogandir_term_time(uint64_t word)
{
    return (uint32_t)(word & 0xFFFFFFFFu);
}

/* The word of a term, to look for it in a table. */
static inline uint64_t pogandir_term_word(uint8_t kind, uint16_t left, uint16_t right)
{
    return (uint64_t)kind << 32 | (uint64_t)left << 16 | (uint64_t)right;
}

/* Whether term i, below POGANDIR_TERMS, is in a packed set: the wire, or what
 * pogandir_known gave. */
static inline bool pogandir_has(const uint64_t *set, size_t i)
{
    return (set[i / 64] >> (i % 64) & 1u) != 0;
}

#ifdef __cplusplus
}
#endif

/* ---- layouts ----------------------------------------------------------- */

/* C++11 and C11 assert as they are; in C99 a false condition is an array of a
 * negative size. */
#if defined(__cplusplus)
#define POGANDIR_ASSERT(condition, name) static_assert(condition, #name)
#elif defined(__STDC_VERSION__) && __STDC_VERSION__ >= 201112L
#define POGANDIR_ASSERT(condition, name) _Static_assert(condition, #name)
#else
#define POGANDIR_ASSERT(condition, name) typedef char pogandir_assert_##name[(condition) ? 1 : -1]
#endif

#define POGANDIR_SIZE(type, size) \
    POGANDIR_ASSERT(sizeof(pogandir_##type) == (size), size_of_##type)
#define POGANDIR_AT(type, field, offset) \
    POGANDIR_ASSERT(offsetof(pogandir_##type, field) == (offset), offset_of_##type##_##field)

POGANDIR_ASSERT(sizeof(size_t) == 8, size_of_size_t);
POGANDIR_ASSERT(sizeof(bool) == 1, size_of_bool);

POGANDIR_SIZE(header, 16);
POGANDIR_AT(header, mark, 0);
POGANDIR_AT(header, n, 2);
POGANDIR_AT(header, flags, 4);
POGANDIR_AT(header, ls, 8);
POGANDIR_AT(header, la, 12);

POGANDIR_SIZE(realm, 48);
POGANDIR_AT(realm, n, 0);
POGANDIR_AT(realm, rules, 1);
POGANDIR_AT(realm, flags, 4);
POGANDIR_AT(realm, ls, 8);
POGANDIR_AT(realm, la, 12);
POGANDIR_AT(realm, clock, 16);
POGANDIR_AT(realm, terms, 24);
POGANDIR_AT(realm, runs, 32);
POGANDIR_AT(realm, entries, 40);

POGANDIR_SIZE(entry, 8);
POGANDIR_AT(entry, b, 0);
POGANDIR_AT(entry, k, 2);
POGANDIR_AT(entry, ta, 4);

POGANDIR_SIZE(record, 16);
POGANDIR_AT(record, adds, 0);
POGANDIR_AT(record, kind, 1);
POGANDIR_AT(record, l, 2);
POGANDIR_AT(record, r, 4);
POGANDIR_AT(record, step, 6);
POGANDIR_AT(record, run, 7);
POGANDIR_AT(record, a, 8);
POGANDIR_AT(record, b, 9);
POGANDIR_AT(record, m, 10);
POGANDIR_AT(record, t, 12);

POGANDIR_SIZE(reply, 56);
POGANDIR_AT(reply, realm, 0);
POGANDIR_AT(reply, kind, 48);
POGANDIR_AT(reply, number, 50);
POGANDIR_AT(reply, added, 52);

POGANDIR_SIZE(listed, 16);
POGANDIR_AT(listed, fits, 0);
POGANDIR_AT(listed, count, 8);

POGANDIR_SIZE(filed, 16);
POGANDIR_AT(filed, refusal, 0);
POGANDIR_AT(filed, count, 8);

POGANDIR_SIZE(opened, 56);
POGANDIR_AT(opened, realm, 0);
POGANDIR_AT(opened, refusal, 48);

#undef POGANDIR_AT
#undef POGANDIR_SIZE
#undef POGANDIR_ASSERT

#endif
