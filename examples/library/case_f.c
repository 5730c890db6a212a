/* Case F of document 01, call by call, from C.
 *
 * Opens a realm, makes the nine calls, and prints after each what it changed.
 * Then a header that is refused, and the same walk as a file with its listing.
 * case_f.py prints the same text. */
#include <inttypes.h>
#include <stdio.h>
#include <stdlib.h>

#include "pogandir.h"

/* ---- a realm and its tables -------------------------------------------- */

/* The caller owns the tables and lends them to each call. `known` is what the
 * intruder can derive; it is asked for after each call. */
typedef struct {
    pogandir_realm realm;
    uint64_t terms[POGANDIR_TERMS];
    uint32_t runs[POGANDIR_RUN_WORDS];
    uint64_t wire[POGANDIR_WIRE_WORDS];
    pogandir_entry cache[POGANDIR_CACHE_PLACES];
    uint64_t known[POGANDIR_WIRE_WORDS];
} Tables;

/* A call on the tables. The reply has the realm for the next call. */
static pogandir_reply call(Tables *tables, pogandir_record record)
{
    pogandir_reply reply = pogandir_call(
        tables->realm, tables->terms, POGANDIR_TERMS, tables->runs, POGANDIR_RUN_WORDS,
        tables->wire, POGANDIR_WIRE_WORDS, tables->cache, POGANDIR_CACHE_PLACES, record);
    tables->realm = reply.realm;
    return reply;
}

/* Asks what the intruder can derive. Tables that calls have made hold
 * together, so this is never refused here. */
static void ask_known(Tables *tables)
{
    uint8_t refusal = pogandir_known(
        tables->realm, tables->terms, POGANDIR_TERMS,
        tables->wire, POGANDIR_WIRE_WORDS, tables->known, POGANDIR_WIRE_WORDS);
    if (refusal != 0) {
        fprintf(stderr, "pogandir_known: refused %u\n", refusal);
        exit(1);
    }
}

/* ---- terms in notation ------------------------------------------------- */

static void print_term(const Tables *tables, size_t i);

/* The parts of a message without its brackets: a pair whose right half is a
 * pair again is one list. */
static void print_parts(const Tables *tables, size_t i)
{
    uint64_t word = tables->terms[i];
    while (pogandir_term_kind(word) == POGANDIR_KIND_PAIR) {
        print_term(tables, pogandir_term_left(word));
        printf(", ");
        i = pogandir_term_right(word);
        word = tables->terms[i];
    }
    print_term(tables, i);
}

/* p1 a principal, t5 a time, N0 a nonce, K(p1) a long-term key, k1 a session
 * key, [p1, p2] a pair, {p1, t5}k1 an encryption. */
static void print_term(const Tables *tables, size_t i)
{
    uint64_t word = tables->terms[i];
    unsigned left = pogandir_term_left(word);
    switch (pogandir_term_kind(word)) {
    case POGANDIR_KIND_PRINCIPAL:
        printf("p%u", left);
        break;
    case POGANDIR_KIND_TIME:
        printf("t%" PRIu32, pogandir_term_time(word));
        break;
    case POGANDIR_KIND_NONCE:
        printf("N%u", left);
        break;
    case POGANDIR_KIND_LONG_TERM_KEY:
        printf("K(p%u)", left);
        break;
    case POGANDIR_KIND_SESSION_KEY:
        printf("k%u", left);
        break;
    case POGANDIR_KIND_PAIR:
        printf("[");
        print_parts(tables, i);
        printf("]");
        break;
    default: /* POGANDIR_KIND_ENCRYPTED: the tables have no other kind */
        printf("{");
        print_parts(tables, left);
        printf("}");
        print_term(tables, pogandir_term_right(word));
    }
}

/* ---- lines ------------------------------------------------------------- */

/* The head of an item: its name before the first item of its sort only. */
static void print_head(const char *name, size_t items)
{
    printf("   %-16s", items == 0 ? name : "");
}

static void print_none(const char *name, size_t items)
{
    if (items == 0) {
        print_head(name, items);
        printf("none\n");
    }
}

static void print_numbered(const char *name, size_t items, const Tables *tables, size_t i)
{
    print_head(name, items);
    printf("%zu: ", i);
    print_term(tables, i);
    printf("\n");
}

static void print_added(const Tables *before, const Tables *after)
{
    size_t items = 0;
    for (size_t i = before->realm.terms; i < after->realm.terms; i++) {
        print_numbered("terms added", items++, after, i);
    }
    print_none("terms added", items);
}

/* The terms that are in a packed set after the call and were not before. */
static void print_new_members(const char *name, const Tables *after,
                              const uint64_t *set_before, const uint64_t *set_after)
{
    size_t items = 0;
    for (size_t i = 0; i < after->realm.terms; i++) {
        if (pogandir_has(set_after, i) && !pogandir_has(set_before, i)) {
            print_numbered(name, items++, after, i);
        }
    }
    print_none(name, items);
}

static const char *role_name(uint32_t role)
{
    switch (role) {
    case POGANDIR_ROLE_INITIATOR:
        return "initiator";
    case POGANDIR_ROLE_RESPONDER:
        return "responder";
    default:
        return "server";
    }
}

static const char *stage_name(uint32_t stage)
{
    switch (stage) {
    case POGANDIR_STAGE_OPENED:
        return "opened";
    case POGANDIR_STAGE_AUTHENTICATED:
        return "after step 4";
    default:
        return "done";
    }
}

/* A run that was only opened holds no key and no times; a server run has no
 * Ta. */
static void print_run(const Tables *tables, size_t r)
{
    const uint32_t *row = tables->runs + r * POGANDIR_ROW_WORDS;
    printf("%zu: %s, a p%" PRIu32 ", b p%" PRIu32 ", %s", r, role_name(row[POGANDIR_RUN_ROLE]),
           row[POGANDIR_RUN_A], row[POGANDIR_RUN_B], stage_name(row[POGANDIR_RUN_STAGE]));
    if (row[POGANDIR_RUN_STAGE] != POGANDIR_STAGE_OPENED) {
        printf(", K k%" PRIu32 ", Ts %" PRIu32, row[POGANDIR_RUN_K], row[POGANDIR_RUN_TS]);
        if (row[POGANDIR_RUN_ROLE] != POGANDIR_ROLE_SERVER) {
            printf(", Ta %" PRIu32, row[POGANDIR_RUN_TA]);
        }
    }
    printf("\n");
}

static void print_runs(const Tables *tables)
{
    for (size_t r = 0; r < tables->realm.runs; r++) {
        print_head("runs", r);
        print_run(tables, r);
    }
    print_none("runs", tables->realm.runs);
}

static void print_cache(const Tables *tables)
{
    for (size_t e = 0; e < tables->realm.entries; e++) {
        pogandir_entry entry = tables->cache[e];
        print_head("replay cache", e);
        printf("%zu: b p%u, K k%u, Ta %" PRIu32 "\n", e, entry.b, entry.k, entry.ta);
    }
    print_none("replay cache", tables->realm.entries);
}

/* ---- a call and its answer in words ------------------------------------ */

/* What a step takes: term m, which is present in this walk. */
static void print_taken(const Tables *tables, const char *who, pogandir_record record)
{
    printf("%s takes %u: ", who, record.m);
    print_term(tables, record.m);
}

static void print_call(const Tables *tables, pogandir_record record)
{
    char run[16];
    snprintf(run, sizeof run, "run %u", record.run);
    if (record.adds) {
        printf("add a term of kind %u, L %u, R %u", record.kind, record.l, record.r);
        return;
    }
    printf("step %u: ", record.step);
    switch (record.step) {
    case POGANDIR_STEP_INITIATE:
        printf("p%u opens an initiator run for p%u and asks the server", record.a, record.b);
        break;
    case POGANDIR_STEP_RESPOND:
        printf("p%u opens a responder run for p%u", record.b, record.a);
        break;
    case POGANDIR_STEP_ISSUE:
        print_taken(tables, "the server", record);
        break;
    default: /* case F has steps 1 to 6 alone */
        print_taken(tables, run, record);
    }
}

static void print_answer(const char *name, pogandir_reply reply)
{
    print_head(name, 0);
    switch (reply.kind) {
    case POGANDIR_ANSWER_NUMBER:
        printf("term %u, %s\n", reply.number, reply.added == 1 ? "new" : "old");
        break;
    case POGANDIR_ANSWER_OK_RUN:
        printf("ok, run %u, +%u\n", reply.number, reply.added);
        break;
    case POGANDIR_ANSWER_OK:
        printf("ok, +%u\n", reply.added);
        break;
    default: /* POGANDIR_ANSWER_REFUSED */
        printf("refused %u\n", reply.number);
    }
}

/* Makes one call and prints what it changed. */
static void show_call(Tables *tables, size_t number, pogandir_record record)
{
    Tables before = *tables;
    printf("\n%zu. ", number);
    print_call(tables, record);
    printf("\n");
    pogandir_reply reply = call(tables, record);
    ask_known(tables);
    print_answer("answer", reply);
    print_head("clock", 0);
    printf("%" PRIu32 "\n", tables->realm.clock);
    print_added(&before, tables);
    print_new_members("newly on wire", tables, before.wire, tables->wire);
    print_runs(tables);
    print_cache(tables);
    print_new_members("newly derivable", tables, before.known, tables->known);
}

/* ---- the walk as a file ------------------------------------------------ */

/* A record as pogandir_write takes it: its mark, then its fields. */
static void put_words(uint32_t *words, pogandir_record record)
{
    if (record.adds) {
        words[0] = POGANDIR_MARK_TM;
        words[1] = record.kind;
        words[2] = record.l;
        words[3] = record.r;
        return;
    }
    words[0] = POGANDIR_MARK_ST;
    words[1] = record.step;
    words[2] = record.run;
    words[3] = record.a;
    words[4] = record.b;
    words[5] = record.m;
    words[6] = record.t;
}

/* Writes the walk as a file and prints the listing of that file. */
static void show_file(pogandir_header header, const pogandir_record *records, size_t count)
{
    static uint32_t words[POGANDIR_RECORD_WORDS * 16];
    static uint8_t file[POGANDIR_FILE_BYTES];
    static uint8_t listing[POGANDIR_LISTING_BYTES];
    for (size_t i = 0; i < count; i++) {
        put_words(words + i * POGANDIR_RECORD_WORDS, records[i]);
    }
    pogandir_filed filed =
        pogandir_write(header, words, count * POGANDIR_RECORD_WORDS, file, sizeof file, 0);
    printf("\nthe walk as a file: refusal %u, %zu bytes; its listing:\n", filed.refusal, filed.count);
    pogandir_listed listed = pogandir_list(file, filed.count, listing, sizeof listing);
    fwrite(listing, 1, listed.count, stdout);
}

/* ---- case F ------------------------------------------------------------ */

static const pogandir_record CASE_F[] = {
    {.step = POGANDIR_STEP_INITIATE, .a = 1, .b = 2},
    {.step = POGANDIR_STEP_ISSUE, .m = 4},
    {.step = POGANDIR_STEP_AUTHENTICATE, .run = 0, .m = 11},
    {.step = POGANDIR_STEP_RESPOND, .a = 1, .b = 2},
    {.adds = true, .kind = POGANDIR_KIND_PAIR, .l = 15, .r = 16},
    {.step = POGANDIR_STEP_ACCEPT, .run = 2, .m = 17},
    {.step = POGANDIR_STEP_FINISH, .run = 0, .m = 18},
    {.step = POGANDIR_STEP_RESPOND, .a = 1, .b = 2},
    {.step = POGANDIR_STEP_ACCEPT, .run = 3, .m = 17},
};

static const size_t CALLS = sizeof CASE_F / sizeof CASE_F[0];

/* Opens a realm and says so; the tables are new, with nothing on the wire. */
static void open_realm(Tables *tables, pogandir_header header)
{
    pogandir_opened opened = pogandir_open(header);
    *tables = (Tables){.realm = opened.realm};
    printf("a realm of n %u, flags %" PRIu32 ", Ls %" PRIu32 ", La %" PRIu32 ": ",
           header.n, header.flags, header.ls, header.la);
    if (opened.refusal == 0) {
        printf("opened, clock %" PRIu32 "\n", opened.realm.clock);
    } else {
        printf("refused %u\n", opened.refusal);
    }
}

int main(void)
{
    static Tables tables;
    pogandir_header header = {.mark = POGANDIR_MARK_HD, .n = 3, .flags = 0, .ls = 100, .la = 10};
    open_realm(&tables, header);
    for (size_t i = 0; i < CALLS; i++) {
        show_call(&tables, i + 1, CASE_F[i]);
    }

    /* A realm has at least three principals. What a refused header gives is
     * no realm: every call on it is answered 10. */
    pogandir_header too_few = header;
    too_few.n = 2;
    printf("\n");
    open_realm(&tables, too_few);
    print_answer("its first call", call(&tables, CASE_F[0]));

    show_file(header, CASE_F, CALLS);
    return 0;
}
