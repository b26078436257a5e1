/*
 * Does the library answer as docs/RULES.md says, called from C? The tests, in order:
 *
 *   worked      plays the texts of ../worked, most of them worked examples of docs/RULES.md and docs/FORMATS.md, call by
 *               call: with short and long keys, with arrays of 0 to 3 lets, and with each allocation refused in turn
 *   refusals    each code, in the order in which it is tested, and at both ends of each range
 *   checks      lt_check on the worked texts and on the faulty ones of docs/FORMATS.md, these whole and cut into pieces of
 *               every length
 *   random      CALLS random calls, 1,000,000 by default, beside the rules in plain C (rules.c), in which every case of
 *               the rules must occur (cases.h)
 *
 *     test FOLDER_OF_WORKED_TEXTS
 */
#include "cases.h"
#include "locktable.h"
#include "rules.h"

#include <inttypes.h>
#include <stdio.h>
#include <stdlib.h>
#include <string.h>

#ifndef CALLS
#define CALLS 1000000
#endif

#define WANT(x) \
    do { \
        if (!(x)) { \
            fprintf(stderr, "%s:%d: %s\n", __FILE__, __LINE__, #x); \
            exit(1); \
        } \
    } while (0)

/* THE HEAP: over malloc, and the request that is due to fail does. */

struct rattle_block {
    bool ok;
    void *at;
};

static size_t refuse_in; /* 1: the next request fails; 0: none does */
static size_t asked;     /* how many requests there were */

/* From where the tables hash their keys. */
#define START 7
static char nowhere[16];

struct rattle_block rattle_alloc(size_t size, size_t align);
struct rattle_block rattle_realloc(void *at, size_t kept, size_t size, size_t align);
void rattle_dealloc(void *at);

static bool is_refused(void) {
    asked++;
    return refuse_in > 0 && --refuse_in == 0;
}

struct rattle_block rattle_alloc(size_t size, size_t align) {
    if (is_refused()) return (struct rattle_block){false, nowhere};
    WANT(align <= 16);
    return (struct rattle_block){true, malloc(size > 0 ? size : align)};
}

struct rattle_block rattle_realloc(void *at, size_t kept, size_t size, size_t align) {
    if (is_refused()) return (struct rattle_block){false, nowhere};
    WANT(align <= 16);
    void *block = malloc(size > 0 ? size : align);
    memcpy(block, at, kept < size ? kept : size);
    free(at);
    return (struct rattle_block){true, block};
}

void rattle_dealloc(void *at) {
    free(at);
}

/* WHAT WAS MET: every code that a call answered. */

static bool met[64];

static uint32_t note(uint32_t code) {
    WANT(code < 64);
    met[code] = true;
    return code;
}

/* ONE CALL, as a value. */

static uint32_t ask(struct lt_table *table, const struct call *call, struct lt_through *lets, size_t room,
                    size_t *count, uint64_t *txn) {
    const uint8_t *key = (const uint8_t *)call->key;
    const struct lt_txn by = {call->by.txn, call->by.wall, call->by.logical};
    const struct request *by_request = &call->by;
    const struct lt_request request = {by_request->number, by_request->txn, by_request->wall, by_request->logical,
                                       by_request->wait, by_request->pass, call->longest, call->writes};
    switch (call->kind) {
    case VISIT: return note(lt_table_visit(table, key, call->key_len, &request, lets, room, count));
    case ACQUIRE: return note(lt_table_acquire(table, key, call->key_len, &by, lets, room, count));
    case UPDATE: return note(lt_table_update(table, key, call->key_len, &by, lets, room, count));
    case FINISH: return note(lt_table_finish(table, key, call->key_len, call->by.txn, lets, room, count));
    case LEAVE: return note(lt_table_leave(table, key, call->key_len, call->by.number, lets, room, count));
    case LOOK: return note(lt_table_look(table, key, call->key_len, call->by.number, txn));
    }
    abort();
}

/* THE STATE: everything that the queries tell of a key, as text. */

static void print_queued(FILE *out, const struct lt_queued *queued) {
    fprintf(out, " %" PRIu64 ".%u/%" PRIu64 "/%" PRIu64 ".%u/%u/%d", queued->number, queued->wait, queued->txn,
            queued->wall, queued->logical, queued->pass, queued->active);
}

static void print_key(FILE *out, struct lt_table *table, const char *name, size_t name_len) {
    const uint8_t *key = (const uint8_t *)name;
    struct lt_key state;
    size_t count = 99;
    WANT(lt_table_key(table, key, name_len, &state) == LT_DONE);
    const size_t most = state.writers + state.readers + 1;
    struct lt_queued *queued = malloc(most * sizeof *queued);
    WANT(queued);
    fprintf(out, "%.*s %" PRIu64 " %" PRIu64 ".%u %" PRIu64 " reservation", (int)name_len, name, state.holder,
            state.wall, state.logical, state.distinguished);
    print_queued(out, &state.reservation);
    fprintf(out, " writers");
    WANT(lt_table_writers(table, key, name_len, queued, most, &count) == LT_DONE && count == state.writers);
    for (size_t i = 0; i < count; i++) print_queued(out, &queued[i]);
    fprintf(out, " readers");
    WANT(lt_table_readers(table, key, name_len, queued, most, &count) == LT_DONE && count == state.readers);
    for (size_t i = 0; i < count; i++) print_queued(out, &queued[i]);
    free(queued);
    fprintf(out, "\n");
}

static void print_model_request(FILE *out, const struct request *request, bool active) {
    fprintf(out, " %" PRIu64 ".%u/%" PRIu64 "/%" PRIu64 ".%u/%u/%d", request->number, request->wait, request->txn,
            request->wall, request->logical, request->pass, active);
}

/* The same text, of the rules in plain C. */
static void print_model_key(FILE *out, const struct record *record, const char *name, size_t name_len) {
    const struct request none = {0, 0, 0, 0, 0, 0};
    fprintf(out, "%.*s %" PRIu64 " %" PRIu64 ".%u %" PRIu64 " reservation", (int)name_len, name, record->holder,
            record->wall, record->logical, record->distinguished);
    print_model_request(out, record->is_reserved ? &record->reservation : &none, false);
    fprintf(out, " writers");
    for (size_t i = 0; i < record->writers; i++)
        print_model_request(out, &record->writer[i].request, record->writer[i].active);
    fprintf(out, " readers");
    for (size_t i = 0; i < record->readers; i++) print_model_request(out, &record->reader[i], true);
    fprintf(out, "\n");
}

/* All keys that have a record, in order, three with each call. The caller frees the text. */
static char *state_of(struct lt_table *table) {
    char *text;
    size_t size, count, refusing = refuse_in;
    struct lt_key_name names[3], after = {0};
    refuse_in = 0;
    FILE *out = open_memstream(&text, &size);
    WANT(out);
    do {
        WANT(lt_table_keys(table, after.bytes, after.len, names, 3, &count) == LT_DONE && count <= 3);
        for (size_t i = 0; i < count; i++) print_key(out, table, (const char *)names[i].bytes, names[i].len);
        if (count > 0) after = names[count - 1];
    } while (count == 3);
    fclose(out);
    refuse_in = refusing;
    return text;
}

/* STEPS WITH REFUSED MEMORY AND FEW PLACES FOR LETS. */

static const struct lt_through untouched = {77, 78, 79};

static bool same_let(const struct lt_through *one, const struct lt_through *other) {
    return one->number == other->number && one->wait == other->wait && one->pass == other->pass;
}

static void collect(const struct lt_through *array, size_t count, struct through *lets, size_t *all) {
    for (size_t i = 0; i < count; i++)
        lets[(*all)++] = (struct through){array[i].number, array[i].wait, array[i].pass};
}

/* Makes the call with an array of `room` lets, and collects all of its lets. If `refuses`, each allocation is refused
   in turn first: the call then answers LT_MEMORY and changes nothing. */
static uint32_t step(struct lt_table *table, const struct call *call, size_t room, bool refuses, struct through *lets,
                     size_t *all, uint64_t *txn) {
    struct lt_through array[8];
    size_t count = 99;
    uint32_t code;
    for (size_t i = 0; i < 8; i++) array[i] = untouched;
    *txn = 99;
    *all = 0;
    char *before = refuses ? state_of(table) : NULL;
    for (size_t refused = 1;; refused++) {
        refuse_in = refuses ? refused : 0;
        code = ask(table, call, array, room, &count, txn);
        bool was_refused = refuses && refuse_in == 0;
        refuse_in = 0;
        WANT(code != LT_MEMORY || was_refused);
        /* An acquire of a long key that has a record does without a copy of the key. */
        WANT(!was_refused || code == LT_MEMORY || (call->kind == ACQUIRE && call->key_len > 22));
        if (code != LT_MEMORY) break;
        WANT(count == 99 && *txn == 99 && same_let(&array[0], &untouched));
        char *after = state_of(table);
        WANT(strcmp(before, after) == 0);
        free(after);
    }
    free(before);
    if (call->kind == LOOK) return code;
    WANT(code >= LT_FIRST_REPLY && count <= room);
    for (size_t i = count; i < 8; i++) WANT(same_let(&array[i], &untouched));
    while (count == room) {
        collect(array, count, lets, all);
        /* With no place at all, the caller cannot tell whether lets are left: it asks for some. */
        room = room == 0 ? 1 : room;
        for (size_t i = 0; i < 8; i++) array[i] = untouched;
        WANT(note(lt_table_lets(table, array, room, &count)) == LT_DONE);
    }
    collect(array, count, lets, all);
    return code;
}

/* WORKED TEXTS. */

static const struct {
    const char *word;
    uint32_t code;
} reply_words[] = {
    {"pass", LT_PASSED}, {"wait", LT_MUST_WAIT}, {"long", LT_TOO_LONG}, {"taken", LT_TAKEN}, {"kept", LT_KEPT},
    {"raised", LT_RAISED}, {"other", LT_OTHER}, {"freed", LT_FREED}, {"left", LT_LEFT}, {"absent", LT_ABSENT},
    {"nothing", LT_NOTHING}, {"reserved", LT_RESERVED}, {"idle", LT_IDLE},
};

static void print_reply(FILE *out, uint32_t code, uint64_t txn) {
    for (size_t i = 0; i < sizeof reply_words / sizeof *reply_words; i++)
        if (reply_words[i].code == code) fputs(reply_words[i].word, out);
    if (code == LT_WAIT_FOR_HELD) fprintf(out, "for %" PRIu64 " held", txn);
    if (code == LT_WAIT_FOR_RESERVED) fprintf(out, "for %" PRIu64 " reserved", txn);
    if (code == LT_WAIT_FIRST_HELD) fprintf(out, "first %" PRIu64 " held", txn);
    if (code == LT_WAIT_FIRST_RESERVED) fprintf(out, "first %" PRIu64 " reserved", txn);
    if (code == LT_WAIT_OWN) fprintf(out, "own %" PRIu64, txn);
}

/* Reads the call of a line, and its key. */
static struct call call_of(const char *line, char *key) {
    struct call call = {.by = {0, 0, 0, 0, 0, 0}};
    char kind[16], txn[24], access;
    int at;
    WANT(sscanf(line, "%64s %*u %" SCNu32 " %15s %n", key, &call.by.pass, kind, &at) == 3);
    line += at;
    if (strcmp(kind, "visit") == 0) {
        call.kind = VISIT;
        WANT(sscanf(line, "%" SCNu64 ".%" SCNu32 " %23s %" SCNu64 ".%" SCNu32 " %c max=%" SCNu32, &call.by.number,
                    &call.by.wait, txn, &call.by.wall, &call.by.logical, &access, &call.longest) >= 6);
        call.by.txn = strtoull(txn, NULL, 10); /* 0 for `-` */
        call.writes = access == 'w';
    } else if (strcmp(kind, "finish") == 0) {
        call.kind = FINISH;
        WANT(sscanf(line, "%" SCNu64, &call.by.txn) == 1);
    } else if (strcmp(kind, "leave") == 0 || strcmp(kind, "look") == 0) {
        call.kind = strcmp(kind, "look") == 0 ? LOOK : LEAVE;
        WANT(sscanf(line, "%" SCNu64, &call.by.number) == 1);
    } else {
        call.kind = strcmp(kind, "update") == 0 ? UPDATE : ACQUIRE;
        WANT(sscanf(line, "%" SCNu64 " %" SCNu64 ".%" SCNu32, &call.by.txn, &call.by.wall, &call.by.logical) == 3);
    }
    return call;
}

/* Plays one line, and compares its reply and its lets with what stands after the `=`. `pass_of` has the pass of each
   request, by number. */
static void play_line(struct lt_table *table, const char *line, const char *prefix, size_t room, bool refuses,
                      uint32_t *pass_of) {
    char key[65], name[160], *answer;
    size_t size, all;
    uint64_t txn;
    struct through lets[MOST];
    struct call call = call_of(line, key);
    snprintf(name, sizeof name, "%s%s", prefix, key);
    call.key = name;
    call.key_len = strlen(name);
    if (call.kind == VISIT && call.by.number < 8) pass_of[call.by.number] = call.by.pass;
    uint32_t code = step(table, &call, room, refuses, lets, &all, &txn);
    FILE *out = open_memstream(&answer, &size);
    WANT(out);
    print_reply(out, code, txn);
    for (size_t i = 0; i < all; i++) {
        fprintf(out, "%s %" PRIu64 ".%u", i == 0 ? " let" : "", lets[i].number, lets[i].wait);
        WANT(lets[i].number < 8 && lets[i].pass == pass_of[lets[i].number]);
    }
    fclose(out);
    const char *wanted = strstr(line, " = ") + 3;
    if (strcmp(answer, wanted) != 0) {
        fprintf(stderr, "%s\n  answered: %s\n", line, answer);
        exit(1);
    }
    free(answer);
}

static void play(const char *text, const char *prefix, size_t room, bool refuses) {
    struct lt_table table = {0};
    size_t len;
    refuse_in = refuses;
    if (refuses) {
        WANT(lt_table_open(&table, START) == LT_MEMORY && !table.is_open && table.at == NULL);
        WANT(refuse_in == 0);
    }
    WANT(note(lt_table_open(&table, START)) == LT_DONE);
    char line[160];
    uint32_t pass_of[8] = {0};
    for (const char *at = strchr(text, '\n') + 1; *at; at += len + 1) {
        len = strcspn(at, "\n");
        WANT(len < sizeof line);
        memcpy(line, at, len);
        line[len] = 0;
        play_line(&table, line, prefix, room, refuses, pass_of);
    }
    WANT(note(lt_table_close(&table)) == LT_DONE);
}

static const char *const worked_texts[] = {
    "a-bound-and-no-transaction", "a-bound-does-not-count-the-reservation",
    "a-key-from-its-first-lock-to-its-last-waiter", "a-queued-writer-is-not-refused",
    "a-raise-lets-earlier-readers-through", "a-reader-at-the-lock-timestamp-waits", "a-scan-over-three-keys",
    "a-write-without-a-transaction-passes-over", "an-inactive-writer-gets-the-reservation",
    "bounds-at-a-held-and-a-reserved-lock", "nobody-waits-for-himself", "the-distinguished-waiter-leaves",
    "two-wait-for-a-reservation", "writers-go-by-number", "writers-without-a-transaction-go-first",
    "writers-without-a-transaction-to-the-end",
};

static char *text_of(const char *folder, const char *name) {
    char path[4096], *text = calloc(1, 4096);
    snprintf(path, sizeof path, "%s/%s", folder, name);
    FILE *file = fopen(path, "rb");
    if (!file) {
        perror(path);
        exit(1);
    }
    WANT(text && fread(text, 1, 4095, file) > 0);
    fclose(file);
    return text;
}

static size_t lines_of(const char *text) {
    size_t lines = 0;
    for (; *text; text++) lines += *text == '\n';
    return lines;
}

static size_t worked(const char *folder) {
    size_t texts = sizeof worked_texts / sizeof *worked_texts;
    for (size_t i = 0; i < texts; i++) {
        char *text = text_of(folder, worked_texts[i]);
        for (size_t room = 0; room < 4; room++)
            for (int refuses = 0; refuses < 2; refuses++) {
                play(text, "", room, refuses);
                play(text, "a-key-of-more-than-22-bytes-", room, refuses);
            }
        struct lt_report report = {9, 9, 9, 9};
        WANT(lt_check((const uint8_t *)text, strlen(text), &report) == LT_DONE);
        WANT(report.version == 2 && report.steps == lines_of(text) - 1 && report.line == 0);
        WANT(report.keys == (strcmp(worked_texts[i], "a-scan-over-three-keys") == 0 ? 3u : 1u));
        free(text);
    }
    return texts;
}

/* REFUSALS. */

static void refusals(void) {
    struct lt_table table = {0};
    struct lt_through lets[4] = {untouched, untouched, untouched, untouched};
    size_t count = 99;
    uint64_t txn = 99;
    char long_key[65];
    memset(long_key, 'k', 65);
    /* A visit in which everything is wrong. Each row mends the first fault, and the next one is answered. */
    struct call visit = {.kind = VISIT, .key = "", .key_len = 0, .by = {.wall = 10}, .writes = true};
    struct call acquire = {.kind = ACQUIRE, .key = "", .key_len = 0, .by = {.wall = 10}};
    struct call look = {.kind = LOOK, .key = "", .key_len = 0};
#define ANSWERS(call, code) WANT(ask(&table, call, lets, 4, &count, &txn) == (code))
    ANSWERS(&visit, LT_BAD_NUMBER);
    visit.by.number = (uint64_t)1 << 40;
    ANSWERS(&visit, LT_BAD_NUMBER);
    visit.by.number = ((uint64_t)1 << 40) - 1;
    ANSWERS(&visit, LT_BAD_WAIT);
    visit.by.wait = 1 << 24;
    ANSWERS(&visit, LT_BAD_WAIT);
    visit.by.wait = (1 << 24) - 1;
    ANSWERS(&visit, LT_BAD_PASS);
    visit.by.pass = 1025;
    ANSWERS(&visit, LT_BAD_PASS);
    visit.by.pass = 1024;
    ANSWERS(&visit, LT_CLOSED);
    for (enum kind kind = ACQUIRE; kind <= FINISH; kind++) {
        acquire.kind = kind;
        acquire.by.txn = 0;
        ANSWERS(&acquire, LT_BAD_TXN);
        acquire.by.txn = UINT64_MAX;
        ANSWERS(&acquire, LT_CLOSED);
    }
    acquire.kind = LEAVE;
    ANSWERS(&acquire, LT_CLOSED);
    ANSWERS(&look, LT_CLOSED);
    struct lt_key state = {.holder = 99};
    struct lt_queued queued = {.number = 99};
    struct lt_key_name names[2] = {{.len = 99}, {.len = 99}};
    WANT(note(lt_table_lets(&table, lets, 4, &count)) == LT_CLOSED);
    WANT(note(lt_table_key(&table, (const uint8_t *)"", 0, &state)) == LT_CLOSED);
    WANT(note(lt_table_writers(&table, (const uint8_t *)"", 0, &queued, 1, &count)) == LT_CLOSED);
    WANT(note(lt_table_readers(&table, (const uint8_t *)"", 0, &queued, 1, &count)) == LT_CLOSED);
    WANT(note(lt_table_keys(&table, (const uint8_t *)" ", 1, names, 2, &count)) == LT_CLOSED);
    WANT(queued.number == 99 && names[0].len == 99);
    WANT(note(lt_table_close(&table)) == LT_CLOSED);
    WANT(!table.is_open && table.at == NULL);

    /* Lets are left: two readers wait, and the release gives none of their lets. */
    WANT(note(lt_table_open(&table, START)) == LT_DONE);
    void *at = table.at;
    WANT(note(lt_table_open(&table, START)) == LT_OPEN_ALREADY && table.is_open && table.at == at);
    struct call taken = {.kind = ACQUIRE, .key = "a", .key_len = 1, .by = {.txn = 9, .wall = 10}};
    ANSWERS(&taken, LT_TAKEN);
    for (uint32_t i = 1; i <= 3; i++) {
        struct call reads = {.kind = VISIT, .key = "a", .key_len = 1, .by = {i, 0, 10, 0, 1, i}};
        ANSWERS(&reads, LT_MUST_WAIT);
        WANT(count == 0);
    }
    WANT(note(lt_table_finish(&table, (const uint8_t *)"a", 1, 9, lets, 0, &count)) == LT_FREED && count == 0);
    count = 99;
    ANSWERS(&visit, LT_LETS_LEFT);
    for (enum kind kind = ACQUIRE; kind <= LEAVE; kind++) {
        acquire.kind = kind;
        ANSWERS(&acquire, LT_LETS_LEFT);
    }
    WANT(count == 99 && txn == 99 && same_let(lets, &untouched));
    look.key = "a", look.key_len = 1;
    ANSWERS(&look, LT_NOTHING); /* a query is not refused */
    WANT(txn == 0);
    WANT(lt_table_lets(&table, lets, 0, &count) == LT_DONE && count == 0);
    WANT(lt_table_lets(&table, lets, 2, &count) == LT_DONE && count == 2);
    WANT(lets[0].number == 3 && lets[1].number == 2 && same_let(&lets[2], &untouched));
    ANSWERS(&visit, LT_LETS_LEFT);
    WANT(lt_table_lets(&table, lets, 2, &count) == LT_DONE && count == 1);
    WANT(lets[0].number == 1 && lets[0].wait == 1 && lets[0].pass == 1 && lets[1].number == 2);
    WANT(lt_table_lets(&table, lets, 2, &count) == LT_DONE && count == 0);

    /* Keys. */
    const struct {
        const char *key;
        size_t len;
        uint32_t code;
    } keys[] = {
        {"", 0, LT_BAD_KEY_EMPTY},     {long_key, 65, LT_BAD_KEY_LONG}, {"a b", 3, LT_BAD_KEY_BYTE},
        {"a\x7F", 2, LT_BAD_KEY_BYTE}, {"\0", 1, LT_BAD_KEY_BYTE},      {"\xFF", 1, LT_BAD_KEY_BYTE},
    };
    for (size_t i = 0; i < sizeof keys / sizeof *keys; i++) {
        for (enum kind kind = VISIT; kind <= LOOK; kind++) {
            struct call call = {.kind = kind, .key = keys[i].key, .key_len = keys[i].len, .by = {1, 1, 1, 1, 1, 1}};
            count = 99, txn = 99;
            ANSWERS(&call, keys[i].code);
            WANT(count == 99 && txn == 99);
        }
        const uint8_t *key = (const uint8_t *)keys[i].key;
        WANT(lt_table_key(&table, key, keys[i].len, &state) == keys[i].code && state.holder == 99);
        WANT(lt_table_writers(&table, key, keys[i].len, &queued, 1, &count) == keys[i].code && queued.number == 99);
        WANT(lt_table_readers(&table, key, keys[i].len, &queued, 1, &count) == keys[i].code && queued.number == 99);
        if (keys[i].len > 0) WANT(lt_table_keys(&table, key, keys[i].len, names, 2, &count) == keys[i].code);
        WANT(count == 99 && names[0].len == 99);
    }
    WANT(lt_table_keys(&table, (const uint8_t *)"", 0, names, 2, &count) == LT_DONE && count == 0);
    visit.key = "!~", visit.key_len = 2;
    ANSWERS(&visit, LT_PASSED); /* a free key keeps no record */
    WANT(lt_table_keys(&table, (const uint8_t *)"", 0, names, 2, &count) == LT_DONE && count == 0);
    WANT(names[0].len == 99);

    /* Queries of a key of 64 bytes, in which each allocation fails in turn. */
    taken.key = long_key, taken.key_len = 64;
    ANSWERS(&taken, LT_TAKEN);
    visit.key = long_key, visit.key_len = 64;
    ANSWERS(&visit, LT_MUST_WAIT);
    visit.by.number = 7, visit.writes = false;
    ANSWERS(&visit, LT_MUST_WAIT);
    look.key = long_key, look.key_len = 64, look.by.number = 7;
    const uint8_t *key = (const uint8_t *)long_key;
#define REFUSED_IN_TURN(query, kept) \
    for (size_t refused = 1; refuse_in = refused, note(query) == LT_MEMORY; refused++) WANT(refuse_in == 0 && (kept)); \
    refuse_in = 0
    txn = 99, count = 99;
    REFUSED_IN_TURN(lt_table_look(&table, key, 64, 7, &txn), txn == 99);
    WANT(txn == 9 && lt_table_look(&table, key, 64, 7, &txn) == LT_WAIT_FOR_HELD);
    REFUSED_IN_TURN(lt_table_key(&table, key, 64, &state), state.holder == 99);
    WANT(state.holder == 9 && state.wall == 10 && state.writers == 1 && state.readers == 1);
    WANT(state.distinguished == ((uint64_t)1 << 40) - 1);
    REFUSED_IN_TURN(lt_table_writers(&table, key, 64, &queued, 1, &count), queued.number == 99 && count == 99);
    WANT(count == 1 && queued.number == ((uint64_t)1 << 40) - 1 && queued.wait == (1 << 24) - 1);
    WANT(queued.pass == 1024 && queued.active);
    queued.number = 99, count = 99;
    WANT(lt_table_writers(&table, key, 64, &queued, 0, &count) == LT_DONE && count == 1 && queued.number == 99);
    count = 99;
    REFUSED_IN_TURN(lt_table_readers(&table, key, 64, &queued, 1, &count), queued.number == 99 && count == 99);
    WANT(count == 1 && queued.number == 7 && queued.active);
    count = 99;
    REFUSED_IN_TURN(lt_table_keys(&table, key, 0, names, 2, &count), names[0].len == 99 && count == 99);
    WANT(count == 1 && names[0].len == 64 && memcmp(names[0].bytes, long_key, 64) == 0 && names[1].len == 99);
    count = 99;
    REFUSED_IN_TURN(lt_table_keys(&table, key, 64, names, 2, &count), count == 99);
    WANT(count == 0);
    WANT(lt_table_keys(&table, key, 63, names, 2, &count) == LT_DONE && count == 1 && names[0].len == 64);
    WANT(lt_table_keys(&table, key, 0, names, 0, &count) == LT_DONE && count == 0);
    WANT(lt_table_close(&table) == LT_DONE && !table.is_open && table.at == NULL);

    WANT(lt_shard_of((const uint8_t *)"ab", 2, 10) == (97 + 98) % 10);
    WANT(lt_shard_of((const uint8_t *)"\xFF\xFF\xFF", 3, 64) == 3 * 255 % 64);
    WANT(lt_shard_of(key, 64, 1000) == 64 * 'k' % 1000);
    WANT(lt_shard_of(key, 65, 1000) == 0 && lt_shard_of(key, 64, 0) == 0 && lt_shard_of(key, 0, 7) == 0);
#undef ANSWERS
}

/* CHECKS. */

/* A changed text of docs/FORMATS.md: in the text, the first `old` after the start of this line becomes `new`. */
static const struct {
    const char *name;
    const char *old, *new;
    uint32_t code;
    size_t line;
} changes[] = {
    {"writers-go-by-number", " let 1.1", "", LT_FAULT_LETS, 5},
    {"writers-go-by-number", "let 1.1", "let 2.1", LT_FAULT_LETS, 5},
    {"writers-go-by-number", "1 10.0 w = wait", "1 10.0 w = pass", LT_FAULT_REPLY, 4},
    {"writers-go-by-number", "a 3 1 visit", "a 4 1 visit", LT_FAULT_INDEX, 4},
    {"writers-go-by-number", "a 3 1 visit", "a 03 1 visit", LT_FAULT_SHAPE, 4},
    {"writers-go-by-number", "1 reserved\n", "1 reserved", LT_FAULT_SHAPE, 6},
    {"writers-go-by-number", "a 5 2 look 2 = first 1 reserved\n", "", LT_DONE, 0},
    {"writers-go-by-number", "locks 2", "locks 3", LT_FAULT_HEADER, 1},
    {"writers-go-by-number", "locks 2", "locks 1", LT_DONE, 0},
    {"a-bound-and-no-transaction", "locks 2", "locks 1", LT_FAULT_SHAPE, 3},
    {"a-bound-and-no-transaction", "1.1 - 1.0", "1.1 9 1.0", LT_FAULT_REPLY, 3},
    {"a-bound-and-no-transaction", " max=1", "", LT_FAULT_REPLY, 4},
    {"a-bound-and-no-transaction", "max=1", "max=0", LT_FAULT_SHAPE, 4},
    {"a-bound-and-no-transaction", " 3.1\n", "\n", LT_FAULT_LETS, 6},
    {"a-scan-over-three-keys", "c 1 1", "A 1 1", LT_FAULT_KEY_ORDER, 8},
};

/* How many bytes of the text end with this line, or more than there are if the line has no end. */
static size_t bytes_through(const uint8_t *text, size_t len, size_t line) {
    size_t at = 0;
    while (at < len && line > 0) line -= text[at++] == '\n';
    return line > 0 ? len + 1 : at;
}

/* The verdict on the text if it comes in pieces of so many bytes. A fault is told from the piece on that ends its line. */
static uint32_t in_pieces(const uint8_t *text, size_t len, size_t piece, struct lt_report *report) {
    struct lt_report whole = {9, 9, 9, 9};
    uint32_t verdict = lt_check(text, len, &whole);
    size_t due = verdict == LT_DONE ? len + 1 : bytes_through(text, len, whole.line);
    struct lt_text_check check = {0};
    uint32_t so_far = LT_DONE;
    WANT(note(lt_check_begin(&check)) == LT_DONE && note(lt_check_begin(&check)) == LT_OPEN_ALREADY);
    for (size_t at = 0; at < len; at += piece) {
        size_t heard = piece < len - at ? at + piece : len;
        uint32_t code = note(lt_check_piece(&check, text + at, heard - at));
        WANT(so_far == LT_DONE || code == so_far);
        WANT(code == (heard >= due ? verdict : LT_DONE));
        so_far = code;
    }
    WANT(so_far == LT_DONE || report->line == 9);
    uint32_t code = note(lt_check_end(&check, report));
    WANT(so_far == LT_DONE || code == so_far);
    WANT(!check.is_open && lt_check_end(&check, report) == LT_CLOSED && lt_check_piece(&check, text, 0) == LT_CLOSED);
    return code;
}

/* Each allocation of a check in pieces fails in turn. The check is then over, and says so until its end. */
static void refused_in_pieces(const uint8_t *text, size_t len, size_t piece) {
    for (size_t refused = 1;; refused++) {
        struct lt_text_check check = {0};
        struct lt_report report = {9, 9, 9, 9};
        bool failed = false;
        refuse_in = refused;
        if (lt_check_begin(&check) == LT_MEMORY) {
            WANT(!check.is_open);
            continue;
        }
        for (size_t at = 0; at < len; at += piece) {
            uint32_t code = lt_check_piece(&check, text + at, piece < len - at ? piece : len - at);
            WANT(!failed || code == LT_MEMORY);
            failed |= code == LT_MEMORY;
        }
        failed |= lt_check_end(&check, &report) == LT_MEMORY;
        WANT(!failed || report.line == 9);
        bool was_asked = refuse_in == 0;
        refuse_in = 0;
        if (!failed && !was_asked) return;
    }
}

static void checks(const char *folder) {
    for (size_t i = 0; i < sizeof changes / sizeof *changes; i++) {
        char *text = text_of(folder, changes[i].name), *changed = malloc(4096);
        char *at = strstr(text, changes[i].old);
        struct lt_report report = {9, 9, 9, 9};
        WANT(at && changed);
        snprintf(changed, 4096, "%.*s%s%s", (int)(at - text), text, changes[i].new, at + strlen(changes[i].old));
        const uint8_t *bytes = (const uint8_t *)changed;
        REFUSED_IN_TURN(lt_check(bytes, strlen(changed), &report), report.line == 9 && report.keys == 9);
        uint32_t code = note(lt_check(bytes, strlen(changed), &report));
        if (code != changes[i].code || report.line != changes[i].line) {
            fprintf(stderr, "change %zu: code %u, line %zu\n", i, code, report.line);
            exit(1);
        }
        for (size_t piece = 1; piece <= strlen(changed); piece++) {
            struct lt_report pieces = {9, 9, 9, 9};
            WANT(in_pieces(bytes, strlen(changed), piece, &pieces) == code && pieces.line == report.line);
            WANT(pieces.version == report.version && pieces.keys == report.keys && pieces.steps == report.steps);
        }
        refused_in_pieces(bytes, strlen(changed), 17);
        if (code == LT_DONE)
            WANT(report.keys == 1 && report.steps == lines_of(changed) - 1 && report.version == changed[6] - '0');
        else
            WANT(report.version == 0 && report.keys == 0 && report.steps == 0);
        free(changed);
        free(text);
    }
    struct lt_report report = {9, 9, 9, 9};
    WANT(lt_check((const uint8_t *)"", 0, &report) == LT_FAULT_HEADER && report.line == 1);
    WANT(lt_check((const uint8_t *)"locks 1\n", 8, &report) == LT_DONE && report.version == 1 && report.keys == 0);
    struct lt_report pieces = {9, 9, 9, 9};
    WANT(in_pieces((const uint8_t *)"", 0, 1, &pieces) == LT_FAULT_HEADER && pieces.line == 1);
    struct lt_table table = {0};
    WANT(lt_table_open(&table, START) == LT_DONE);
    WANT(lt_check_piece((struct lt_text_check *)&table, (const uint8_t *)"", 0) == LT_CLOSED && table.is_open);
    WANT(lt_check_end((struct lt_text_check *)&table, &pieces) == LT_CLOSED && table.is_open);
    WANT(lt_table_close(&table) == LT_DONE);
    struct lt_text_check check = {0};
    WANT(lt_check_begin(&check) == LT_DONE && lt_table_close((struct lt_table *)&check) == LT_CLOSED && check.is_open);
    WANT(lt_check_end(&check, &pieces) == LT_FAULT_HEADER);
    WANT(lt_version() == LT_VERSION);
}

/* RANDOM CALLS. */

static uint64_t random_state = 0x9E3779B97F4A7C15;

static uint64_t random_below(uint64_t bound) {
    random_state ^= random_state << 13;
    random_state ^= random_state >> 7;
    random_state ^= random_state << 17;
    return (random_state >> 11) % bound;
}

#define KEYS 6
/* In byte order. Two of them need an allocation. */
static const char *const names[KEYS] = {"a", "a!", "b-has-22-bytes-exactly", "b-has-23-bytes-exactly-", "c",
                                        "d-has-64-bytes-which-is-the-most-that-a-key-may-have-----------"};

/* How calls are drawn. With few requests, a key is often free and the same request comes again soon. With many, a
   queue grows for SPELL calls and drains for as many, and bounds reach as far as the queues. */
struct mix {
    uint64_t numbers, txns, longest;
    bool grows;
};

#define FEW 12
#define MANY 40
#define SPELL 2500
#define A_TABLE 10000 /* calls on each table */

static struct mix mix_of(size_t turn) {
    if (turn / A_TABLE % 2 == 0) return (struct mix){FEW, 5, 4, false};
    return (struct mix){MANY, 8, 31, turn / SPELL % 2 == 0};
}

static enum kind random_kind(const struct mix *mix) {
    static const enum kind kinds[] = {VISIT, VISIT, VISIT, VISIT, VISIT, ACQUIRE, UPDATE, FINISH, LEAVE, LOOK};
    static const enum kind others[] = {ACQUIRE, ACQUIRE, UPDATE, FINISH, FINISH, FINISH, LEAVE, LEAVE, LOOK};
    if (mix->numbers == FEW) return kinds[random_below(10)];
    return random_below(32) < (mix->grows ? 27 : 1) ? VISIT : others[random_below(9)];
}

static struct call random_call(const struct mix *mix) {
    const char *name = names[random_below(KEYS)];
    struct call call = {.kind = random_kind(mix), .key = name, .key_len = strlen(name)};
    call.by.number = 1 + random_below(mix->numbers);
    call.by.txn = call.kind == VISIT ? random_below(mix->txns + 1) : 1 + random_below(mix->txns);
    call.by.wall = random_below(4);
    call.by.logical = (uint32_t)random_below(2);
    call.by.wait = 1 + (uint32_t)random_below(1000);
    call.by.pass = 1 + (uint32_t)random_below(1024);
    call.longest = random_below(3) == 0 ? (uint32_t)random_below(mix->longest) : 0;
    call.writes = random_below(2) == 0;
    return call;
}

static struct record records[KEYS];

static void compare_states(struct lt_table *table) {
    char *theirs = state_of(table), *ours;
    size_t size;
    FILE *out = open_memstream(&ours, &size);
    WANT(out);
    for (size_t i = 0; i < KEYS; i++)
        if (!is_empty(&records[i])) print_model_key(out, &records[i], names[i], strlen(names[i]));
    fclose(out);
    if (strcmp(theirs, ours) != 0) {
        fprintf(stderr, "the table has:\n%sthe rules give:\n%s", theirs, ours);
        exit(1);
    }
    free(theirs);
    free(ours);
}

/* The look of every request at the key of the call. */
static void compare_looks(struct lt_table *table, const struct record *record, const struct call *call,
                          const struct mix *mix) {
    for (uint64_t number = 1; number <= mix->numbers; number++) {
        uint64_t txn = 99, wanted;
        uint32_t code = look(record, number, &wanted);
        WANT(lt_table_look(table, (const uint8_t *)call->key, call->key_len, number, &txn) == code);
        WANT(txn == wanted);
        count_look(code);
    }
}

static bool is_free(const struct record *record) {
    return record->holder == 0 && !record->is_reserved && record->writers == 0 && record->readers == 0;
}

/*
 * Whether the call at this record takes no memory, if it is answered with this code and its key has at most 22 bytes: it
 * gives something up, it takes a lock that has a record, or it queues nobody.
 */
static bool takes_no_memory(const struct record *before, const struct call *call, uint32_t code) {
    switch (call->kind) {
    case ACQUIRE: return code != LT_TAKEN || !is_free(before);
    case VISIT: return code == LT_TOO_LONG;
    default: return true;
    }
}

static void random_calls(size_t calls) {
    struct lt_table table = {0};
    size_t memory = 0, most_lets = 0, longest = 0, emptied = 0;
    for (size_t i = 0; i < calls; i++) {
        if (i % A_TABLE == 0) {
            if (i > 0) WANT(lt_table_close(&table) == LT_DONE);
            WANT(lt_table_open(&table, START) == LT_DONE);
            memset(records, 0, sizeof records);
        }
        const struct mix mix = mix_of(i);
        struct call call = random_call(&mix);
        struct record *record = records;
        while (strcmp(names[record - records], call.key) != 0) record++;
        struct record before = *record;
        struct lt_through array[5] = {untouched, untouched, untouched, untouched, untouched};
        size_t room = random_below(5), count = 99, given = 0;
        uint64_t txn = 99;
        refuse_in = random_below(16) == 0 ? 1 + random_below(3) : 0;
        asked = 0;
        uint32_t code = ask(&table, &call, array, room, &count, &txn);
        const size_t requests = asked;
        if (code == LT_MEMORY) {
            WANT(refuse_in == 0 && count == 99 && txn == 99 && same_let(array, &untouched));
            memory++;
            compare_states(&table);
            continue;
        }
        refuse_in = 0;
        struct answer answer = apply(record, &call);
        WANT(code == answer.code);
        WANT(requests == 0 || call.key_len > 22 || !takes_no_memory(&before, &call, code));
        count_cases(&before, &call, &answer, record);
        if (call.kind == LOOK) {
            WANT(txn == answer.txn && count == 99);
            continue;
        }
        WANT(txn == 99 && count == (answer.lets < room ? answer.lets : room));
        most_lets = answer.lets > most_lets ? answer.lets : most_lets;
        for (;;) {
            for (size_t j = 0; j < count; j++, given++) {
                const struct through *let = &answer.let[given];
                WANT(array[j].number == let->number && array[j].wait == let->wait && array[j].pass == let->pass);
                array[j] = untouched;
            }
            for (size_t j = 0; j < 5; j++) WANT(same_let(&array[j], &untouched));
            if (given == answer.lets) break;
            struct call other = random_call(&mix);
            if (other.kind != LOOK) WANT(ask(&table, &other, array, room, &count, &txn) == LT_LETS_LEFT);
            room = random_below(5);
            WANT(lt_table_lets(&table, array, room, &count) == LT_DONE);
            WANT(count == (answer.lets - given < room ? answer.lets - given : room));
        }
        size_t queued = record->writers + record->readers + record->is_reserved;
        longest = queued > longest ? queued : longest;
        emptied += is_empty(record) && !is_empty(&before);
        if (i % 5 == 0) compare_looks(&table, record, &call, &mix);
        if (i % 101 == 0) compare_states(&table);
    }
    compare_states(&table);
    WANT(lt_table_close(&table) == LT_DONE);
    WANT(memory > 0 && most_lets > 4 && longest >= 30 && emptied >= calls / 2000);
    printf("random: %zu calls, %zu of them without memory, at most %zu requests at a key and %zu lets in one step\n",
           calls, memory, longest, most_lets);
    printf("cases: each of %zu occurred\n", want_all_cases());
}

int main(int words, char **word) {
    if (words != 2) {
        fprintf(stderr, "usage: test FOLDER_OF_WORKED_TEXTS\n");
        return 2;
    }
    printf("worked: %zu texts\n", worked(word[1]));
    refusals();
    puts("refusals: as the header says");
    checks(word[1]);
    printf("checks: %zu changed texts\n", sizeof changes / sizeof *changes);
    random_calls(CALLS);
    for (uint32_t code = LT_DONE; code <= LT_WAIT_OWN; code++) {
        bool is_fault = code >= LT_FAULT_HEADER && code <= LT_FAULT_LETS;
        bool is_code = code <= LT_BAD_PASS || is_fault || code >= LT_FIRST_REPLY;
        if (met[code] != is_code) {
            fprintf(stderr, "code %u: %s\n", code, is_code ? "no test met it" : "it is no code of the interface");
            return 1;
        }
    }
    puts("every code was met");
    return 0;
}
