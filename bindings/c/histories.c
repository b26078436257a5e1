/*
 * Does a shared table that keeps its steps give them back as locktable.h says? The tests, in order:
 *
 *   openings    the ways to keep steps, and the bound on the steps of a shard
 *   kinds       each call of a history, on a handle of each kind; and the other calls, on handles of steps and of an ended table
 *   orders      a call that has two reasons to refuse, and a call while every allocation fails
 *   full        a shard that holds as many steps as it may, in each way to keep them
 *   inside      a take while another caller is in the shard
 *   life        the steps of a short run, one by one and as lines. It is played once for each of its allocations, which then fails
 *   threads     transactions of 1 to 8 threads over 1 to 8 shards. One table keeps its steps whole; of another one a reader takes
 *               them meanwhile. The text of all steps is checked, whole and in pieces, and each kind of step is counted
 *
 *     histories [FOLDER]
 *
 * With FOLDER each run of threads leaves its steps there, a file for each: lines of a trace, for `locktrace sort` and
 * `locktrace check`. Each expected code and line comes from locktable.h, docs/RULES.md and docs/FORMATS.md.
 */
#define _GNU_SOURCE
#include "locktable.h"

#include <inttypes.h>
#include <pthread.h>
#include <sched.h>
#include <stdatomic.h>
#include <stdio.h>
#include <stdlib.h>
#include <string.h>

static const char *at = "";
static size_t row;

#define WANT(x) \
    do { \
        if (!(x)) { \
            fprintf(stderr, "%s:%d: %s (%s, row %zu, allocation %zu)\n", __FILE__, __LINE__, #x, at, row, fails_at); \
            exit(1); \
        } \
    } while (0)

#define KEY(text) (const uint8_t *)(text), strlen(text)
#define COUNT(rows) (sizeof(rows) / sizeof *(rows))
#define START 7
#define LONG "a-key-of-more-than-22-bytes"

/* THE HEAP: over malloc. The request that is due to fail does, and the one that is due to call back does. */

struct rattle_block {
    bool ok;
    void *at;
};

static char nowhere[16];
static size_t fails_at;
static _Atomic size_t asked, blocks;
static bool has_failed, starved;
static void (*call_back)(void);

struct rattle_block rattle_alloc(size_t size, size_t align);
struct rattle_block rattle_realloc(void *at, size_t kept, size_t size, size_t align);
void rattle_dealloc(void *at);

static bool is_refused(void) {
    void (*back)(void) = call_back;
    if (back) {
        call_back = NULL;
        back();
    }
    if (starved) return true;
    if (atomic_fetch_add(&asked, 1) + 1 != fails_at) return false;
    has_failed = true;
    return true;
}

struct rattle_block rattle_alloc(size_t size, size_t align) {
    if (is_refused()) return (struct rattle_block){false, nowhere};
    blocks++;
    return (struct rattle_block){true, malloc(size > 0 ? size : align)};
}

struct rattle_block rattle_realloc(void *block, size_t kept, size_t size, size_t align) {
    if (is_refused()) return (struct rattle_block){false, nowhere};
    void *other = malloc(size > 0 ? size : align);
    memcpy(other, block, kept < size ? kept : size);
    free(block);
    return (struct rattle_block){true, other};
}

void rattle_dealloc(void *block) {
    blocks--;
    free(block);
}

/* OPENINGS. */

static const struct lt_config usual = {.shards = 2, .passes = 2, .max_requests = 100, .max_waits = 100};
static const struct lt_keeping taken = {.max_steps = 1000, .way = LT_KEEP_TAKEN};
static const struct lt_keeping whole = {.max_steps = 1000, .way = LT_KEEP_WHOLE};

static const struct {
    struct lt_config config;
    struct lt_keeping keeping;
    uint32_t code;
} openings[] = {
    {{0, 0, 0, 0}, {0, 3}, LT_BAD_KEEPING},
    {{1, 1, 1, 1}, {1, UINT32_MAX}, LT_BAD_KEEPING},
    {{0, 0, 0, 0}, {0, LT_KEEP_WHOLE}, LT_BAD_SHARDS},
    {{1, 0, 0, 0}, {0, LT_KEEP_TAKEN}, LT_BAD_PASSES},
    {{1, 1, 0, 0}, {0, LT_KEEP_WHOLE}, LT_BAD_STEPS},
    {{1, 1, 0, 0}, {0, LT_KEEP_NONE}, LT_BAD_STEPS},
    {{1, 1, 0, 0}, {((uint64_t)1 << 32) + 1, LT_KEEP_TAKEN}, LT_BAD_STEPS},
    {{1, 1, 0, 0}, {(uint64_t)1 << 32, LT_KEEP_TAKEN}, LT_BAD_REQUESTS},
    {{1, 1, 1, 0}, {1, LT_KEEP_WHOLE}, LT_BAD_WAITS},
    {{1, 1, 1, 1}, {1, LT_KEEP_NONE}, LT_DONE},
    {{64, 1024, 1, 1}, {(uint64_t)1 << 32, LT_KEEP_TAKEN}, LT_DONE},
    {{1, 1, 1, 1}, {1, LT_KEEP_WHOLE}, LT_DONE},
};

static void play_openings(void) {
    at = "openings";
    for (row = 0; row < COUNT(openings); row++) {
        struct lt_shared opened = {0};
        uint32_t code = lt_shared_open_keeping(&opened, &openings[row].config, &openings[row].keeping, START);
        bool is_open = code == LT_DONE;
        WANT(code == openings[row].code && opened.is_open == is_open);
        /* A refusal for a number comes before one for memory, and after that for a handle that is open. */
        starved = true;
        uint32_t again = lt_shared_open_keeping(&opened, &openings[row].config, &openings[row].keeping, START);
        starved = false;
        WANT(again == (is_open ? LT_OPEN_ALREADY : code) && opened.is_open == is_open);
        WANT(lt_shared_close(&opened) == (is_open ? LT_DONE : LT_CLOSED) && blocks == 0);
        if (!is_open) continue;
        starved = true;
        again = lt_shared_open_keeping(&opened, &openings[row].config, &openings[row].keeping, START);
        starved = false;
        WANT(again == LT_MEMORY && !opened.is_open && blocks == 0);
    }
    row = 0;
}

/* KINDS. `mine` is of the row's kind. `table` is another table, of whose passes `other` has one. */

union handle {
    struct lt_table table;
    struct lt_text_check check;
    struct lt_shared shared;
    struct lt_pass pass;
    struct lt_steps steps;
};

enum kind { CLOSED, TABLE, CHECK, SHARED, PASS, REQUEST, STEPS, ENDED, KINDS };

enum call { BACK, END, REST, TAKE, SIZE, AT, LINE, DROP };

static struct lt_shared table;
static struct lt_pass other;
static union handle mine, given;

static void acquire(struct lt_pass *pass, const char *key, uint64_t txn, uint32_t wanted) {
    const struct lt_txn by = {.txn = txn, .wall = 1};
    WANT(lt_pass_acquire(pass, KEY(key), &by) == wanted);
}

/* Makes `handle` one of this kind. Steps are those of the second shard: an acquire at "a". */
static void become(enum kind kind, union handle *handle) {
    const struct lt_terms terms = {.txn = 1, .wall = 1};
    struct lt_end end;
    struct lt_pass pass = {0};
    *handle = (union handle){0};
    switch (kind) {
    case TABLE: WANT(lt_table_open(&handle->table, START) == LT_DONE); return;
    case CHECK: WANT(lt_check_begin(&handle->check) == LT_DONE); return;
    case SHARED: WANT(lt_shared_open_keeping(&handle->shared, &usual, &whole, START) == LT_DONE); return;
    case PASS: WANT(lt_shared_pass(&table, &handle->pass) == LT_DONE); return;
    case REQUEST:
        WANT(lt_shared_pass(&table, &handle->pass) == LT_DONE && lt_pass_want(&handle->pass, KEY("a"), true) == LT_DONE);
        WANT(lt_pass_enter(&handle->pass, &terms) == LT_DONE);
        return;
    case STEPS: WANT(lt_pass_take(&other, 1, &handle->steps) == LT_DONE); return;
    case ENDED:
        WANT(lt_shared_open_keeping(&handle->shared, &usual, &whole, START) == LT_DONE);
        WANT(lt_shared_pass(&handle->shared, &pass) == LT_DONE);
        acquire(&pass, "a", 1, LT_TAKEN);
        WANT(lt_pass_back(&pass) == LT_DONE && lt_shared_end(&handle->shared, &end) == LT_DONE);
        return;
    default: return;
    }
}

static void set_up(enum kind kind) {
    table = (struct lt_shared){0}, other = (struct lt_pass){0}, given = (union handle){0};
    WANT(lt_shared_open_keeping(&table, &usual, &taken, START) == LT_DONE && lt_shared_pass(&table, &other) == LT_DONE);
    acquire(&other, "a", 9, LT_TAKEN);
    become(kind, &mine);
}

static void take_down(void) {
    union handle *both[] = {&mine, &given};
    for (size_t i = 0; i < 2; i++) {
        struct lt_report report;
        if (lt_shared_close(&both[i]->shared) == LT_DONE || lt_table_close(&both[i]->table) == LT_DONE) continue;
        if (lt_steps_close(&both[i]->steps) == LT_DONE) continue;
        if (both[i]->check.is_open) WANT(lt_check_end(&both[i]->check, &report) != LT_CLOSED);
    }
    WANT(lt_pass_close(&other) == LT_DONE && lt_shared_close(&table) == LT_DONE && blocks == 0);
}

/* What a call was given to write to, and what it says if it was not written. */
static struct lt_end end_at;
static struct lt_step step_at;
static uint64_t from_at;
static size_t count_at;
static uint8_t bytes_at[100];

static bool is_unwritten(void) {
    return end_at.draws == 77 && step_at.pass == 77 && from_at == 77 && count_at == 77 && bytes_at[0] == 77;
}

/* Makes the call on the handle. `number` is the index of a shard, or the place of a step. */
static uint32_t make(enum call call, union handle *handle, size_t number) {
    end_at.draws = 77, step_at.pass = 77, from_at = 77, count_at = 77, bytes_at[0] = 77;
    switch (call) {
    case BACK: return lt_pass_back(&handle->pass);
    case END: return lt_shared_end(&handle->shared, &end_at);
    case REST: return lt_shared_rest(&handle->shared, number, &given.steps);
    case TAKE: return lt_pass_take(&handle->pass, number, &given.steps);
    case SIZE: return lt_steps_count(&handle->steps, &from_at, &count_at);
    case AT: return lt_steps_at(&handle->steps, number, &step_at, (struct lt_through *)nowhere, 0);
    case LINE: return lt_steps_line(&handle->steps, number, 1, bytes_at, sizeof bytes_at, &count_at);
    case DROP: return lt_steps_close(&handle->steps);
    }
    return LT_LOST;
}

static const struct {
    enum call call;
    uint32_t codes[KINDS];
} kinds[] = {
    /*      closed     table      check      shared     pass       request    steps      ended */
    {BACK, {LT_CLOSED, LT_CLOSED, LT_CLOSED, LT_CLOSED, LT_DONE,   LT_CLOSED, LT_CLOSED, LT_CLOSED}},
    {END,  {LT_CLOSED, LT_CLOSED, LT_CLOSED, LT_DONE,   LT_CLOSED, LT_CLOSED, LT_CLOSED, LT_CLOSED}},
    {REST, {LT_CLOSED, LT_CLOSED, LT_CLOSED, LT_CLOSED, LT_CLOSED, LT_CLOSED, LT_CLOSED, LT_DONE}},
    {TAKE, {LT_CLOSED, LT_CLOSED, LT_CLOSED, LT_CLOSED, LT_DONE,   LT_CLOSED, LT_CLOSED, LT_CLOSED}},
    {SIZE, {LT_CLOSED, LT_CLOSED, LT_CLOSED, LT_CLOSED, LT_CLOSED, LT_CLOSED, LT_DONE,   LT_CLOSED}},
    {AT,   {LT_CLOSED, LT_CLOSED, LT_CLOSED, LT_CLOSED, LT_CLOSED, LT_CLOSED, LT_DONE,   LT_CLOSED}},
    {LINE, {LT_CLOSED, LT_CLOSED, LT_CLOSED, LT_CLOSED, LT_CLOSED, LT_CLOSED, LT_DONE,   LT_CLOSED}},
    {DROP, {LT_CLOSED, LT_CLOSED, LT_CLOSED, LT_CLOSED, LT_CLOSED, LT_CLOSED, LT_DONE,   LT_CLOSED}},
};

/* Every other call that may find such a handle. */
static void refuse_others(enum kind kind) {
    const struct lt_terms terms = {.txn = 1, .wall = 1};
    const struct lt_txn by = {.txn = 1, .wall = 1};
    struct lt_report report;
    struct lt_through let;
    struct lt_key state;
    struct lt_queued queued[1];
    struct lt_key_name names[1];
    uint64_t txn;
    size_t n;
    set_up(kind);
    union handle before = mine;
    struct lt_pass *pass = &mine.pass;
    WANT(lt_shared_pass(&mine.shared, &given.pass) == LT_CLOSED && lt_table_close(&mine.table) == LT_CLOSED);
    WANT(lt_pass_want(pass, KEY("a"), true) == LT_CLOSED && lt_pass_enter(pass, &terms) == LT_CLOSED);
    WANT(lt_pass_scan(pass, &n) == LT_CLOSED && lt_pass_poll(pass) == LT_CLOSED && lt_pass_leave(pass) == LT_CLOSED);
    WANT(lt_pass_look(pass, 0, &txn) == LT_CLOSED && lt_pass_let(pass, &let) == LT_CLOSED && lt_pass_number(pass) == 0);
    WANT(lt_pass_inspect(pass, KEY("a"), &state, queued, 1, queued, 1) == LT_CLOSED);
    WANT(lt_pass_keys(pass, 0, KEY(""), names, 1, &n) == LT_CLOSED && lt_pass_acquire(pass, KEY("a"), &by) == LT_CLOSED);
    WANT(lt_pass_update(pass, KEY("a"), &by) == LT_CLOSED && lt_pass_finish(pass, KEY("a"), 1) == LT_CLOSED);
    WANT(lt_table_finish(&mine.table, KEY("a"), 1, &let, 1, &n) == LT_CLOSED);
    WANT(lt_check_piece(&mine.check, KEY("")) == LT_CLOSED && lt_check_end(&mine.check, &report) == LT_CLOSED);
    WANT(memcmp(&before, &mine, sizeof before) == 0);
    take_down();
}

static void play_kinds(void) {
    at = "kinds";
    for (row = 0; row < COUNT(kinds); row++) {
        for (enum kind kind = CLOSED; kind < KINDS; kind++) {
            set_up(kind);
            union handle before = mine;
            uint32_t code = make(kinds[row].call, &mine, 0);
            WANT(code == kinds[row].codes[kind]);
            if (code == LT_CLOSED) WANT(is_unwritten() && memcmp(&before, &mine, sizeof before) == 0 && !given.steps.is_open);
            take_down();
        }
    }
    row = 0;
    refuse_others(STEPS);
    refuse_others(ENDED);
}

/* ORDERS. Of the reasons that a row has, the code is that of the first. `mine` is of this kind, and `given` of that one. */

static const struct {
    enum call call;
    enum kind kind, given;
    size_t number;
    bool starved;
    uint32_t code;
} orders[] = {
    {BACK, REQUEST, CLOSED, 0, true, LT_CLOSED},
    {BACK, PASS, CLOSED, 0, true, LT_DONE},
    {END, ENDED, CLOSED, 0, true, LT_CLOSED},
    {END, SHARED, CLOSED, 0, true, LT_MEMORY},
    {TAKE, CLOSED, TABLE, 2, true, LT_OPEN_ALREADY},
    {TAKE, PASS, SHARED, 0, true, LT_OPEN_ALREADY},
    {TAKE, REQUEST, CLOSED, 2, true, LT_CLOSED},
    {TAKE, PASS, CLOSED, 2, true, LT_BAD_SHARD},
    {TAKE, PASS, CLOSED, SIZE_MAX, true, LT_BAD_SHARD},
    {TAKE, PASS, CLOSED, 1, true, LT_MEMORY},
    {REST, SHARED, STEPS, 2, true, LT_OPEN_ALREADY},
    {REST, SHARED, CLOSED, 2, true, LT_CLOSED},
    {REST, ENDED, CLOSED, 2, true, LT_BAD_SHARD},
    {REST, ENDED, CLOSED, SIZE_MAX, true, LT_BAD_SHARD},
    {REST, ENDED, CLOSED, 1, true, LT_MEMORY},
    {AT, PASS, CLOSED, 1, true, LT_CLOSED},
    {AT, STEPS, CLOSED, 1, true, LT_BAD_INDEX},
    {AT, STEPS, CLOSED, SIZE_MAX, true, LT_BAD_INDEX},
    {AT, STEPS, CLOSED, 0, true, LT_DONE},
    {LINE, ENDED, CLOSED, 1, true, LT_CLOSED},
    {LINE, STEPS, CLOSED, 1, true, LT_BAD_INDEX},
    {LINE, STEPS, CLOSED, 0, true, LT_MEMORY},
    {SIZE, STEPS, CLOSED, 0, true, LT_DONE},
    {DROP, STEPS, CLOSED, 0, true, LT_DONE},
};

static void play_orders(void) {
    at = "orders";
    for (row = 0; row < COUNT(orders); row++) {
        set_up(orders[row].kind);
        become(orders[row].given, &given);
        union handle before = mine, before_given = given;
        starved = orders[row].starved;
        uint32_t code = make(orders[row].call, &mine, orders[row].number);
        starved = false;
        WANT(code == orders[row].code);
        if (code != LT_DONE) WANT(memcmp(&before, &mine, sizeof before) == 0 && memcmp(&before_given, &given, sizeof given) == 0);
        if (code != LT_DONE) WANT(is_unwritten() || code == LT_MEMORY);
        /* After LT_MEMORY the same call may be made again. */
        if (code == LT_MEMORY) WANT(make(orders[row].call, &mine, orders[row].number) == LT_DONE);
        take_down();
    }
    row = 0;

    /* A table that keeps its steps whole gives none while it runs: before memory, and after its shards. */
    struct lt_shared kept = {0};
    struct lt_pass one = {0}, two = {0};
    struct lt_end end = {0};
    given = (union handle){0};
    WANT(lt_shared_open_keeping(&kept, &usual, &whole, START) == LT_DONE);
    WANT(lt_shared_pass(&kept, &one) == LT_DONE && lt_shared_pass(&kept, &two) == LT_DONE);
    starved = true;
    WANT(lt_pass_take(&one, 2, &given.steps) == LT_BAD_SHARD && lt_pass_take(&one, 1, &given.steps) == LT_KEPT_WHOLE);
    /* Its end waits for its passes: one is out, then none is. A pass that is back is not given out again. */
    WANT(lt_shared_end(&kept, &end) == LT_PASSES_OUT && end.passes_out == 2 && end.draws == 0);
    WANT(lt_pass_back(&one) == LT_DONE && !one.is_open && lt_pass_back(&one) == LT_CLOSED);
    WANT(lt_shared_end(&kept, &end) == LT_PASSES_OUT && end.passes_out == 1);
    WANT(lt_shared_pass(&kept, &one) == LT_NO_PASS);
    WANT(lt_pass_back(&two) == LT_DONE && lt_shared_end(&kept, &end) == LT_MEMORY);
    starved = false;
    WANT(lt_shared_end(&kept, &end) == LT_DONE && end.draws == 0 && lt_shared_end(&kept, &end) == LT_CLOSED);
    WANT(lt_shared_close(&kept) == LT_DONE && blocks == 0);

    /* A pass whose handle was closed does not come back: the table has no end. */
    WANT(lt_shared_open(&kept, &usual, START) == LT_DONE && lt_shared_pass(&kept, &one) == LT_DONE);
    WANT(lt_pass_close(&one) == LT_DONE && lt_shared_end(&kept, &end) == LT_PASSES_OUT && end.passes_out == 1);
    WANT(lt_shared_close(&kept) == LT_DONE && blocks == 0);
}

/* FULL. A shard holds two steps; "a" and "c" are in it, and "b" is not. */

static const struct {
    uint32_t way;
    uint32_t third, after_take;
} fulls[] = {
    {LT_KEEP_NONE, LT_TAKEN, LT_TAKEN},
    {LT_KEEP_TAKEN, LT_HISTORY_FULL, LT_TAKEN},
    {LT_KEEP_WHOLE, LT_HISTORY_FULL, LT_HISTORY_FULL},
};

static void play_full(void) {
    at = "full";
    for (row = 0; row < COUNT(fulls); row++) {
        const struct lt_keeping two = {.max_steps = 2, .way = fulls[row].way};
        struct lt_shared full = {0};
        struct lt_pass pass = {0};
        struct lt_steps steps = {0};
        size_t index = 77;
        uint64_t from = 77;
        WANT(lt_shared_open_keeping(&full, &usual, &two, START) == LT_DONE && lt_shared_pass(&full, &pass) == LT_DONE);
        acquire(&pass, "a", 1, LT_TAKEN);
        acquire(&pass, "a", 2, LT_OTHER);
        acquire(&pass, "c", 1, fulls[row].third);
        acquire(&pass, "b", 1, LT_TAKEN);
        if (fulls[row].way != LT_KEEP_WHOLE) {
            WANT(lt_pass_take(&pass, 1, &steps) == LT_DONE && lt_steps_count(&steps, &from, &index) == LT_DONE);
            WANT(from == (fulls[row].way == LT_KEEP_NONE ? 3 : 0) && index == (fulls[row].way == LT_KEEP_NONE ? 0 : 2));
            WANT(lt_steps_close(&steps) == LT_DONE && !steps.is_open);
        }
        acquire(&pass, "e", 1, fulls[row].after_take);
        /* A scan, a look and a leave find the shard full, too. */
        const struct lt_terms terms = {.txn = 5, .wall = 5};
        uint64_t txn;
        if (fulls[row].way == LT_KEEP_WHOLE) {
            WANT(lt_pass_want(&pass, KEY("a"), true) == LT_DONE && lt_pass_enter(&pass, &terms) == LT_DONE);
            WANT(lt_pass_scan(&pass, &index) == LT_HISTORY_FULL && index == 0 && lt_pass_poll(&pass) == LT_NOT_WAITING);
            WANT(lt_pass_look(&pass, 0, &txn) == LT_HISTORY_FULL && lt_pass_leave(&pass) == LT_HISTORY_FULL);
            WANT(lt_pass_finish(&pass, KEY("a"), 1) == LT_HISTORY_FULL);
        }
        WANT(lt_pass_close(&pass) == LT_DONE && lt_shared_close(&full) == LT_DONE && blocks == 0);
    }
    row = 0;
}

/* INSIDE. While `other` is in the second shard, `mine` takes. */

static uint32_t inside[2];

static void take_inside(void) {
    struct lt_steps first = {0};
    inside[0] = lt_pass_take(&mine.pass, 1, &given.steps);
    inside[1] = lt_pass_take(&mine.pass, 0, &first);
    WANT(lt_steps_close(&first) == LT_DONE);
}

static void play_inside(void) {
    at = "inside";
    set_up(PASS);
    union handle before = mine;
    call_back = take_inside;
    acquire(&other, "c", 5, LT_TAKEN);
    WANT(call_back == NULL && inside[0] == LT_BUSY && inside[1] == LT_DONE && !given.steps.is_open);
    WANT(memcmp(&before, &mine, sizeof before) == 0 && lt_pass_take(&mine.pass, 1, &given.steps) == LT_DONE);
    take_down();
}

/* LIFE. */

#define IS(wanted, call) \
    do { \
        uint32_t code = (call); \
        if (code == LT_MEMORY && has_failed) code = (call); \
        WANT(code == (wanted)); \
    } while (0)

/* The line of the step at this place, with this index. */
static void is_line(struct lt_steps *steps, size_t place, uint64_t index, const char *wanted) {
    uint8_t bytes[200];
    size_t count = 0;
    memset(bytes, '#', sizeof bytes);
    IS(LT_DONE, lt_steps_line(steps, place, index, bytes, 5, &count));
    WANT(count == strlen(wanted) && memcmp(bytes, wanted, 5) == 0 && bytes[5] == '#');
    IS(LT_DONE, lt_steps_line(steps, place, index, bytes, sizeof bytes, &count));
    WANT(count == strlen(wanted) && memcmp(bytes, wanted, count) == 0 && bytes[count] == '#');
}

static void play_run(struct lt_shared *run, uint32_t way) {
    const struct lt_config config = {.shards = 2, .passes = 2, .max_requests = 9, .max_waits = 9};
    const struct lt_keeping keeping = {.max_steps = 100, .way = way};
    const struct lt_terms first = {.txn = 1, .wall = 4, .logical = 5}, second = {.wall = 6, .longest = 7};
    const struct lt_txn nine = {.txn = 9, .wall = 3}, later = {.txn = 9, .wall = 4};
    struct lt_pass a = {0}, b = {0};
    struct lt_through let;
    struct lt_end end;
    size_t index;
    uint64_t txn;
    IS(LT_DONE, lt_shared_open_keeping(run, &config, &keeping, START));
    IS(LT_DONE, lt_shared_pass(run, &a));
    IS(LT_DONE, lt_shared_pass(run, &b));
    WANT(lt_pass_number(&a) == 2 && lt_pass_number(&b) == 1);
    /* In the second shard: nine holds "a", a writer and a reader wait for it, and both are let through at once. */
    IS(LT_TAKEN, lt_pass_acquire(&a, KEY("a"), &nine));
    IS(LT_DONE, lt_pass_want(&a, KEY("a"), true));
    IS(LT_DONE, lt_pass_enter(&a, &first));
    IS(LT_WAITING, lt_pass_scan(&a, &index));
    IS(LT_DONE, lt_pass_want(&b, KEY("a"), false));
    IS(LT_DONE, lt_pass_enter(&b, &second));
    IS(LT_WAITING, lt_pass_scan(&b, &index));
    IS(LT_WAIT_FIRST_HELD, lt_pass_look(&a, 0, &txn));
    IS(LT_RAISED, lt_pass_update(&b, KEY("a"), &later));
    IS(LT_FREED, lt_pass_finish(&b, KEY("a"), 9));
    WANT(lt_pass_let(&b, &let) == LT_DONE && lt_pass_let(&b, &let) == LT_DONE && lt_pass_let(&b, &let) == LT_NO_LET);
    IS(LT_DONE, lt_pass_leave(&a));
    IS(LT_DONE, lt_pass_leave(&b));
    /* In the first shard: a long key. */
    IS(LT_TAKEN, lt_pass_acquire(&b, KEY(LONG), &nine));
    WANT(lt_shared_end(run, &end) == LT_PASSES_OUT && end.passes_out == 2);
    WANT(lt_pass_back(&a) == LT_DONE && lt_pass_back(&b) == LT_DONE);
    IS(LT_DONE, lt_shared_end(run, &end));
    WANT(end.draws == 2 && end.passes_out == 0 && end.shard == 0);
}

static void life(void) {
    struct lt_shared run = {0};
    struct lt_steps steps = {0};
    struct lt_step step;
    struct lt_through lets[3] = {{77, 77, 77}, {77, 77, 77}, {77, 77, 77}};
    size_t count = 0;
    uint64_t from = 77;
    play_run(&run, LT_KEEP_WHOLE);

    IS(LT_DONE, lt_shared_rest(&run, 1, &steps));
    WANT(lt_steps_count(&steps, &from, &count) == LT_DONE && from == 0 && count == 8);
    is_line(&steps, 0, 0, "a 2 acquire 9 3.0 = taken\n");
    is_line(&steps, 1, 2, "a 2 2 visit 1.1 1 4.5 w = wait\n");
    is_line(&steps, 2, 3, "a 3 1 visit 2.1 - 6.0 r max=7 = wait\n");
    is_line(&steps, 3, 0, "a 2 look 1 = first 9 held\n");
    is_line(&steps, 4, 5, "a 5 1 update 9 4.0 = raised\n");
    is_line(&steps, 5, 6, "a 6 1 finish 9 = freed let 2.1 1.1\n");
    is_line(&steps, 6, 7, "a 7 2 leave 1 = left\n");
    is_line(&steps, 7, 18446744073709551615u, "a 18446744073709551615 1 leave 2 = absent\n");

    WANT(lt_steps_at(&steps, 1, &step, lets, 3) == LT_DONE && step.key.len == 1 && step.key.bytes[0] == 'a');
    WANT(step.pass == 2 && step.reply == LT_MUST_WAIT && step.reply_txn == 0 && step.lets == 0 && lets[0].number == 77);
    WANT(step.call.kind == 1 && step.call.number == 1 && step.call.wait == 1 && step.call.txn == 1 && step.call.writes);
    WANT(step.call.wall == 4 && step.call.logical == 5 && step.call.longest == 0);
    WANT(lt_steps_at(&steps, 2, &step, lets, 3) == LT_DONE && step.pass == 1 && step.call.kind == 1 && !step.call.writes);
    WANT(step.call.number == 2 && step.call.wait == 1 && step.call.txn == 0 && step.call.wall == 6 && step.call.longest == 7);
    WANT(lt_steps_at(&steps, 3, &step, lets, 3) == LT_DONE && step.call.kind == 6 && step.call.number == 1);
    WANT(step.reply == LT_WAIT_FIRST_HELD && step.reply_txn == 9 && step.call.txn == 0);
    WANT(lt_steps_at(&steps, 4, &step, lets, 3) == LT_DONE && step.call.kind == 3 && step.call.txn == 9 && step.call.wall == 4);
    WANT(lt_steps_at(&steps, 5, &step, lets, 1) == LT_DONE && step.call.kind == 4 && step.call.txn == 9 && step.call.wall == 0);
    WANT(step.reply == LT_FREED && step.lets == 2 && lets[0].number == 2 && lets[0].wait == 1 && lets[0].pass == 1);
    WANT(lets[1].number == 77);
    WANT(lt_steps_at(&steps, 5, &step, lets, 3) == LT_DONE && lets[1].number == 1 && lets[1].wait == 1 && lets[1].pass == 2);
    WANT(lets[2].number == 77);
    WANT(lt_steps_at(&steps, 6, &step, lets, 3) == LT_DONE && step.call.kind == 5 && step.call.number == 1);
    WANT(lt_steps_at(&steps, 0, &step, lets, 3) == LT_DONE && step.call.kind == 2 && step.call.txn == 9 && step.call.wall == 3);
    WANT(lt_steps_close(&steps) == LT_DONE);

    /* The steps of a shard are given once, and those of another shard are not touched. */
    IS(LT_DONE, lt_shared_rest(&run, 1, &steps));
    WANT(lt_steps_count(&steps, &from, &count) == LT_DONE && from == 0 && count == 0 && lt_steps_close(&steps) == LT_DONE);
    IS(LT_DONE, lt_shared_rest(&run, 0, &steps));
    WANT(lt_steps_count(&steps, &from, &count) == LT_DONE && from == 0 && count == 1);
    is_line(&steps, 0, 1, LONG " 1 1 acquire 9 3.0 = taken\n");
    WANT(lt_steps_close(&steps) == LT_DONE && lt_shared_close(&run) == LT_DONE && blocks == 0);

    /* An ended table may be closed with steps in it, and a table that keeps none has none. */
    run = (struct lt_shared){0};
    play_run(&run, LT_KEEP_TAKEN);
    WANT(lt_shared_close(&run) == LT_DONE && blocks == 0);
    play_run(&run, LT_KEEP_NONE);
    IS(LT_DONE, lt_shared_rest(&run, 1, &steps));
    WANT(lt_steps_count(&steps, &from, &count) == LT_DONE && from == 8 && count == 0 && lt_steps_close(&steps) == LT_DONE);
    WANT(lt_shared_close(&run) == LT_DONE && blocks == 0);
}

/* THREADS. A thread makes requests: each writes two keys, waits by polls, takes both locks, leaves, and frees them. */

#define MOST_THREADS 8
#define KEYS 12
#define ROUNDS 300

static struct seat {
    struct lt_pass pass;
    uint64_t acquires, finishes, others;
} seats[MOST_THREADS];

static size_t threads, shards;
static _Atomic size_t working;

#define AGAIN(code, call) \
    while (((code) = (call)) == LT_BUSY) sched_yield()

static void forget_lets(struct lt_pass *pass) {
    struct lt_through let;
    while (lt_pass_let(pass, &let) == LT_DONE) continue;
}

static void take_part(struct seat *seat, const char *const *names, uint64_t txn) {
    const struct lt_terms terms = {.txn = txn, .wall = 1};
    const struct lt_txn by = {.txn = txn, .wall = 1};
    uint32_t code;
    size_t index, held = 0;
    for (size_t i = 0; i < 2; i++) WANT(lt_pass_want(&seat->pass, KEY(names[i]), true) == LT_DONE);
    WANT(lt_pass_enter(&seat->pass, &terms) == LT_DONE);
    while (held < 2) {
        AGAIN(code, lt_pass_scan(&seat->pass, &index));
        if (code == LT_WAITING)
            while (lt_pass_poll(&seat->pass) == LT_WAITING) sched_yield();
        if (code != LT_PROCEED) {
            WANT(code == LT_WAITING || code == LT_RESCAN);
            continue;
        }
        for (held = 0; held < 2; held++) {
            AGAIN(code, lt_pass_acquire(&seat->pass, KEY(names[held]), &by));
            if (code == LT_OTHER) break;
            WANT(code == LT_TAKEN);
            seat->acquires++;
        }
        if (held == 2) break;
        /* Whoever scans again first frees what he holds. */
        seat->others++;
        while (held > 0) {
            held--;
            AGAIN(code, lt_pass_finish(&seat->pass, KEY(names[held]), txn));
            WANT(code == LT_FREED);
            seat->finishes++;
        }
        forget_lets(&seat->pass);
    }
    AGAIN(code, lt_pass_leave(&seat->pass));
    WANT(code == LT_DONE);
    for (size_t i = 0; i < 2; i++) {
        AGAIN(code, lt_pass_finish(&seat->pass, KEY(names[i]), txn));
        WANT(code == LT_FREED);
        seat->finishes++;
    }
    forget_lets(&seat->pass);
}

static void *work(void *arg) {
    struct seat *seat = arg;
    size_t me = (size_t)(seat - seats);
    uint64_t state = 88172645463325252u * (me + 1);
    char keys[2][8];
    for (size_t round = 0; round < ROUNDS; round++) {
        state ^= state << 13, state ^= state >> 7, state ^= state << 17;
        size_t first = state % KEYS, second = (first + 1 + state / KEYS % (KEYS - 1)) % KEYS;
        snprintf(keys[0], sizeof keys[0], "k%02zu", first);
        snprintf(keys[1], sizeof keys[1], "k%02zu", second);
        const char *names[2] = {keys[0], keys[1]};
        take_part(seat, names, me * ROUNDS + round + 1);
        if (round % 8 == 0) sched_yield();
    }
    working--;
    return NULL;
}

/* The pieces of each shard, in the order in which they were taken. */
#define MOST_PIECES 100000
static struct lt_steps pieces[MOST_PIECES];
static size_t many;
static uint64_t next_of[MOST_THREADS];

static void keep_piece(struct lt_steps *steps, size_t shard) {
    uint64_t from;
    size_t count;
    WANT(lt_steps_count(steps, &from, &count) == LT_DONE && from == next_of[shard]);
    next_of[shard] += count;
    if (count > 0) {
        WANT(many < MOST_PIECES);
        pieces[many++] = *steps;
        *steps = (struct lt_steps){0};
    } else {
        WANT(lt_steps_close(steps) == LT_DONE);
    }
}

static void take_each(struct lt_pass *reader) {
    for (size_t shard = 0; shard < shards; shard++) {
        struct lt_steps steps = {0};
        uint32_t code;
        AGAIN(code, lt_pass_take(reader, shard, &steps));
        WANT(code == LT_DONE);
        keep_piece(&steps, shard);
    }
}

/* A text, to which lines are added. */
static struct {
    uint8_t *bytes;
    size_t len, room;
} text;

static void add(const uint8_t *bytes, size_t len) {
    if (text.room < text.len + len) {
        text.room = 2 * (text.len + len);
        text.bytes = realloc(text.bytes, text.room);
    }
    memcpy(text.bytes + text.len, bytes, len);
    text.len += len;
}

static void add_line(struct lt_steps *steps, size_t place, uint64_t index) {
    uint8_t line[4000];
    size_t len;
    WANT(lt_steps_line(steps, place, index, line, sizeof line, &len) == LT_DONE && len <= sizeof line);
    add(line, len);
}

/* Calls `each` with each step of the pieces, in order. */
static void for_each(void (*each)(struct lt_steps *steps, size_t place, const struct lt_step *step)) {
    struct lt_step step;
    uint64_t from;
    size_t count;
    for (size_t i = 0; i < many; i++) {
        WANT(lt_steps_count(&pieces[i], &from, &count) == LT_DONE);
        for (size_t place = 0; place < count; place++) {
            WANT(lt_steps_at(&pieces[i], place, &step, (struct lt_through *)nowhere, 0) == LT_DONE);
            each(&pieces[i], place, &step);
        }
    }
}

static uint64_t calls[7], taken_locks, others, steps_in_all;
static const char *wanted_key;
static uint64_t index_of_key;

static void count_step(struct lt_steps *steps, size_t place, const struct lt_step *step) {
    (void)steps, (void)place;
    calls[step->call.kind]++;
    taken_locks += step->reply == LT_TAKEN;
    others += step->call.kind == 2 && step->reply == LT_OTHER;
    steps_in_all++;
}

static void write_step(struct lt_steps *steps, size_t place, const struct lt_step *step) {
    if (step->key.len == strlen(wanted_key) && memcmp(step->key.bytes, wanted_key, step->key.len) == 0)
        add_line(steps, place, ++index_of_key);
}

static void write_trace(struct lt_steps *steps, size_t place, const struct lt_step *step) {
    (void)step;
    add_line(steps, place, 0);
}

/* The check accepts the text, whole and in pieces, and a text in which one step is missing it does not. */
static void check_text(size_t keys) {
    struct lt_report report, again;
    struct lt_text_check check = {0};
    WANT(lt_check(text.bytes, text.len, &report) == LT_DONE);
    WANT(report.version == 2 && report.keys == keys && report.steps == steps_in_all);
    WANT(lt_check_begin(&check) == LT_DONE);
    for (size_t from = 0; from < text.len; from += 1000)
        WANT(lt_check_piece(&check, text.bytes + from, text.len - from < 1000 ? text.len - from : 1000) == LT_DONE);
    WANT(lt_check_end(&check, &again) == LT_DONE && again.keys == keys && again.steps == steps_in_all);
    /* The last line but one of the text goes. */
    size_t end = text.len - 1, start, before;
    for (start = end; text.bytes[start - 1] != '\n'; start--) continue;
    for (before = start - 1; text.bytes[before - 1] != '\n'; before--) continue;
    memmove(text.bytes + before, text.bytes + start, text.len - start);
    WANT(lt_check(text.bytes, text.len - (start - before), &report) == LT_FAULT_INDEX);
}

static void run_threads(uint32_t way, const char *folder) {
    const struct lt_config config = {.shards = shards, .passes = threads + 1, .max_requests = 1u << 30, .max_waits = 1 << 20};
    const struct lt_keeping keeping = {.max_steps = (uint64_t)1 << 32, .way = way};
    struct lt_shared run = {0};
    struct lt_pass reader = {0};
    struct lt_end end;
    pthread_t all[MOST_THREADS];
    uint32_t code;
    many = 0, steps_in_all = taken_locks = others = 0, text.len = 0;
    memset(next_of, 0, sizeof next_of), memset(calls, 0, sizeof calls), memset(seats, 0, sizeof seats);
    WANT(lt_shared_open_keeping(&run, &config, &keeping, START) == LT_DONE && lt_shared_pass(&run, &reader) == LT_DONE);
    for (size_t i = 0; i < threads; i++) WANT(lt_shared_pass(&run, &seats[i].pass) == LT_DONE);
    working = threads;
    for (size_t i = 0; i < threads; i++) WANT(pthread_create(&all[i], NULL, work, &seats[i]) == 0);
    while (way == LT_KEEP_TAKEN && working > 0) {
        take_each(&reader);
        sched_yield();
    }
    for (size_t i = 0; i < threads; i++) pthread_join(all[i], NULL);
    /* The passes come back, and what is left follows what was taken. */
    uint64_t acquires = 0, finishes = 0, came_second = 0;
    for (size_t i = 0; i < threads; i++) {
        WANT(lt_shared_end(&run, &end) == LT_PASSES_OUT && end.passes_out == threads + 1 - i);
        WANT(lt_pass_back(&seats[i].pass) == LT_DONE);
        acquires += seats[i].acquires, finishes += seats[i].finishes, came_second += seats[i].others;
    }
    WANT(lt_pass_back(&reader) == LT_DONE);
    AGAIN(code, lt_shared_end(&run, &end));
    WANT(code == LT_DONE && end.draws == threads * ROUNDS);
    for (size_t shard = 0; shard < shards; shard++) {
        struct lt_steps steps = {0};
        WANT(lt_shared_rest(&run, shard, &steps) == LT_DONE);
        keep_piece(&steps, shard);
    }
    WANT(lt_shared_close(&run) == LT_DONE);

    /* Each call that was answered is a step: so many acquires that took a lock, and that came second; so many finishes; and one
       leave of each key of a request. Visits are counted by nobody else. */
    for_each(count_step);
    WANT(taken_locks == acquires && others == came_second && calls[4] == finishes && acquires == finishes);
    WANT(calls[2] == acquires + came_second && calls[5] == 2 * threads * ROUNDS && calls[3] == 0 && calls[6] == 0);
    WANT(calls[1] >= 2 * threads * ROUNDS);

    if (folder) {
        char path[500];
        snprintf(path, sizeof path, "%s/%s-%zu-%zu", folder, way == LT_KEEP_WHOLE ? "whole" : "taken", threads, shards);
        text.len = 0;
        for_each(write_trace);
        FILE *file = fopen(path, "wb");
        WANT(file && fwrite(text.bytes, 1, text.len, file) == text.len && fclose(file) == 0);
    }
    text.len = 0;
    add(KEY("locks 2\n"));
    for (size_t i = 0; i < KEYS; i++) {
        char name[8];
        snprintf(name, sizeof name, "k%02zu", i);
        wanted_key = name, index_of_key = 0;
        for_each(write_step);
        WANT(index_of_key > 1);
    }
    check_text(KEYS);
    printf("threads: %zu over %zu shards, %s: ", threads, shards, way == LT_KEEP_WHOLE ? "whole" : "taken");
    printf("%" PRIu64 " steps in %zu pieces, %" PRIu64 " visits, %" PRIu64 " came second; legal\n", steps_in_all, many, calls[1],
           came_second);
    for (size_t i = 0; i < many; i++) WANT(lt_steps_close(&pieces[i]) == LT_DONE);
    WANT(blocks == 0);
}

static void play_threads(const char *folder) {
    static const size_t runs[][2] = {{1, 1}, {2, 1}, {4, 2}, {8, 8}};
    at = "threads";
    for (row = 0; row < COUNT(runs); row++) {
        threads = runs[row][0], shards = runs[row][1];
        run_threads(LT_KEEP_WHOLE, folder);
        run_threads(LT_KEEP_TAKEN, folder);
    }
    free(text.bytes);
}

int main(int words, char **word) {
    play_openings();
    printf("openings: %zu rows\n", COUNT(openings));
    play_kinds();
    printf("kinds: %zu calls on %d kinds of handles\n", COUNT(kinds), KINDS);
    play_orders();
    printf("orders: %zu rows\n", COUNT(orders));
    play_full();
    printf("full: %zu ways to keep steps\n", COUNT(fulls));
    play_inside();
    puts("inside: a take is busy");
    at = "life";
    size_t failed = 0;
    do {
        fails_at = failed + 1;
        asked = 0;
        has_failed = false;
        life();
        failed += has_failed;
    } while (has_failed);
    fails_at = 0;
    printf("life: each of %zu allocations failed in turn\n", failed);
    play_threads(words > 1 ? word[1] : NULL);
    return 0;
}
