/*
 * Does the shared table answer as locktable.h says, on one thread? The tests, in order:
 *
 *   openings    the numbers with which a table is opened, at both ends of each range
 *   kinds       each call, on a handle of each kind
 *   orders      a call that has two reasons to refuse, and a call while every allocation fails
 *   life        two requests that meet at two keys, from their first wait to their last lock. It is played once for each of its
 *               allocations, which then fails: the call answers LT_MEMORY, is made again, and all comes out as without
 *   lets        whom a step lets through, and who is told
 *   busy        each call, while another caller is inside the shard: it comes from the heap that the other one asks
 *   partway     a scan and a leave that are refused between two keys
 *
 * Each expected code comes from locktable.h and docs/RULES.md. At each end no block of memory is left. threads.c has the threads.
 */
#include "locktable.h"

#include <stdio.h>
#include <stdlib.h>
#include <string.h>

static const char *at = "";
static size_t row;

#define WANT(x) \
    do { \
        if (!(x)) { \
            fprintf(stderr, "%s:%d: %s (%s, row %zu, allocation %zu)\n", __FILE__, __LINE__, #x, at, row, fails_at); \
            exit(1); \
        } \
    } while (0)

#define KEY(text) (const uint8_t *)(text), strlen(text)
#define START 7
#define LONG "a-key-of-more-than-22-bytes"
#define TOO_LONG "123456789-123456789-123456789-123456789-123456789-123456789-12345"

/* THE HEAP: over malloc. The request that is due to fail does, and the one that is due to call back does. */

struct rattle_block {
    bool ok;
    void *at;
};

static char nowhere[16];
static size_t asked, fails_at, blocks;
static bool has_failed, starved;
static void (*call_back)(void);

struct rattle_block rattle_alloc(size_t size, size_t align);
struct rattle_block rattle_realloc(void *at, size_t kept, size_t size, size_t align);
void rattle_dealloc(void *at);

static bool is_refused(void) {
    void (*back)(void) = call_back;
    call_back = NULL;
    if (back) back();
    if (starved) return true;
    if (++asked != fails_at) return false;
    has_failed = true;
    return true;
}

struct rattle_block rattle_alloc(size_t size, size_t align) {
    if (is_refused()) return (struct rattle_block){false, nowhere};
    blocks++;
    return (struct rattle_block){true, malloc(size > 0 ? size : align)};
}

struct rattle_block rattle_realloc(void *block, size_t kept, size_t size, size_t align) {
    if (is_refused()) return (struct rattle_block){false, nowhere};
    void *other = malloc(size > 0 ? size : align);
    memcpy(other, block, kept < size ? kept : size);
    free(block);
    return (struct rattle_block){true, other};
}

void rattle_dealloc(void *block) {
    blocks--;
    free(block);
}

/* HANDLES AND CALLS. */

union handle {
    struct lt_table table;
    struct lt_text_check check;
    struct lt_shared shared;
    struct lt_pass pass;
};

enum kind { CLOSED, TABLE, CHECK, SHARED, PASS, REQUEST, KINDS };

enum call {
    GIVE, CLOSE_SHARED, CLOSE_PASS, WANT_KEY, ENTER, SCAN, POLL, LEAVE, LOOK, INSPECT, KEYS, ACQUIRE, UPDATE, FINISH, LET, NUMBER,
    TABLE_FINISH, TABLE_CLOSE, CHECK_PIECE, CHECK_END
};

static const struct lt_config usual = {.shards = 2, .passes = 4, .max_requests = 100, .max_waits = 100};

/* A table with its other callers. Key "a" is in the second shard, "b" and LONG are in the first. Transaction 9 holds "h". */
static struct lt_shared table;
static struct lt_pass other, third;
static union handle mine, given;

/* Makes `handle` one of this kind. A request names "a" to write and "b" to read, and has visited nothing. */
static void become(enum kind kind, union handle *handle) {
    const struct lt_terms terms = {.txn = 1, .wall = 1};
    *handle = (union handle){0};
    if (kind == TABLE) WANT(lt_table_open(&handle->table, START) == LT_DONE);
    if (kind == CHECK) WANT(lt_check_begin(&handle->check) == LT_DONE);
    if (kind == SHARED) WANT(lt_shared_open(&handle->shared, &usual, START) == LT_DONE);
    if (kind < PASS) return;
    WANT(lt_shared_pass(&table, &handle->pass) == LT_DONE);
    if (kind == PASS) return;
    WANT(lt_pass_want(&handle->pass, KEY("b"), false) == LT_DONE && lt_pass_want(&handle->pass, KEY("a"), true) == LT_DONE);
    WANT(lt_pass_enter(&handle->pass, &terms) == LT_DONE);
}

static void set_up(enum kind kind) {
    const struct lt_txn nine = {.txn = 9, .wall = 9};
    table = (struct lt_shared){0}, other = third = (struct lt_pass){0};
    given = (union handle){0};
    WANT(lt_shared_open(&table, &usual, START) == LT_DONE);
    WANT(lt_shared_pass(&table, &other) == LT_DONE && lt_shared_pass(&table, &third) == LT_DONE);
    WANT(lt_pass_acquire(&other, KEY("h"), &nine) == LT_TAKEN);
    become(kind, &mine);
}

/* Closes what is open. */
static void take_down(void) {
    union handle *both[] = {&mine, &given};
    for (size_t i = 0; i < 2; i++) {
        struct lt_report report;
        if (lt_shared_close(&both[i]->shared) == LT_DONE || lt_table_close(&both[i]->table) == LT_DONE) continue;
        if (both[i]->check.is_open) WANT(lt_check_end(&both[i]->check, &report) != LT_CLOSED);
    }
    WANT(lt_pass_close(&other) == LT_DONE && lt_pass_close(&third) == LT_DONE && lt_shared_close(&table) == LT_DONE);
    WANT(blocks == 0);
}

/* What a call was given to write to, and what it says if it was not written. */
static size_t index_at;
static uint64_t txn_at;
static struct lt_through through_at;
static struct lt_key key_at;
static struct lt_queued writers_at[2], readers_at[2];
static struct lt_key_name names_at[2];

static bool is_unwritten(void) {
    return index_at == 77 && txn_at == 77 && through_at.number == 77 && through_at.wait == 77 && through_at.pass == 77
        && key_at.holder == 77 && writers_at[0].number == 77 && readers_at[0].number == 77 && names_at[0].len == 77;
}

/* Makes the call on the handle. `number` is the transaction, the index of a look, or that of a shard. */
static uint32_t make(enum call call, union handle *handle, const char *key, uint64_t number) {
    const struct lt_txn by = {.txn = number, .wall = 1};
    const struct lt_terms terms = {.txn = 1, .wall = 1};
    struct lt_through lets[1];
    struct lt_report report;
    size_t count;
    index_at = 77, txn_at = 77, through_at = (struct lt_through){77, 77, 77};
    key_at.holder = 77, writers_at[0].number = 77, readers_at[0].number = 77, names_at[0].len = 77;
    switch (call) {
    case GIVE: return lt_shared_pass(&handle->shared, &given.pass);
    case CLOSE_SHARED: return lt_shared_close(&handle->shared);
    case CLOSE_PASS: return lt_pass_close(&handle->pass);
    case WANT_KEY: return lt_pass_want(&handle->pass, KEY(key), true);
    case ENTER: return lt_pass_enter(&handle->pass, &terms);
    case SCAN: return lt_pass_scan(&handle->pass, &index_at);
    case POLL: return lt_pass_poll(&handle->pass);
    case LEAVE: return lt_pass_leave(&handle->pass);
    case LOOK: return lt_pass_look(&handle->pass, number, &txn_at);
    case INSPECT: return lt_pass_inspect(&handle->pass, KEY(key), &key_at, writers_at, 2, readers_at, 2);
    case KEYS: return lt_pass_keys(&handle->pass, number, KEY(key), names_at, 2, &index_at);
    case ACQUIRE: return lt_pass_acquire(&handle->pass, KEY(key), &by);
    case UPDATE: return lt_pass_update(&handle->pass, KEY(key), &by);
    case FINISH: return lt_pass_finish(&handle->pass, KEY(key), number);
    case LET: return lt_pass_let(&handle->pass, &through_at);
    case NUMBER: return lt_pass_number(&handle->pass);
    case TABLE_FINISH: return lt_table_finish(&handle->table, KEY(key), number, lets, 1, &count);
    case TABLE_CLOSE: return lt_table_close(&handle->table);
    case CHECK_PIECE: return lt_check_piece(&handle->check, KEY(""));
    case CHECK_END: return lt_check_end(&handle->check, &report);
    }
    return LT_LOST;
}

/* OPENINGS. */

static const struct {
    struct lt_config config;
    uint32_t code;
} openings[] = {
    {{0, 1, 1, 1}, LT_BAD_SHARDS},
    {{65, 0, 0, 0}, LT_BAD_SHARDS},
    {{64, 0, 0, 0}, LT_BAD_PASSES},
    {{1, 1025, 0, 0}, LT_BAD_PASSES},
    {{1, 1024, 0, 0}, LT_BAD_REQUESTS},
    {{1, 1, (uint64_t)1 << 40, 0}, LT_BAD_REQUESTS},
    {{1, 1, ((uint64_t)1 << 40) - 1, 0}, LT_BAD_WAITS},
    {{1, 1, 1, 1 << 24}, LT_BAD_WAITS},
    {{64, 1024, ((uint64_t)1 << 40) - 1, (1 << 24) - 1}, LT_DONE},
    {{1, 1, 1, 1}, LT_DONE},
};

#define COUNT(rows) (sizeof(rows) / sizeof *(rows))

static void play_openings(void) {
    at = "openings";
    for (row = 0; row < COUNT(openings); row++) {
        struct lt_shared opened = {0};
        WANT(lt_shared_open(&opened, &openings[row].config, START) == openings[row].code);
        bool is_open = openings[row].code == LT_DONE;
        WANT(opened.is_open == is_open);
        /* A refusal for a number comes before one for memory, and after that for a handle that is open. */
        starved = true;
        uint32_t again = lt_shared_open(&opened, &openings[row].config, START);
        starved = false;
        WANT(again == (is_open ? LT_OPEN_ALREADY : openings[row].code) && opened.is_open == is_open);
        WANT(lt_shared_close(&opened) == (is_open ? LT_DONE : LT_CLOSED) && !opened.is_open && blocks == 0);
        if (!is_open) continue;
        starved = true;
        again = lt_shared_open(&opened, &openings[row].config, START);
        starved = false;
        WANT(again == LT_MEMORY && !opened.is_open && blocks == 0);
    }
}

/* KINDS. OF_PASS stands for the number of a pass: 1 to 4, and another one for each pass. */

#define REFUSED LT_CLOSED
#define OF_PASS 1000

static const struct {
    enum call call;
    uint32_t codes[KINDS];
} kinds[] = {
    /*             closed   table     check     shared   pass            request */
    {GIVE,         {REFUSED, REFUSED,  REFUSED,  LT_DONE, REFUSED,        REFUSED}},
    {CLOSE_SHARED, {REFUSED, REFUSED,  REFUSED,  LT_DONE, LT_DONE,        LT_DONE}},
    {CLOSE_PASS,   {REFUSED, REFUSED,  REFUSED,  LT_DONE, LT_DONE,        LT_DONE}},
    {WANT_KEY,     {REFUSED, REFUSED,  REFUSED,  REFUSED, LT_DONE,        REFUSED}},
    {ENTER,        {REFUSED, REFUSED,  REFUSED,  REFUSED, LT_NO_KEYS,     REFUSED}},
    {SCAN,         {REFUSED, REFUSED,  REFUSED,  REFUSED, REFUSED,        LT_PROCEED}},
    {POLL,         {REFUSED, REFUSED,  REFUSED,  REFUSED, REFUSED,        LT_NOT_WAITING}},
    {LEAVE,        {REFUSED, REFUSED,  REFUSED,  REFUSED, REFUSED,        LT_DONE}},
    {LOOK,         {REFUSED, REFUSED,  REFUSED,  REFUSED, REFUSED,        LT_NOTHING}},
    {INSPECT,      {REFUSED, REFUSED,  REFUSED,  REFUSED, LT_DONE,        LT_DONE}},
    {KEYS,         {REFUSED, REFUSED,  REFUSED,  REFUSED, LT_DONE,        REFUSED}},
    {ACQUIRE,      {REFUSED, REFUSED,  REFUSED,  REFUSED, LT_TAKEN,       LT_TAKEN}},
    {UPDATE,       {REFUSED, REFUSED,  REFUSED,  REFUSED, LT_OTHER,       LT_OTHER}},
    {FINISH,       {REFUSED, REFUSED,  REFUSED,  REFUSED, LT_OTHER,       LT_OTHER}},
    {LET,          {REFUSED, REFUSED,  REFUSED,  REFUSED, LT_NO_LET,      LT_NO_LET}},
    {NUMBER,       {0,       0,        0,        0,       OF_PASS,        OF_PASS}},
    {TABLE_FINISH, {REFUSED, LT_OTHER, REFUSED,  REFUSED, REFUSED,        REFUSED}},
    {TABLE_CLOSE,  {REFUSED, LT_DONE,  REFUSED,  REFUSED, REFUSED,        REFUSED}},
    {CHECK_PIECE,  {REFUSED, REFUSED,  LT_DONE,  REFUSED, REFUSED,        REFUSED}},
    {CHECK_END,    {REFUSED, REFUSED,  LT_FAULT_HEADER, REFUSED, REFUSED, REFUSED}},
};

static void play_kinds(void) {
    at = "kinds";
    for (row = 0; row < COUNT(kinds); row++) {
        for (enum kind kind = CLOSED; kind < KINDS; kind++) {
            set_up(kind);
            union handle before = mine;
            uint32_t wanted = kinds[row].codes[kind];
            uint32_t code = make(kinds[row].call, &mine, "a", kinds[row].call >= ACQUIRE ? 1 : 0);
            if (wanted == OF_PASS) {
                uint32_t one = lt_pass_number(&other), two = lt_pass_number(&third);
                WANT(1 <= code && code <= usual.passes && code != one && code != two && one != two);
            } else {
                WANT(code == wanted);
            }
            if (code == LT_CLOSED && wanted == REFUSED) WANT(is_unwritten() && memcmp(&before, &mine, sizeof before) == 0);
            take_down();
        }
    }
}

/* ORDERS. Of the reasons that a row has, the code is that of the first. `mine` is of this kind, and `given` of that one. */

static const struct {
    enum call call;
    enum kind kind, given;
    const char *key;
    uint64_t number;
    bool starved;
    uint32_t code;
} orders[] = {
    {GIVE, CLOSED, TABLE, "", 0, true, LT_OPEN_ALREADY},
    {GIVE, SHARED, PASS, "", 0, false, LT_OPEN_ALREADY},
    {GIVE, PASS, CLOSED, "", 0, true, LT_CLOSED},
    {GIVE, SHARED, CLOSED, "", 0, true, LT_MEMORY},
    {WANT_KEY, REQUEST, CLOSED, "", 0, true, LT_CLOSED},
    {WANT_KEY, CLOSED, CLOSED, TOO_LONG, 0, false, LT_CLOSED},
    {WANT_KEY, PASS, CLOSED, "", 0, true, LT_BAD_KEY_EMPTY},
    {WANT_KEY, PASS, CLOSED, TOO_LONG " ", 0, true, LT_BAD_KEY_LONG},
    {WANT_KEY, PASS, CLOSED, "a b", 0, true, LT_BAD_KEY_BYTE},
    {WANT_KEY, PASS, CLOSED, LONG, 0, true, LT_MEMORY},
    {WANT_KEY, PASS, CLOSED, "a", 0, true, LT_MEMORY},
    {ENTER, REQUEST, CLOSED, "", 0, true, LT_CLOSED},
    {ENTER, PASS, CLOSED, "", 0, true, LT_NO_KEYS},
    {SCAN, PASS, CLOSED, "", 0, true, LT_CLOSED},
    {SCAN, REQUEST, CLOSED, "", 0, true, LT_PROCEED},
    {POLL, REQUEST, CLOSED, "", 0, true, LT_NOT_WAITING},
    {LEAVE, REQUEST, CLOSED, "", 0, true, LT_DONE},
    {LOOK, CLOSED, CLOSED, "", 2, true, LT_CLOSED},
    {LOOK, REQUEST, CLOSED, "", 2, true, LT_BAD_INDEX},
    {LOOK, REQUEST, CLOSED, "", UINT64_MAX, true, LT_BAD_INDEX},
    {LOOK, REQUEST, CLOSED, "", 1, true, LT_NOTHING},
    {INSPECT, SHARED, CLOSED, "", 0, true, LT_CLOSED},
    {INSPECT, PASS, CLOSED, "", 0, true, LT_BAD_KEY_EMPTY},
    {INSPECT, REQUEST, CLOSED, TOO_LONG " ", 0, true, LT_BAD_KEY_LONG},
    {INSPECT, PASS, CLOSED, "a b", 0, true, LT_BAD_KEY_BYTE},
    {INSPECT, PASS, CLOSED, LONG, 0, true, LT_MEMORY},
    {KEYS, REQUEST, CLOSED, TOO_LONG, 2, true, LT_CLOSED},
    {KEYS, PASS, CLOSED, TOO_LONG, 2, true, LT_BAD_SHARD},
    {KEYS, PASS, CLOSED, "", SIZE_MAX, true, LT_BAD_SHARD},
    {KEYS, PASS, CLOSED, TOO_LONG " ", 1, true, LT_BAD_KEY_LONG},
    {KEYS, PASS, CLOSED, "a b", 0, true, LT_BAD_KEY_BYTE},
    {KEYS, PASS, CLOSED, LONG, 1, true, LT_MEMORY},
    {KEYS, PASS, CLOSED, "", 0, true, LT_MEMORY},
    {ACQUIRE, CLOSED, CLOSED, "", 0, true, LT_BAD_TXN},
    {ACQUIRE, PASS, CLOSED, "", 1, true, LT_BAD_KEY_EMPTY},
    {ACQUIRE, PASS, CLOSED, TOO_LONG " ", 1, true, LT_BAD_KEY_LONG},
    {ACQUIRE, PASS, CLOSED, "a b", 1, true, LT_BAD_KEY_BYTE},
    {ACQUIRE, CLOSED, CLOSED, "", 1, true, LT_CLOSED},
    {ACQUIRE, PASS, CLOSED, "j", 1, true, LT_MEMORY},
    {ACQUIRE, REQUEST, CLOSED, LONG, 1, true, LT_MEMORY},
    {ACQUIRE, PASS, CLOSED, "h", 1, true, LT_OTHER},
    {UPDATE, CLOSED, CLOSED, "", 0, true, LT_BAD_TXN},
    {UPDATE, PASS, CLOSED, "", 1, true, LT_BAD_KEY_EMPTY},
    {UPDATE, PASS, CLOSED, TOO_LONG " ", 1, true, LT_BAD_KEY_LONG},
    {UPDATE, PASS, CLOSED, "a b", 1, true, LT_BAD_KEY_BYTE},
    {UPDATE, CHECK, CLOSED, "", 1, true, LT_CLOSED},
    {UPDATE, PASS, CLOSED, LONG, 1, true, LT_MEMORY},
    {UPDATE, PASS, CLOSED, "h", 9, true, LT_KEPT},
    {FINISH, CLOSED, CLOSED, "", 0, true, LT_BAD_TXN},
    {FINISH, PASS, CLOSED, "", 1, true, LT_BAD_KEY_EMPTY},
    {FINISH, PASS, CLOSED, TOO_LONG " ", 1, true, LT_BAD_KEY_LONG},
    {FINISH, PASS, CLOSED, "a b", 1, true, LT_BAD_KEY_BYTE},
    {FINISH, SHARED, CLOSED, "", 1, true, LT_CLOSED},
    {FINISH, PASS, CLOSED, LONG, 1, true, LT_MEMORY},
    {FINISH, PASS, CLOSED, "h", 9, true, LT_FREED},
    {LET, PASS, CLOSED, "", 0, true, LT_NO_LET},
    {LET, SHARED, CLOSED, "", 0, true, LT_CLOSED},
    {CLOSE_PASS, REQUEST, CLOSED, "", 0, true, LT_DONE},
    {CLOSE_SHARED, SHARED, CLOSED, "", 0, true, LT_DONE},
};

static void play_orders(void) {
    at = "orders";
    for (row = 0; row < COUNT(orders); row++) {
        set_up(orders[row].kind);
        become(orders[row].given, &given);
        union handle before = mine;
        starved = orders[row].starved;
        uint32_t code = make(orders[row].call, &mine, orders[row].key, orders[row].number);
        starved = false;
        WANT(code == orders[row].code);
        if (code < LT_FIRST_REPLY && code != LT_DONE) WANT(is_unwritten() && memcmp(&before, &mine, sizeof before) == 0);
        /* After LT_MEMORY the same call may be made again. */
        if (code == LT_MEMORY) WANT(make(orders[row].call, &mine, orders[row].key, orders[row].number) != LT_MEMORY);
        take_down();
    }
    row = 0;

    /* All passes are out; too many keys; and the one number of a table is drawn. */
    const struct lt_config one = {.shards = 1, .passes = 1, .max_requests = 1, .max_waits = 1};
    const struct lt_terms terms = {.txn = 1, .wall = 1};
    struct lt_shared small = {0};
    struct lt_pass pass = {0}, more = {0};
    WANT(lt_shared_open(&small, &one, START) == LT_DONE && lt_shared_pass(&small, &pass) == LT_DONE);
    WANT(lt_pass_number(&pass) == 1);
    WANT(lt_shared_pass(&small, &pass) == LT_OPEN_ALREADY);
    starved = true;
    WANT(lt_shared_pass(&small, &more) == LT_NO_PASS && !more.is_open);
    starved = false;
    for (size_t i = 0; i < 257; i++) {
        char key[8];
        snprintf(key, sizeof key, "k%zu", i);
        WANT(lt_pass_want(&pass, KEY(key), true) == LT_DONE);
    }
    starved = true;
    WANT(lt_pass_enter(&pass, &terms) == LT_TOO_MANY_KEYS);
    starved = false;
    /* No pass comes back. */
    WANT(lt_pass_close(&pass) == LT_DONE && lt_shared_pass(&small, &pass) == LT_NO_PASS && lt_shared_close(&small) == LT_DONE);
    WANT(lt_shared_open(&small, &one, START) == LT_DONE && lt_shared_pass(&small, &pass) == LT_DONE);
    WANT(lt_pass_want(&pass, KEY("a"), true) == LT_DONE && lt_pass_enter(&pass, &terms) == LT_DONE);
    WANT(lt_pass_leave(&pass) == LT_DONE);
    WANT(lt_pass_want(&pass, KEY("a"), true) == LT_DONE && lt_pass_enter(&pass, &terms) == LT_NUMBERS_OUT);
    /* The key is still named. */
    WANT(lt_pass_enter(&pass, &terms) == LT_NUMBERS_OUT);
    WANT(lt_pass_close(&pass) == LT_DONE && lt_shared_close(&small) == LT_DONE && blocks == 0);
}

/* LIFE. */

/* Makes the call. If an allocation fails, it answers LT_MEMORY, and is made again. */
#define IS(wanted, call) \
    do { \
        uint32_t code = (call); \
        if (code == LT_MEMORY && has_failed) code = (call); \
        WANT(code == (wanted)); \
    } while (0)

/* Makes a call that allocates nothing. */
#define IS_FREE(wanted, call) \
    do { \
        size_t before = asked; \
        uint32_t code = (call); \
        WANT(code == (wanted) && asked == before); \
    } while (0)

/* The next let is this one, and there is no other. */
#define IS_LET(by, request, its_wait, of) \
    do { \
        struct lt_through let = {0}; \
        IS_FREE(LT_DONE, lt_pass_let(by, &let)); \
        WANT(let.number == (request) && let.wait == (its_wait) && let.pass == lt_pass_number(of)); \
        IS_FREE(LT_NO_LET, lt_pass_let(by, &let)); \
    } while (0)

static void life(void) {
    const struct lt_config config = {.shards = 3, .passes = 3, .max_requests = 100, .max_waits = 3};
    const struct lt_terms first = {.txn = 1, .wall = 1}, second = {.txn = 2, .wall = 2}, bounded = {.wall = 3, .longest = 1};
    const struct lt_txn one = {.txn = 1, .wall = 1}, later = {.txn = 1, .wall = 5}, two = {.txn = 2, .wall = 2};
    struct lt_shared shared = {0};
    struct lt_pass a = {0}, b = {0}, c = {0};
    struct lt_key state;
    struct lt_queued waiting[2] = {{.number = 77}, {.number = 77}}, reading[1] = {{.number = 77}};
    struct lt_key_name names[3];
    size_t index = 9;
    uint64_t txn = 99;
    IS(LT_DONE, lt_shared_open(&shared, &config, START));
    IS(LT_DONE, lt_shared_pass(&shared, &a));
    IS(LT_DONE, lt_shared_pass(&shared, &b));
    IS(LT_DONE, lt_shared_pass(&shared, &c));

    /* Transaction 1 takes both keys. */
    IS(LT_DONE, lt_pass_want(&a, KEY("x"), true));
    IS(LT_DONE, lt_pass_want(&a, KEY(LONG), true));
    IS(LT_DONE, lt_pass_enter(&a, &first));
    IS(LT_PROCEED, lt_pass_scan(&a, &index));
    WANT(index == 0);
    IS(LT_TAKEN, lt_pass_acquire(&a, KEY("x"), &one));
    IS(LT_TAKEN, lt_pass_acquire(&a, KEY(LONG), &one));
    IS_FREE(LT_KEPT, lt_pass_acquire(&a, KEY("x"), &one));
    IS_FREE(LT_DONE, lt_pass_leave(&a));
    IS_FREE(LT_RAISED, lt_pass_update(&a, KEY("x"), &later));
    IS_FREE(LT_OTHER, lt_pass_update(&a, KEY("x"), &two));

    /* The request of transaction 2 waits for it at both. Written keys come first, in byte order: LONG, x, and then y. */
    IS(LT_DONE, lt_pass_want(&b, KEY("y"), false));
    IS(LT_DONE, lt_pass_want(&b, KEY("x"), true));
    IS(LT_DONE, lt_pass_want(&b, KEY(LONG), true));
    IS(LT_DONE, lt_pass_enter(&b, &second));
    IS(LT_WAITING, lt_pass_scan(&b, &index));
    WANT(index == 0);
    IS_FREE(LT_WAITING, lt_pass_poll(&b));
    IS_FREE(LT_STILL_WAITING, lt_pass_scan(&b, &index));
    IS_FREE(LT_WAIT_FIRST_HELD, lt_pass_look(&b, 0, &txn));
    WANT(txn == 1);
    IS_FREE(LT_NOTHING, lt_pass_look(&b, 1, &txn));
    WANT(txn == 0);
    IS(LT_FREED, lt_pass_finish(&a, KEY(LONG), 1));
    IS_LET(&a, 2, 1, &b);
    IS_FREE(LT_LET_THROUGH, lt_pass_poll(&b));
    IS_FREE(LT_LET_THROUGH, lt_pass_poll(&b));
    IS(LT_WAITING, lt_pass_scan(&b, &index));
    WANT(index == 1);
    IS_FREE(LT_FREED, lt_pass_finish(&a, KEY("x"), 1));
    IS_FREE(LT_OTHER, lt_pass_finish(&a, KEY("x"), 1));
    IS_LET(&a, 2, 2, &b);
    IS_FREE(LT_LET_THROUGH, lt_pass_poll(&b));
    IS(LT_RESCAN, lt_pass_scan(&b, &index));
    IS(LT_PROCEED, lt_pass_scan(&b, &index));
    IS_FREE(LT_NOT_WAITING, lt_pass_poll(&b));
    IS(LT_TAKEN, lt_pass_acquire(&b, KEY("x"), &two));

    /* The lock of LONG is kept for request 2. Request 3 is queued there, so request 4, with a bound of one writer, is not. */
    IS(LT_DONE, lt_pass_want(&a, KEY(LONG), true));
    IS(LT_DONE, lt_pass_enter(&a, &first));
    IS(LT_WAITING, lt_pass_scan(&a, &index));
    IS(LT_DONE, lt_pass_want(&c, KEY(LONG), true));
    IS(LT_DONE, lt_pass_enter(&c, &bounded));
    IS(LT_QUEUE_TOO_LONG, lt_pass_scan(&c, &index));
    WANT(index == 0);
    /* So says its record, to a request and to a pass. Each of its queues fits, or its first part. */
    IS(LT_DONE, lt_pass_inspect(&c, KEY(LONG), &state, waiting, 2, reading, 1));
    WANT(state.holder == 0 && state.reservation.number == 2 && state.reservation.txn == 2 && state.distinguished == 3);
    WANT(state.writers == 1 && state.readers == 0 && waiting[0].number == 3 && waiting[0].wait == 1 && waiting[0].active);
    WANT(waiting[1].number == 77 && reading[0].number == 77);
    IS_FREE(LT_DONE, lt_pass_leave(&c));
    waiting[0].number = 77;
    IS(LT_DONE, lt_pass_inspect(&c, KEY(LONG), &state, waiting, 0, reading, 0));
    WANT(state.writers == 1 && waiting[0].number == 77);
    /* Two keys have a record: LONG, and x. Request 2 has passed y, which has none. */
    for (size_t shard = 0; shard < 3; shard++) {
        size_t wanted = (shard == lt_shard_of(KEY("x"), 3)) + (shard == lt_shard_of(KEY(LONG), 3)), count = 9;
        IS(LT_DONE, lt_pass_keys(&c, shard, KEY(""), names, 3, &count));
        WANT(count == wanted);
        bool has_x = false;
        for (size_t i = 0; i < count; i++) has_x |= names[i].len == 1 && names[i].bytes[0] == 'x';
        WANT(has_x == (shard == lt_shard_of(KEY("x"), 3)));
        IS(LT_DONE, lt_pass_keys(&c, shard, KEY("x"), names, 3, &count));
        WANT(count == 0);
    }
    IS_FREE(LT_WAITING, lt_pass_poll(&a));
    IS_FREE(LT_DONE, lt_pass_leave(&b));
    IS_LET(&b, 3, 1, &a);
    IS_FREE(LT_LET_THROUGH, lt_pass_poll(&a));
    IS_FREE(LT_FREED, lt_pass_finish(&b, KEY("x"), 2));

    /* A request is closed where it is. */
    IS_FREE(LT_DONE, lt_pass_close(&a));
    IS_FREE(LT_DONE, lt_shared_close(&shared));
    IS_FREE(LT_DONE, lt_pass_close(&b));
    IS_FREE(LT_DONE, lt_pass_close(&c));
    WANT(blocks == 0);
}

/* LETS. `mine`, `given`, `other` and `third` are the four callers of a table. Transaction 9 holds "h". */

static void enter_at(struct lt_pass *pass, const char *key, bool writes, uint64_t txn, uint32_t scan) {
    const struct lt_terms terms = {.txn = txn, .wall = 9};
    size_t index;
    WANT(lt_pass_want(pass, KEY(key), writes) == LT_DONE && lt_pass_enter(pass, &terms) == LT_DONE);
    WANT(lt_pass_scan(pass, &index) == scan);
}

static void lets(void) {
    struct lt_through let = {0};
    size_t index;
    at = "lets";

    /* One step lets two readers and the first writer through. Each is told once, and only to the pass that made the step. */
    set_up(PASS);
    become(PASS, &given);
    enter_at(&mine.pass, "h", false, 1, LT_WAITING);
    enter_at(&given.pass, "h", false, 2, LT_WAITING);
    enter_at(&third, "h", true, 3, LT_WAITING);
    WANT(lt_pass_let(&third, &let) == LT_NO_LET && let.number == 0);
    WANT(lt_pass_finish(&other, KEY("h"), 9) == LT_FREED);
    bool told[4] = {false};
    WANT(lt_pass_let(&mine.pass, &let) == LT_NO_LET && lt_pass_let(&third, &let) == LT_NO_LET && let.number == 0);
    for (int i = 0; i < 3; i++) {
        WANT(lt_pass_let(&other, &let) == LT_DONE && let.wait == 1);
        WANT(1 <= let.number && let.number <= 3 && !told[let.number]);
        struct lt_pass *of = let.number == 1 ? &mine.pass : let.number == 2 ? &given.pass : &third;
        WANT(let.pass == lt_pass_number(of) && lt_pass_poll(of) == LT_LET_THROUGH);
        told[let.number] = true;
    }
    WANT(lt_pass_let(&other, &let) == LT_NO_LET);

    /* A second writer waits for the reservation of the first. It is let through by the leave, and by no other step. */
    WANT(lt_pass_leave(&mine.pass) == LT_DONE && lt_pass_let(&mine.pass, &let) == LT_NO_LET);
    enter_at(&mine.pass, "h", true, 4, LT_WAITING);
    WANT(lt_pass_let(&mine.pass, &let) == LT_NO_LET);
    WANT(lt_pass_leave(&third) == LT_DONE);
    WANT(lt_pass_let(&third, &let) == LT_DONE && let.number == 4 && let.wait == 1 && let.pass == lt_pass_number(&mine.pass));
    WANT(lt_pass_scan(&mine.pass, &index) == LT_RESCAN);
    take_down();

    /* A pass that is let through twice, and nobody asks in between: the later let is told. */
    set_up(PASS);
    const struct lt_txn nine = {.txn = 9, .wall = 9};
    enter_at(&mine.pass, "h", true, 1, LT_WAITING);
    WANT(lt_pass_finish(&other, KEY("h"), 9) == LT_FREED && lt_pass_leave(&mine.pass) == LT_DONE);
    WANT(lt_pass_acquire(&other, KEY("h"), &nine) == LT_TAKEN);
    enter_at(&mine.pass, "h", true, 2, LT_WAITING);
    WANT(lt_pass_finish(&other, KEY("h"), 9) == LT_FREED);
    WANT(lt_pass_let(&other, &let) == LT_DONE && let.number == 2 && let.wait == 1);
    WANT(lt_pass_let(&other, &let) == LT_NO_LET && lt_pass_poll(&mine.pass) == LT_LET_THROUGH);

    /* A raise of the lock's timestamp lets the readers below it through. */
    WANT(lt_pass_leave(&mine.pass) == LT_DONE && lt_pass_acquire(&other, KEY("h"), &nine) == LT_TAKEN);
    enter_at(&mine.pass, "h", false, 3, LT_WAITING);
    const struct lt_txn later = {.txn = 9, .wall = 10};
    WANT(lt_pass_update(&other, KEY("h"), &later) == LT_RAISED);
    WANT(lt_pass_let(&other, &let) == LT_DONE && let.number == 3 && lt_pass_let(&other, &let) == LT_NO_LET);
    take_down();

    /* An acquire lets the waiters of its own transaction through. */
    set_up(PASS);
    become(PASS, &given);
    enter_at(&mine.pass, "h", true, 4, LT_WAITING);
    enter_at(&given.pass, "h", true, 4, LT_WAITING);
    WANT(lt_pass_finish(&other, KEY("h"), 9) == LT_FREED);
    WANT(lt_pass_let(&other, &let) == LT_DONE && let.number == 1 && lt_pass_let(&other, &let) == LT_NO_LET);
    const struct lt_txn four = {.txn = 4, .wall = 9};
    WANT(lt_pass_acquire(&mine.pass, KEY("h"), &four) == LT_TAKEN && lt_pass_let(&other, &let) == LT_NO_LET);
    WANT(lt_pass_let(&mine.pass, &let) == LT_DONE && let.number == 2 && lt_pass_let(&mine.pass, &let) == LT_NO_LET);
    take_down();

    /* Waits that are used up: no visit comes after the last one. The request keeps its place, and leaves. */
    const struct lt_config few = {.shards = 1, .passes = 2, .max_requests = 9, .max_waits = 1};
    struct lt_shared small = {0};
    struct lt_pass a = {0}, b = {0};
    WANT(lt_shared_open(&small, &few, START) == LT_DONE);
    WANT(lt_shared_pass(&small, &a) == LT_DONE && lt_shared_pass(&small, &b) == LT_DONE);
    WANT(lt_pass_acquire(&a, KEY("a"), &nine) == LT_TAKEN);
    WANT(lt_pass_want(&b, KEY("b"), true) == LT_DONE);
    enter_at(&b, "a", true, 1, LT_WAITING);
    WANT(lt_pass_finish(&a, KEY("a"), 9) == LT_FREED && lt_pass_poll(&b) == LT_LET_THROUGH);
    WANT(lt_pass_scan(&b, &index) == LT_WAITS_OUT && index == 0 && lt_pass_scan(&b, &index) == LT_WAITS_OUT);
    WANT(lt_pass_look(&b, 0, &txn_at) == LT_RESERVED && lt_pass_leave(&b) == LT_DONE);
    WANT(lt_pass_close(&b) == LT_DONE && lt_pass_close(&a) == LT_DONE && lt_shared_close(&small) == LT_DONE && blocks == 0);
}

/* BUSY. While `other` is in the second shard, `mine` makes the call; and once more when `other` is out of it. */

static const struct {
    enum call call;
    enum kind kind;
    const char *key;
    uint64_t number;
    uint32_t inside, outside;
} busy[] = {
    {ACQUIRE, PASS, "a", 1, LT_BUSY, LT_TAKEN},
    {ACQUIRE, REQUEST, "a", 1, LT_BUSY, LT_TAKEN},
    {ACQUIRE, PASS, "b", 1, LT_TAKEN, LT_KEPT},
    {UPDATE, PASS, "a", 1, LT_BUSY, LT_OTHER},
    {UPDATE, REQUEST, LONG, 1, LT_OTHER, LT_OTHER},
    {FINISH, PASS, "a", 1, LT_BUSY, LT_OTHER},
    {FINISH, REQUEST, "b", 1, LT_OTHER, LT_OTHER},
    {LOOK, REQUEST, "", 0, LT_BUSY, LT_NOTHING},
    {LOOK, REQUEST, "", 1, LT_NOTHING, LT_NOTHING},
    {INSPECT, REQUEST, "a", 0, LT_BUSY, LT_DONE},
    {INSPECT, PASS, "b", 0, LT_DONE, LT_DONE},
    {KEYS, PASS, "", 1, LT_BUSY, LT_DONE},
    {KEYS, PASS, "", 0, LT_DONE, LT_DONE},
    {SCAN, REQUEST, "", 0, LT_BUSY, LT_PROCEED},
    {LEAVE, REQUEST, "", 0, LT_BUSY, LT_DONE},
    {POLL, REQUEST, "", 0, LT_NOT_WAITING, LT_NOT_WAITING},
    {WANT_KEY, PASS, "a", 0, LT_DONE, LT_DONE},
    {ENTER, PASS, "", 0, LT_NO_KEYS, LT_NO_KEYS},
    {LET, PASS, "", 0, LT_NO_LET, LT_NO_LET},
    {ACQUIRE, CLOSED, "a", 1, LT_CLOSED, LT_CLOSED},
    {LOOK, REQUEST, "", 2, LT_BAD_INDEX, LT_BAD_INDEX},
};

static uint32_t inside;
static bool untouched;

static void call_inside(void) {
    union handle before = mine;
    inside = make(busy[row].call, &mine, busy[row].key, busy[row].number);
    bool is_same = memcmp(&before, &mine, sizeof before) == 0;
    if (busy[row].call == SCAN && index_at == 0) index_at = 77;
    untouched = inside != LT_BUSY || (is_same && is_unwritten());
}

/* The first key of a shard needs no memory. The second does, inside the shard: then `call` is made. */
static void enter_shard(void (*call)(void)) {
    const struct lt_txn five = {.txn = 5, .wall = 1};
    WANT(lt_pass_acquire(&other, KEY("c"), &five) == LT_TAKEN);
    call_back = call;
    WANT(lt_pass_acquire(&other, KEY("e"), &five) == LT_TAKEN && call_back == NULL);
}

static void play_busy(void) {
    at = "busy";
    WANT(lt_shard_of(KEY("a"), 2) == 1 && lt_shard_of(KEY("c"), 2) == 1 && lt_shard_of(KEY("e"), 2) == 1);
    WANT(lt_shard_of(KEY("b"), 2) == 0 && lt_shard_of(KEY("h"), 2) == 0 && lt_shard_of(KEY(LONG), 2) == 0);
    for (row = 0; row < COUNT(busy); row++) {
        set_up(busy[row].kind);
        enter_shard(call_inside);
        WANT(inside == busy[row].inside && untouched);
        WANT(make(busy[row].call, &mine, busy[row].key, busy[row].number) == busy[row].outside);
        take_down();
    }
    row = 0;
}

/* PARTWAY. The request names "b" and "g" to write, in the first shard and in the second. */

static uint32_t partway;

static void scan_inside(void) {
    partway = lt_pass_scan(&mine.pass, &index_at);
}

static void leave_inside(void) {
    partway = lt_pass_leave(&mine.pass);
}

static void play_partway(void) {
    const struct lt_terms terms = {.txn = 1, .wall = 1};
    const struct lt_txn six = {.txn = 6, .wall = 1};
    at = "partway";
    set_up(PASS);
    WANT(lt_pass_want(&mine.pass, KEY("g"), true) == LT_DONE && lt_pass_want(&mine.pass, KEY("b"), true) == LT_DONE);
    WANT(lt_pass_enter(&mine.pass, &terms) == LT_DONE);
    enter_shard(scan_inside);
    WANT(partway == LT_BUSY && index_at == 0);
    /* It has passed "b". So it does not see that transaction 6 takes it, and goes on at "g". */
    WANT(lt_pass_acquire(&third, KEY("b"), &six) == LT_TAKEN && lt_pass_scan(&mine.pass, &index_at) == LT_PROCEED);
    /* The next scan begins at "b" again. */
    WANT(lt_pass_scan(&mine.pass, &index_at) == LT_WAITING && index_at == 0 && lt_pass_poll(&mine.pass) == LT_WAITING);
    take_down();

    set_up(PASS);
    WANT(lt_pass_acquire(&third, KEY("b"), &six) == LT_TAKEN);
    WANT(lt_pass_want(&mine.pass, KEY("g"), true) == LT_DONE && lt_pass_want(&mine.pass, KEY("b"), true) == LT_DONE);
    WANT(lt_pass_enter(&mine.pass, &terms) == LT_DONE && lt_pass_scan(&mine.pass, &index_at) == LT_WAITING);
    enter_shard(leave_inside);
    WANT(partway == LT_BUSY);
    /* It is gone from "b". A request that is leaving neither scans nor waits. */
    WANT(lt_pass_look(&mine.pass, 0, &txn_at) == LT_NOTHING);
    WANT(lt_pass_scan(&mine.pass, &index_at) == LT_LEAVING && index_at == 0);
    WANT(lt_pass_poll(&mine.pass) == LT_NOT_WAITING && lt_pass_want(&mine.pass, KEY("b"), true) == LT_CLOSED);
    WANT(lt_pass_finish(&third, KEY("b"), 6) == LT_FREED && lt_pass_let(&third, &through_at) == LT_NO_LET);
    WANT(lt_pass_leave(&mine.pass) == LT_DONE && lt_pass_leave(&mine.pass) == LT_CLOSED);
    take_down();
}

int main(void) {
    play_openings();
    printf("openings: %zu rows\n", COUNT(openings));
    play_kinds();
    printf("kinds: %zu calls on %d kinds of handles\n", COUNT(kinds), KINDS);
    play_orders();
    printf("orders: %zu rows\n", COUNT(orders));
    at = "life";
    size_t failed = 0;
    do {
        fails_at = failed + 1, asked = 0, has_failed = false;
        life();
        failed += has_failed;
    } while (has_failed);
    fails_at = 0;
    printf("life: each of %zu allocations failed in turn\n", failed);
    lets();
    puts("lets: each is told once");
    play_busy();
    printf("busy: %zu calls inside another one\n", COUNT(busy));
    play_partway();
    puts("partway: what was done stands");
    return 0;
}
