/*
 * What does a transaction cost over the shared table, beside tables of one thread that a program puts into mutexes?
 *
 *     transactions SIDE LOAD THREADS SHARDS KEYS ROUNDS
 *
 * SIDE is `shared`, or `mutex`: a table of one thread for each shard, in a mutex of its own, with the same shards. A request
 * there visits its keys in the same order, and waits as a request of a shared table does.
 *
 * LOAD is
 *
 *   one   a round is a request with a key to write and one to read: it enters, visits both, acquires the first,
 *         finishes there and leaves. These are the rounds of `lockbench load`: 6 key steps
 *   two   a round is a request with two keys to write: it enters, visits both, acquires both, leaves and finishes
 *         both: 8 key steps
 *
 * Whoever waits sleeps on a word of his own, which his waker raises. Each thread makes ROUNDS rounds, with keys that it draws.
 * Prints the nanoseconds of a round by the clock and of the processor, the waits, and how often a call was busy.
 */
#define _GNU_SOURCE
#include "locktable.h"

#include <inttypes.h>
#include <linux/futex.h>
#include <pthread.h>
#include <sched.h>
#include <stdatomic.h>
#include <stdio.h>
#include <stdlib.h>
#include <string.h>
#include <sys/syscall.h>
#include <time.h>
#include <unistd.h>

#define MOST_THREADS 64
#define MOST_SHARDS 64
#define MOST_KEYS 100000
#define MOST_LETS 64
#define START 7

struct name {
    size_t len, shard;
    char bytes[8];
};

static struct name names[MOST_KEYS];
static size_t threads, shards, keys;
static uint64_t rounds;
static bool writes_both;

struct side;

static struct seat {
    struct lt_pass pass;
    _Atomic uint32_t wakes;
    uint32_t seen;
    uint32_t number; /* of its pass */
    uint64_t state, waits, busy, others;
    char apart[128];
} seats[MOST_THREADS];

static struct seat *by_number[MOST_THREADS + 1];

static void die(const char *what, uint32_t code) {
    fprintf(stderr, "transactions: %s: %" PRIu32 "\n", what, code);
    exit(1);
}

/* WAITS, the same on both sides. */

static void announce(struct seat *seat) {
    seat->seen = atomic_load_explicit(&seat->wakes, memory_order_acquire);
}

static void sleep_on(struct seat *seat) {
    seat->waits++;
    while (atomic_load_explicit(&seat->wakes, memory_order_acquire) == seat->seen)
        syscall(SYS_futex, &seat->wakes, FUTEX_WAIT_PRIVATE, seat->seen, NULL, NULL, 0);
}

static void wake(uint32_t pass) {
    struct seat *seat = by_number[pass];
    atomic_fetch_add(&seat->wakes, 1);
    syscall(SYS_futex, &seat->wakes, FUTEX_WAKE_PRIVATE, 1, NULL, NULL, 0);
}

/* What a round asks for: two keys, in the order in which they are visited, and its transaction. */
struct round {
    const struct name *first, *second;
    struct lt_txn by;
};

/* THE SHARED TABLE. */

static void wake_others(struct seat *seat) {
    struct lt_through let;
    while (lt_pass_let(&seat->pass, &let) == LT_DONE) wake(let.pass);
}

#define AGAIN(code, call) \
    while (((code) = (call)) == LT_BUSY) \
        if (++seat->busy % 64 == 0) sched_yield()

static uint32_t acquire(struct seat *seat, const struct name *key, const struct lt_txn *by) {
    uint32_t code;
    AGAIN(code, lt_pass_acquire(&seat->pass, (const uint8_t *)key->bytes, key->len, by));
    if (code != LT_TAKEN && code != LT_OTHER) die("an acquire", code);
    wake_others(seat);
    return code;
}

static void finish(struct seat *seat, const struct name *key, uint64_t txn) {
    uint32_t code;
    AGAIN(code, lt_pass_finish(&seat->pass, (const uint8_t *)key->bytes, key->len, txn));
    if (code != LT_FREED) die("a finish", code);
    wake_others(seat);
}

static void scan(struct seat *seat) {
    size_t index;
    uint32_t code;
    for (;;) {
        announce(seat);
        AGAIN(code, lt_pass_scan(&seat->pass, &index));
        if (code == LT_PROCEED) return;
        if (code != LT_WAITING && code != LT_RESCAN) die("a scan", code);
        while (code == LT_WAITING) {
            sleep_on(seat);
            announce(seat);
            code = lt_pass_poll(&seat->pass);
        }
    }
}

static bool acquire_both(struct seat *seat, const struct round *round) {
    if (acquire(seat, round->first, &round->by) == LT_OTHER) return false;
    if (!writes_both || acquire(seat, round->second, &round->by) == LT_TAKEN) return true;
    finish(seat, round->first, round->by.txn);
    return false;
}

static void leave(struct seat *seat) {
    uint32_t code;
    AGAIN(code, lt_pass_leave(&seat->pass));
    if (code != LT_DONE) die("a leave", code);
    wake_others(seat);
}

static void go_shared(struct seat *seat, const struct round *round) {
    const struct lt_terms terms = {.txn = round->by.txn, .wall = round->by.wall};
    uint32_t code = lt_pass_want(&seat->pass, (const uint8_t *)round->first->bytes, round->first->len, true);
    if (code == LT_DONE) code = lt_pass_want(&seat->pass, (const uint8_t *)round->second->bytes, round->second->len, writes_both);
    if (code == LT_DONE) code = lt_pass_enter(&seat->pass, &terms);
    if (code != LT_DONE) die("an enter", code);
    scan(seat);
    while (!acquire_both(seat, round)) {
        seat->others++;
        scan(seat);
    }
    if (writes_both) leave(seat);
    finish(seat, round->first, round->by.txn);
    if (writes_both) finish(seat, round->second, round->by.txn);
    if (!writes_both) leave(seat);
}

/* TABLES OF ONE THREAD IN MUTEXES. */

static struct shard {
    pthread_mutex_t mutex;
    struct lt_table table;
    char apart[64];
} tables[MOST_SHARDS];

static _Atomic uint64_t last_number;

/* Makes the call in the mutex of the key's shard, and wakes whom it let through. `lets` and `count` are those of the call. */
#define IN_SHARD(code, key, call) \
    do { \
        struct shard *shard = &tables[(key)->shard]; \
        struct lt_through lets[MOST_LETS]; \
        size_t count = 0; \
        pthread_mutex_lock(&shard->mutex); \
        (code) = (call); \
        pthread_mutex_unlock(&shard->mutex); \
        for (size_t i = 0; i < count; i++) wake(lets[i].pass); \
    } while (0)

static uint32_t acquire_in(const struct name *key, const struct lt_txn *by) {
    uint32_t code;
    IN_SHARD(code, key, lt_table_acquire(&shard->table, (const uint8_t *)key->bytes, key->len, by, lets, MOST_LETS, &count));
    if (code != LT_TAKEN && code != LT_OTHER) die("an acquire", code);
    return code;
}

static void finish_in(const struct name *key, uint64_t txn) {
    uint32_t code;
    IN_SHARD(code, key, lt_table_finish(&shard->table, (const uint8_t *)key->bytes, key->len, txn, lets, MOST_LETS, &count));
    if (code != LT_FREED) die("a finish", code);
}

static void leave_in(const struct name *key, uint64_t number) {
    uint32_t code;
    IN_SHARD(code, key, lt_table_leave(&shard->table, (const uint8_t *)key->bytes, key->len, number, lets, MOST_LETS, &count));
    if (code != LT_LEFT && code != LT_ABSENT) die("a leave", code);
}

/* Visits the key. Whether the request had to wait there, and was let through. A wake may be of an earlier wait, so it ends only
   once the request is no longer an active waiter. */
static bool visit_in(struct seat *seat, const struct name *key, struct lt_request *request) {
    uint32_t code;
    uint64_t txn;
    announce(seat);
    IN_SHARD(code, key, lt_table_visit(&shard->table, (const uint8_t *)key->bytes, key->len, request, lets, MOST_LETS, &count));
    if (code == LT_PASSED) return false;
    if (code != LT_MUST_WAIT) die("a visit", code);
    request->wait++;
    do {
        sleep_on(seat);
        announce(seat);
        IN_SHARD(code, key, lt_table_look(&shard->table, (const uint8_t *)key->bytes, key->len, request->number, &txn));
    } while (code >= LT_WAIT_FOR_HELD);
    return true;
}

static void scan_in(struct seat *seat, const struct round *round, struct lt_request *request) {
    bool has_waited;
    do {
        request->writes = true;
        has_waited = visit_in(seat, round->first, request);
        request->writes = writes_both;
        has_waited |= visit_in(seat, round->second, request);
    } while (has_waited);
}

static bool acquire_both_in(const struct round *round) {
    if (acquire_in(round->first, &round->by) == LT_OTHER) return false;
    if (!writes_both || acquire_in(round->second, &round->by) == LT_TAKEN) return true;
    finish_in(round->first, round->by.txn);
    return false;
}

static void go_mutex(struct seat *seat, const struct round *round) {
    struct lt_request request = {.number = atomic_fetch_add(&last_number, 1) + 1, .txn = round->by.txn, .wall = round->by.wall,
                                 .wait = 1, .pass = seat->number};
    scan_in(seat, round, &request);
    while (!acquire_both_in(round)) {
        seat->others++;
        scan_in(seat, round, &request);
    }
    if (!writes_both) finish_in(round->first, round->by.txn);
    leave_in(round->first, request.number);
    leave_in(round->second, request.number);
    if (!writes_both) return;
    finish_in(round->first, round->by.txn);
    finish_in(round->second, round->by.txn);
}

/* THE PROGRAM. */

static const struct side {
    const char *name;
    void (*go)(struct seat *seat, const struct round *round);
} sides[] = {{"shared", go_shared}, {"mutex", go_mutex}};

static const struct side *side;

/* The generator and the draws of `lockbench load`, so a thread's keys are those of its pass there. */
static size_t below(struct seat *seat, size_t limit) {
    uint64_t x = seat->state;
    x ^= x << 13, x ^= x >> 7, x ^= x << 17;
    seat->state = x;
    return (size_t)((x >> 16) % limit);
}

static void *work(void *arg) {
    struct seat *seat = arg;
    struct round round = {.by = {.txn = (uint64_t)(seat - seats) + 1}};
    seat->state = (round.by.txn * 0x9e3779b97f4a7c15u) | 1;
    for (uint64_t i = 1; i <= rounds; i++) {
        size_t first = below(seat, keys), second = below(seat, keys - 1);
        if (second >= first) second++;
        round.first = &names[first], round.second = &names[second], round.by.wall = i;
        /* Keys that are both written are visited in the order of their bytes. */
        if (writes_both && strcmp(round.first->bytes, round.second->bytes) > 0)
            round.first = &names[second], round.second = &names[first];
        side->go(seat, &round);
    }
    return NULL;
}

static void open_tables(void) {
    const struct lt_config config = {
        .shards = shards, .passes = threads, .max_requests = ((uint64_t)1 << 40) - 1, .max_waits = (1 << 24) - 1};
    struct lt_shared table = {0};
    uint32_t code = lt_shared_open(&table, &config, START);
    if (code != LT_DONE) die("an open", code);
    for (size_t i = 0; i < threads; i++) {
        if ((code = lt_shared_pass(&table, &seats[i].pass)) != LT_DONE) die("a pass", code);
        seats[i].number = lt_pass_number(&seats[i].pass);
        by_number[seats[i].number] = &seats[i];
    }
    lt_shared_close(&table);
    for (size_t i = 0; i < shards; i++) {
        pthread_mutex_init(&tables[i].mutex, NULL);
        if ((code = lt_table_open(&tables[i].table, START)) != LT_DONE) die("an open", code);
    }
    for (size_t i = 0; i < keys; i++) {
        names[i].len = (size_t)snprintf(names[i].bytes, sizeof names[i].bytes, "k%zu", i);
        names[i].shard = lt_shard_of((const uint8_t *)names[i].bytes, names[i].len, shards);
    }
}

static size_t number(const char *word, size_t least, size_t most) {
    size_t n = strtoul(word, NULL, 10);
    if (n < least || n > most) die("the command line", (uint32_t)n);
    return n;
}

static double seconds(clockid_t clock) {
    struct timespec time;
    clock_gettime(clock, &time);
    return (double)time.tv_sec + (double)time.tv_nsec / 1e9;
}

int main(int words, char **word) {
    if (words != 7 || (strcmp(word[2], "one") != 0 && strcmp(word[2], "two") != 0)) die("the command line", (uint32_t)words);
    for (size_t i = 0; i < sizeof sides / sizeof *sides; i++)
        if (strcmp(word[1], sides[i].name) == 0) side = &sides[i];
    if (side == NULL) die("the command line", 1);
    writes_both = strcmp(word[2], "two") == 0;
    threads = number(word[3], 1, MOST_THREADS), shards = number(word[4], 1, MOST_SHARDS), keys = number(word[5], 2, MOST_KEYS);
    rounds = number(word[6], 1, SIZE_MAX);
    open_tables();

    pthread_t all[MOST_THREADS];
    double began = seconds(CLOCK_MONOTONIC), used = seconds(CLOCK_PROCESS_CPUTIME_ID);
    for (size_t i = 1; i < threads; i++)
        if (pthread_create(&all[i], NULL, work, &seats[i]) != 0) die("pthread_create", 0);
    work(&seats[0]);
    for (size_t i = 1; i < threads; i++) pthread_join(all[i], NULL);
    double made = (double)threads * (double)rounds / 1e9;
    began = seconds(CLOCK_MONOTONIC) - began, used = seconds(CLOCK_PROCESS_CPUTIME_ID) - used;

    struct seat sum = {0};
    for (size_t i = 0; i < threads; i++) {
        sum.waits += seats[i].waits, sum.busy += seats[i].busy, sum.others += seats[i].others;
        lt_pass_close(&seats[i].pass);
    }
    for (size_t i = 0; i < shards; i++) lt_table_close(&tables[i].table);
    printf("%.1f ns, %.1f ns of the processor, %" PRIu64 " waits, %" PRIu64 " busy, %" PRIu64 " came second\n", began / made,
           used / made, sum.waits, sum.busy, sum.others);
    return 0;
}
