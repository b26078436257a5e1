/*
 * Does the shared table keep transactions of many threads apart, and does every wait end? Each thread makes ROUNDS requests. A
 * request writes some of the keys: it enters, scans, waits, takes the locks of its keys, leaves, changes the count of each of its
 * keys, and frees the locks. A count is a plain variable, so it comes out right only if no two transactions hold its key at once.
 * A call that answers LT_BUSY is made again.
 *
 *     threads WAY THREADS SHARDS KEYS KEYS_OF_A_REQUEST ROUNDS
 *
 * WAY says how a caller waits. It is an example of the protocol in locktable.h, "THE PROTOCOL OF A REQUEST":
 *
 *   poll       it polls, and yields between two polls
 *   futex      it sleeps on a word of its own, which its waker raises
 *   condition  it sleeps on a condition variable of its own
 *
 * Prints what happened. The exit status is 0 if every count is right, no let is left and every key is free. A thread that is
 * never woken ends the program by a signal, after five minutes.
 *
 * Compiled with MUTEX, each call but a poll is made inside a mutex: helgrind, drd and ThreadSanitizer do not see what a lock in
 * the archive orders. Compiled with PLANTED too, each thread begins with a race, which they must report.
 */
#define _GNU_SOURCE
#include "locktable.h"

#include <inttypes.h>
#include <linux/futex.h>
#include <pthread.h>
#include <sched.h>
#include <stdatomic.h>
#include <stdio.h>
#include <stdlib.h>
#include <string.h>
#include <sys/random.h>
#include <sys/syscall.h>
#include <unistd.h>

#define MOST_THREADS 64
#define MOST_KEYS 10000
#define MOST_OF_A_REQUEST 16

#ifdef MUTEX
static pthread_mutex_t outside = PTHREAD_MUTEX_INITIALIZER;
#define INSIDE pthread_mutex_lock(&outside)
#define OUTSIDE pthread_mutex_unlock(&outside)
#else
#define INSIDE ((void)0)
#define OUTSIDE ((void)0)
#endif

#ifdef PLANTED
static uint64_t planted;
#define PLANT planted++
#else
#define PLANT ((void)0)
#endif

static size_t threads, shards, keys, asked;
static uint64_t rounds;
static uint64_t counts[MOST_KEYS]; /* each is changed only by who holds its key */

/* A thread's pass, how the thread waits, and what happened to it. */
static struct seat {
    struct lt_pass pass;
    _Atomic uint32_t wakes; /* futex: how often it was woken */
    uint32_t seen;          /* futex: how often it had been when it announced that it might sleep */
    pthread_mutex_t mutex;  /* condition: guards `told` */
    pthread_cond_t condition;
    bool told;              /* condition: it was woken since it announced that it might sleep */
    uint64_t scans, rescans, waits, polls, lets, busy, others;
    char apart[128];
} seats[MOST_THREADS];

static struct seat *by_number[MOST_THREADS + 1];

static void die(const char *what, uint32_t code) {
    fprintf(stderr, "threads: %s answered %" PRIu32 "\n", what, code);
    exit(1);
}

/* HOW A CALLER WAITS. It announces that it might sleep, then makes the scan or the poll that says whether it has to wait, and
   then sleeps until somebody has woken it since the announcement. So a waker that comes in between is not missed. */

struct way {
    const char *name;
    void (*announce)(struct seat *seat);
    void (*sleep)(struct seat *seat);
    void (*wake)(struct seat *seat);
};

static void do_nothing(struct seat *seat) {
    (void)seat;
}

static void yield(struct seat *seat) {
    (void)seat;
    sched_yield();
}

static void announce_by_futex(struct seat *seat) {
    seat->seen = atomic_load(&seat->wakes);
}

static void sleep_by_futex(struct seat *seat) {
    /* The system compares and sleeps in one step. */
    while (atomic_load(&seat->wakes) == seat->seen)
        syscall(SYS_futex, &seat->wakes, FUTEX_WAIT_PRIVATE, seat->seen, NULL, NULL, 0);
}

static void wake_by_futex(struct seat *seat) {
    atomic_fetch_add(&seat->wakes, 1);
    syscall(SYS_futex, &seat->wakes, FUTEX_WAKE_PRIVATE, 1, NULL, NULL, 0);
}

static void announce_by_condition(struct seat *seat) {
    pthread_mutex_lock(&seat->mutex);
    seat->told = false;
    pthread_mutex_unlock(&seat->mutex);
}

static void sleep_by_condition(struct seat *seat) {
    pthread_mutex_lock(&seat->mutex);
    while (!seat->told) pthread_cond_wait(&seat->condition, &seat->mutex);
    pthread_mutex_unlock(&seat->mutex);
}

static void wake_by_condition(struct seat *seat) {
    pthread_mutex_lock(&seat->mutex);
    seat->told = true;
    pthread_cond_signal(&seat->condition);
    pthread_mutex_unlock(&seat->mutex);
}

static const struct way ways[] = {
    {"poll", do_nothing, yield, do_nothing},
    {"futex", announce_by_futex, sleep_by_futex, wake_by_futex},
    {"condition", announce_by_condition, sleep_by_condition, wake_by_condition},
};
static const struct way *way;

/* Wakes the callers of the passes that were let through and of which nobody was told, by whichever caller's step. It comes after
   each acquire, finish and leave. */
static void wake_others(struct seat *seat) {
    for (;;) {
        struct lt_through let;
        INSIDE;
        uint32_t code = lt_pass_let(&seat->pass, &let);
        OUTSIDE;
        if (code == LT_NO_LET) return;
        if (code != LT_DONE || let.pass < 1 || let.pass > threads) die("a let", code);
        seat->lets++;
        way->wake(by_number[let.pass]);
    }
}

/* The request waits. The announcement came before the scan that said so. */
static void wait_for_let(struct seat *seat) {
    for (;;) {
        way->sleep(seat);
        way->announce(seat);
        uint32_t code = lt_pass_poll(&seat->pass);
        seat->polls++;
        if (code == LT_LET_THROUGH) return;
        if (code != LT_WAITING) die("a poll", code);
    }
}

/* A REQUEST. */

static void pause_after(uint64_t *tries) {
    if (++*tries % 64 == 0) sched_yield();
}

/* Makes the call until it does not answer LT_BUSY. */
#define AGAIN(code, call) \
    for (uint64_t tries = 0;; pause_after(&tries)) { \
        INSIDE; \
        (code) = (call); \
        OUTSIDE; \
        if ((code) != LT_BUSY) break; \
        seat->busy++; \
    }

struct name {
    size_t at, len;
    char bytes[24];
};

static int by_bytes(const void *a, const void *b) {
    return strcmp(((const struct name *)a)->bytes, ((const struct name *)b)->bytes);
}

static uint64_t random_below(uint64_t *state, uint64_t bound) {
    *state ^= *state << 13, *state ^= *state >> 7, *state ^= *state << 17;
    return (*state >> 11) % bound;
}

static void name_key(struct name *name, size_t at) {
    name->at = at;
    name->len = (size_t)snprintf(name->bytes, sizeof name->bytes, "account%zu", at);
}

/* Different keys, in the order of their bytes. */
static void choose(uint64_t *state, struct name *names) {
    for (size_t i = 0; i < asked;) {
        size_t at = random_below(state, keys), j = 0;
        while (j < i && names[j].at != at) j++;
        if (j == i) name_key(&names[i++], at);
    }
    qsort(names, asked, sizeof *names, by_bytes);
}

static void finish(struct seat *seat, const struct name *name, uint64_t txn) {
    uint32_t code;
    AGAIN(code, lt_pass_finish(&seat->pass, (const uint8_t *)name->bytes, name->len, txn));
    if (code != LT_FREED) die("a finish", code);
    wake_others(seat);
}

/* Takes the locks of all keys. If another transaction came first at one of them, frees those that it took, and says so. */
static bool acquire_all(struct seat *seat, const struct name *names, const struct lt_txn *by) {
    for (size_t held = 0; held < asked; held++) {
        uint32_t code;
        AGAIN(code, lt_pass_acquire(&seat->pass, (const uint8_t *)names[held].bytes, names[held].len, by));
        wake_others(seat);
        if (code == LT_TAKEN) continue;
        if (code != LT_OTHER) die("an acquire", code);
        seat->others++;
        while (held > 0) finish(seat, &names[--held], by->txn);
        return false;
    }
    return true;
}

static void leave(struct seat *seat) {
    uint32_t code;
    AGAIN(code, lt_pass_leave(&seat->pass));
    if (code != LT_DONE) die("a leave", code);
    wake_others(seat);
}

static void take_part(struct seat *seat, const struct name *names, uint64_t txn) {
    const struct lt_terms terms = {.txn = txn, .wall = 1};
    const struct lt_txn by = {.txn = txn, .wall = 1};
    uint32_t code;
    size_t index;
    for (size_t i = 0; i < asked; i++) {
        code = lt_pass_want(&seat->pass, (const uint8_t *)names[i].bytes, names[i].len, true);
        if (code != LT_DONE) die("a want", code);
    }
    INSIDE;
    code = lt_pass_enter(&seat->pass, &terms);
    OUTSIDE;
    if (code != LT_DONE) die("an enter", code);
    for (;;) {
        way->announce(seat);
        AGAIN(code, lt_pass_scan(&seat->pass, &index));
        seat->scans++;
        if (code == LT_PROCEED) {
            if (acquire_all(seat, names, &by)) break;
        } else if (code == LT_WAITING) {
            seat->waits++;
            if (index >= asked) die("the index of a wait", (uint32_t)index);
            wait_for_let(seat);
        } else if (code == LT_RESCAN) {
            seat->rescans++;
        } else {
            die("a scan", code);
        }
    }
    leave(seat);
    /* Others then find the locks held, also where threads take turns. */
    if (txn % 4 == 0) sched_yield();
    for (size_t i = 0; i < asked; i++) counts[names[i].at]++;
    for (size_t i = 0; i < asked; i++) finish(seat, &names[i], txn);
}

static void *work(void *arg) {
    struct seat *seat = arg;
    size_t me = (size_t)(seat - seats);
    uint64_t state = 88172645463325252u * (me + 1);
    struct name names[MOST_OF_A_REQUEST];
    PLANT;
    for (uint64_t round = 0; round < rounds; round++) {
        choose(&state, names);
        take_part(seat, names, me * rounds + round + 1);
    }
    return NULL;
}

/* THE PROGRAM. */

static size_t number(const char *word, size_t most) {
    size_t n = strtoul(word, NULL, 10);
    if (n < 1 || n > most) die("the command line", (uint32_t)n);
    return n;
}

static void read_words(int words, char **word) {
    if (words != 7) die("the command line", (uint32_t)words);
    for (size_t i = 0; i < sizeof ways / sizeof *ways; i++)
        if (strcmp(word[1], ways[i].name) == 0) way = &ways[i];
    if (way == NULL) die("the command line", 0);
    threads = number(word[2], MOST_THREADS), shards = number(word[3], 64), keys = number(word[4], MOST_KEYS);
    asked = number(word[5], keys < MOST_OF_A_REQUEST ? keys : MOST_OF_A_REQUEST), rounds = number(word[6], 1u << 30);
}

static void take_seats(void) {
    struct lt_shared table = {0};
    const struct lt_config config = {
        .shards = shards, .passes = threads, .max_requests = ((uint64_t)1 << 40) - 1, .max_waits = 1 << 20};
    struct lt_pass one_more = {0};
    uint64_t start;
    uint32_t code;
    if (getrandom(&start, sizeof start, 0) != sizeof start) die("getrandom", 0);
    if ((code = lt_shared_open(&table, &config, start)) != LT_DONE) die("an open", code);
    for (size_t i = 0; i < threads; i++) {
        if ((code = lt_shared_pass(&table, &seats[i].pass)) != LT_DONE) die("a pass", code);
        uint32_t its = lt_pass_number(&seats[i].pass);
        if (its < 1 || its > threads || by_number[its] != NULL) die("the number of a pass", its);
        by_number[its] = &seats[i];
        pthread_mutex_init(&seats[i].mutex, NULL);
        pthread_cond_init(&seats[i].condition, NULL);
    }
    if ((code = lt_shared_pass(&table, &one_more)) != LT_NO_PASS) die("one pass too many", code);
    /* The passes keep the table. */
    if ((code = lt_shared_close(&table)) != LT_DONE) die("a close", code);
}

/* Nobody holds a key or waits for one, and nobody has to be told of a let. */
static void look_round(struct seat *seat) {
    const struct lt_txn last = {.txn = threads * rounds + 1, .wall = 1};
    struct lt_through let;
    uint32_t code;
    if ((code = lt_pass_let(&seat->pass, &let)) != LT_NO_LET) die("the last let", code);
    for (size_t i = 0; i < keys; i++) {
        struct name name;
        name_key(&name, i);
        code = lt_pass_acquire(&seat->pass, (const uint8_t *)name.bytes, name.len, &last);
        if (code != LT_TAKEN) die("the last acquire", code);
        finish(seat, &name, last.txn);
    }
    if ((code = lt_pass_let(&seat->pass, &let)) != LT_NO_LET) die("the last let", code);
}

int main(int words, char **word) {
    read_words(words, word);
    take_seats();
    alarm(300);
    pthread_t all[MOST_THREADS];
    for (size_t i = 0; i < threads; i++)
        if (pthread_create(&all[i], NULL, work, &seats[i]) != 0) die("pthread_create", 0);
    for (size_t i = 0; i < threads; i++) pthread_join(all[i], NULL);

    struct seat sum = {0};
    uint64_t total = 0, requests = threads * rounds;
    for (size_t i = 0; i < keys; i++) total += counts[i];
    for (size_t i = 0; i < threads; i++) {
        sum.scans += seats[i].scans, sum.rescans += seats[i].rescans, sum.waits += seats[i].waits, sum.polls += seats[i].polls;
        sum.lets += seats[i].lets, sum.busy += seats[i].busy, sum.others += seats[i].others;
    }
    look_round(&seats[0]);
    for (size_t i = 0; i < threads; i++) {
        uint32_t code = lt_pass_close(&seats[i].pass);
        if (code != LT_DONE) die("a close of a pass", code);
        pthread_cond_destroy(&seats[i].condition);
        pthread_mutex_destroy(&seats[i].mutex);
    }
    printf("%s, %zu threads, %zu shards, %zu of %zu keys: ", way->name, threads, shards, asked, keys);
    printf("%" PRIu64 " of %" PRIu64 " counted; ", total, requests * asked);
    printf("%" PRIu64 " scans, %" PRIu64 " rescans, %" PRIu64 " waits, ", sum.scans, sum.rescans, sum.waits);
    printf("%" PRIu64 " polls, %" PRIu64 " lets, %" PRIu64 " busy, ", sum.polls, sum.lets, sum.busy);
    printf("%" PRIu64 " came second\n", sum.others);
    /* Each scan answered one of four things, and two lets of one pass may have been told as one. */
    bool is_whole = sum.scans == requests + sum.others + sum.rescans + sum.waits && sum.lets <= sum.waits;
    return total == requests * asked && is_whole ? 0 : 1;
}
