/*
 * What becomes of the others if a thread stops? The tests, in order:
 *
 *   paused   A signal stops a thread wherever it is, often inside a shard. While it stands there, each call of another thread
 *            that enters this shard answers LT_BUSY and changes nothing, and calls at the other shard are made. Then the thread
 *            goes on, and the calls are answered as if it had never stopped.
 *   left     A thread ends while its request waits. Another one has the request leave, by its handle, and closes the handle.
 *            Those queued behind it go on.
 *   closed   The same, but nobody has the request leave: it stays queued, and the lock is reserved for it for ever.
 *   lost     The same, and nobody closes the handle: the table is not freed.
 *
 * In the last three the thread also holds a lock, which another pass frees.
 *
 *     stops [TIMES]
 *
 * TIMES is how often the thread is to be found inside the shard (100).
 */
#define _GNU_SOURCE
#include "locktable.h"

#include <pthread.h>
#include <sched.h>
#include <signal.h>
#include <stdatomic.h>
#include <stdio.h>
#include <stdlib.h>
#include <string.h>
#include <unistd.h>

#define WANT(x) \
    do { \
        if (!(x)) { \
            fprintf(stderr, "%s:%d: %s\n", __FILE__, __LINE__, #x); \
            exit(1); \
        } \
    } while (0)

#define KEY(text) (const uint8_t *)(text), strlen(text)
#define START 7

/* THE HEAP: over malloc, and counted. No thread is paused inside malloc, because malloc has locks that others need. */

struct rattle_block {
    bool ok;
    void *at;
};

static _Atomic size_t blocks;
static _Thread_local volatile sig_atomic_t in_heap;

struct rattle_block rattle_alloc(size_t size, size_t align);
struct rattle_block rattle_realloc(void *at, size_t kept, size_t size, size_t align);
void rattle_dealloc(void *at);

struct rattle_block rattle_alloc(size_t size, size_t align) {
    in_heap = 1;
    void *at = malloc(size > 0 ? size : align);
    in_heap = 0;
    WANT(at != NULL);
    atomic_fetch_add(&blocks, 1);
    return (struct rattle_block){true, at};
}

struct rattle_block rattle_realloc(void *at, size_t kept, size_t size, size_t align) {
    (void)kept;
    in_heap = 1;
    void *other = realloc(at, size > 0 ? size : align);
    in_heap = 0;
    WANT(other != NULL);
    return (struct rattle_block){true, other};
}

void rattle_dealloc(void *at) {
    in_heap = 1;
    free(at);
    in_heap = 0;
    atomic_fetch_sub(&blocks, 1);
}

/* Makes the call until no other caller is in the shard. */
#define ANSWERS(wanted, call) \
    do { \
        uint32_t code; \
        while ((code = (call)) == LT_BUSY) sched_yield(); \
        WANT(code == (wanted)); \
    } while (0)

/* PAUSED. Of two shards, "b" is in the first, and "a", "c" and "e" are in the second. */

static const struct lt_txn one = {.txn = 1, .wall = 1}, two = {.txn = 2, .wall = 1}, three = {.txn = 3, .wall = 1};

static struct lt_pass his;
static int from_him[2], to_him[2]; /* pipes: what he says of where he is, and that he may go on */
static atomic_bool ends;
static _Atomic size_t his_rounds;

/* Stops the thread until it may go on. */
static void pause_here(int signal) {
    (void)signal;
    char said = in_heap ? 'h' : 'p';
    if (write(from_him[1], &said, 1) != 1) _exit(1);
    if (said == 'p' && read(to_him[0], &said, 1) != 1) _exit(1);
}

static void *lock_and_free(void *arg) {
    (void)arg;
    while (!atomic_load(&ends)) {
        ANSWERS(LT_TAKEN, lt_pass_acquire(&his, KEY("a"), &one));
        ANSWERS(LT_FREED, lt_pass_finish(&his, KEY("a"), 1));
        atomic_fetch_add(&his_rounds, 1);
    }
    return NULL;
}

static void enter_for(struct lt_pass *pass, const char *key, uint64_t txn) {
    const struct lt_terms terms = {.txn = txn, .wall = 1};
    WANT(lt_pass_want(pass, KEY(key), true) == LT_DONE && lt_pass_enter(pass, &terms) == LT_DONE);
}

/* The thread stands inside the second shard. */
static void call_while_he_is_inside(struct lt_pass *pass, struct lt_pass *request) {
    size_t index = 7;
    uint64_t txn = 7;
    WANT(lt_pass_acquire(pass, KEY("c"), &three) == LT_BUSY && lt_pass_acquire(pass, KEY("e"), &three) == LT_BUSY);
    WANT(lt_pass_update(pass, KEY("c"), &two) == LT_BUSY && lt_pass_finish(pass, KEY("c"), 2) == LT_BUSY);
    WANT(lt_pass_acquire(pass, KEY("b"), &three) == LT_TAKEN && lt_pass_finish(pass, KEY("b"), 3) == LT_FREED);
    WANT(lt_pass_scan(request, &index) == LT_BUSY && index == 0 && lt_pass_poll(request) == LT_NOT_WAITING);
    WANT(lt_pass_look(request, 0, &txn) == LT_BUSY && txn == 7);
}

/* The thread goes on. No refused call has changed anything: transaction 2 holds "c", nobody holds "e", and the request has not
   visited "c". It waits there now, leaves, and enters anew. */
static void call_after_it(struct lt_pass *pass, struct lt_pass *request) {
    struct lt_through let;
    size_t index;
    uint64_t txn;
    ANSWERS(LT_NOTHING, lt_pass_look(request, 0, &txn));
    ANSWERS(LT_OTHER, lt_pass_acquire(pass, KEY("c"), &three));
    ANSWERS(LT_TAKEN, lt_pass_acquire(pass, KEY("e"), &three));
    ANSWERS(LT_FREED, lt_pass_finish(pass, KEY("e"), 3));
    ANSWERS(LT_WAITING, lt_pass_scan(request, &index));
    ANSWERS(LT_KEPT, lt_pass_update(pass, KEY("c"), &two));
    ANSWERS(LT_FREED, lt_pass_finish(pass, KEY("c"), 2));
    WANT(lt_pass_let(pass, &let) == LT_DONE && let.pass == lt_pass_number(request) && lt_pass_poll(request) == LT_LET_THROUGH);
    ANSWERS(LT_DONE, lt_pass_leave(request));
    ANSWERS(LT_TAKEN, lt_pass_acquire(pass, KEY("c"), &two));
    enter_for(request, "c", 4);
}

static void pause_a_thread(size_t times) {
    const struct lt_config config = {.shards = 2, .passes = 3, .max_requests = 1u << 30, .max_waits = 100};
    const struct sigaction action = {.sa_handler = pause_here};
    struct lt_shared table = {0};
    struct lt_pass pass = {0}, request = {0};
    pthread_t thread;
    size_t found = 0, pauses = 0;
    WANT(lt_shard_of(KEY("b"), 2) == 0 && lt_shard_of(KEY("a"), 2) == 1);
    WANT(lt_shard_of(KEY("c"), 2) == 1 && lt_shard_of(KEY("e"), 2) == 1);
    WANT(lt_shared_open(&table, &config, START) == LT_DONE && lt_shared_pass(&table, &his) == LT_DONE);
    WANT(lt_shared_pass(&table, &pass) == LT_DONE && lt_shared_pass(&table, &request) == LT_DONE);
    WANT(lt_pass_acquire(&pass, KEY("c"), &two) == LT_TAKEN);
    enter_for(&request, "c", 4);
    WANT(pipe(from_him) == 0 && pipe(to_him) == 0 && sigaction(SIGUSR1, &action, NULL) == 0);
    WANT(pthread_create(&thread, NULL, lock_and_free, NULL) == 0);
    while (found < times) {
        char said;
        uint64_t txn;
        /* At another moment of a round each time. */
        for (size_t round = atomic_load(&his_rounds); atomic_load(&his_rounds) == round;) sched_yield();
        for (size_t i = 0; i < pauses % 97; i++) atomic_load(&ends);
        pauses++;
        WANT(pthread_kill(thread, SIGUSR1) == 0 && read(from_him[0], &said, 1) == 1);
        if (said != 'p') continue;
        bool is_inside = lt_pass_look(&request, 0, &txn) == LT_BUSY;
        if (is_inside) call_while_he_is_inside(&pass, &request);
        WANT(write(to_him[1], &said, 1) == 1);
        if (is_inside) call_after_it(&pass, &request);
        found += is_inside;
    }
    atomic_store(&ends, true);
    WANT(pthread_join(thread, NULL) == 0);
    WANT(lt_pass_leave(&request) == LT_DONE && lt_pass_close(&request) == LT_DONE && lt_pass_close(&his) == LT_DONE);
    WANT(lt_pass_close(&pass) == LT_DONE && lt_shared_close(&table) == LT_DONE && blocks == 0);
    printf("paused: inside the shard %zu times of %zu\n", found, pauses);
}

/* LEFT, CLOSED, LOST. */

static struct lt_pass of_the_dead;

/* Transaction 5 holds "k", and its request waits at "m". */
static void *die(void *arg) {
    const struct lt_txn five = {.txn = 5, .wall = 1};
    size_t index;
    (void)arg;
    WANT(lt_pass_acquire(&of_the_dead, KEY("k"), &five) == LT_TAKEN);
    enter_for(&of_the_dead, "m", 5);
    WANT(lt_pass_scan(&of_the_dead, &index) == LT_WAITING);
    pthread_exit(NULL);
}

static const struct {
    const char *name;
    bool leaves, closes;
} deaths[] = {{"left", true, true}, {"closed", false, true}, {"lost", false, false}};

static void bury(size_t row) {
    const struct lt_config config = {.shards = 1, .passes = 3, .max_requests = 100, .max_waits = 100};
    const struct lt_txn six = {.txn = 6, .wall = 1}, nine = {.txn = 9, .wall = 1};
    const bool leaves = deaths[row].leaves;
    struct lt_shared table = {0};
    struct lt_pass pass = {0}, behind = {0}, more = {0};
    struct lt_through let;
    pthread_t thread;
    size_t index;
    uint64_t txn;
    of_the_dead = (struct lt_pass){0};
    WANT(lt_shared_open(&table, &config, START) == LT_DONE && lt_shared_pass(&table, &of_the_dead) == LT_DONE);
    WANT(lt_shared_pass(&table, &pass) == LT_DONE && lt_shared_pass(&table, &behind) == LT_DONE);
    const uint32_t its_number = lt_pass_number(&of_the_dead);
    WANT(lt_pass_acquire(&pass, KEY("m"), &nine) == LT_TAKEN);
    WANT(pthread_create(&thread, NULL, die, NULL) == 0 && pthread_join(thread, NULL) == 0);

    /* Its lock is freed by another pass, and its turn comes at "m". Nobody is there to take it. */
    WANT(lt_pass_finish(&pass, KEY("k"), 5) == LT_FREED && lt_pass_let(&pass, &let) == LT_NO_LET);
    WANT(lt_pass_finish(&pass, KEY("m"), 9) == LT_FREED);
    WANT(lt_pass_let(&pass, &let) == LT_DONE && let.pass == its_number && lt_pass_let(&pass, &let) == LT_NO_LET);
    enter_for(&behind, "m", 6);
    WANT(lt_pass_scan(&behind, &index) == LT_WAITING);
    WANT(lt_pass_look(&behind, 0, &txn) == LT_WAIT_FIRST_RESERVED && txn == 5);

    if (leaves) {
        WANT(lt_pass_leave(&of_the_dead) == LT_DONE);
        WANT(lt_pass_let(&of_the_dead, &let) == LT_DONE && let.pass == lt_pass_number(&behind));
    }
    if (deaths[row].closes) WANT(lt_pass_close(&of_the_dead) == LT_DONE);

    if (leaves) {
        WANT(lt_pass_poll(&behind) == LT_LET_THROUGH && lt_pass_scan(&behind, &index) == LT_RESCAN);
        WANT(lt_pass_scan(&behind, &index) == LT_PROCEED && lt_pass_acquire(&behind, KEY("m"), &six) == LT_TAKEN);
        WANT(lt_pass_leave(&behind) == LT_DONE && lt_pass_finish(&behind, KEY("m"), 6) == LT_FREED);
    } else {
        /* It waits, and so does whoever comes next. */
        WANT(lt_pass_let(&pass, &let) == LT_NO_LET && lt_pass_poll(&behind) == LT_WAITING);
        WANT(lt_pass_look(&behind, 0, &txn) == LT_WAIT_FIRST_RESERVED && txn == 5);
        WANT(lt_pass_leave(&behind) == LT_DONE);
        enter_for(&behind, "m", 6);
        WANT(lt_pass_scan(&behind, &index) == LT_WAITING && lt_pass_leave(&behind) == LT_DONE);
    }
    /* The other keys are as ever. */
    enter_for(&behind, "n", 6);
    WANT(lt_pass_scan(&behind, &index) == LT_PROCEED && lt_pass_acquire(&behind, KEY("n"), &six) == LT_TAKEN);
    WANT(lt_pass_leave(&behind) == LT_DONE && lt_pass_finish(&behind, KEY("n"), 6) == LT_FREED);
    WANT(lt_pass_acquire(&pass, KEY("k"), &nine) == LT_TAKEN && lt_pass_finish(&pass, KEY("k"), 9) == LT_FREED);

    /* No pass comes back. The table is freed with the last handle. */
    WANT(lt_shared_pass(&table, &more) == LT_NO_PASS);
    WANT(lt_pass_close(&behind) == LT_DONE && lt_pass_close(&pass) == LT_DONE && lt_shared_close(&table) == LT_DONE);
    WANT((blocks == 0) == deaths[row].closes);
    printf("%s: %s\n", deaths[row].name, leaves ? "those behind went on" : "those behind wait, and the others went on");
}

int main(int words, char **word) {
    alarm(300);
    pause_a_thread(words > 1 ? strtoul(word[1], NULL, 10) : 100);
    for (size_t row = 0; row < sizeof deaths / sizeof *deaths; row++) bury(row);
    return 0;
}
