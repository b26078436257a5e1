/*
 * Two threads at one key of a shared table, in C. Transaction 1 holds "a". A request of transaction 2 waits for it and sleeps. It
 * is woken once transaction 1 has freed the key, and takes it. A line has the thread, the call and its code; `run` has them all.
 */
#include "locktable.h"

#include <pthread.h>
#include <semaphore.h>
#include <stdio.h>

static const uint8_t key[] = {'a'};
static struct lt_shared table;
static struct lt_pass first, second;
static uint32_t number; /* of the second pass */
static sem_t is_held, is_asleep, wakes;

static void *walk_first(void *arg) {
    const struct lt_txn one = {.txn = 1, .wall = 1};
    struct lt_through let;
    printf("1 acquire %u\n", lt_pass_acquire(&first, key, 1, &one));
    sem_post(&is_held);
    sem_wait(&is_asleep);
    printf("1 finish %u\n", lt_pass_finish(&first, key, 1, 1));
    while (lt_pass_let(&first, &let) == LT_DONE) {
        printf("1 let of request %llu, wait %u\n", (unsigned long long)let.number, let.wait);
        if (let.pass == number) sem_post(&wakes);
    }
    return arg;
}

static void *walk_second(void *arg) {
    const struct lt_terms terms = {.txn = 2, .wall = 2};
    const struct lt_txn two = {.txn = 2, .wall = 2};
    size_t index;
    sem_wait(&is_held);
    printf("2 want %u\n", lt_pass_want(&second, key, 1, true));
    printf("2 enter %u\n", lt_pass_enter(&second, &terms));
    printf("2 scan %u\n", lt_pass_scan(&second, &index));
    sem_post(&is_asleep);
    /* A semaphore counts, so a wake that comes before the sleep is kept. */
    sem_wait(&wakes);
    printf("2 poll %u\n", lt_pass_poll(&second));
    printf("2 scan %u\n", lt_pass_scan(&second, &index));
    printf("2 scan %u\n", lt_pass_scan(&second, &index));
    printf("2 acquire %u\n", lt_pass_acquire(&second, key, 1, &two));
    printf("2 leave %u\n", lt_pass_leave(&second));
    printf("2 finish %u\n", lt_pass_finish(&second, key, 1, 2));
    return arg;
}

int main(void) {
    const struct lt_config config = {.shards = 4, .passes = 2, .max_requests = 100, .max_waits = 100};
    pthread_t threads[2];
    if (lt_shared_open(&table, &config, 7) != LT_DONE) return 1;
    if (lt_shared_pass(&table, &first) != LT_DONE || lt_shared_pass(&table, &second) != LT_DONE) return 1;
    number = lt_pass_number(&second);
    if (sem_init(&is_held, 0, 0) != 0 || sem_init(&is_asleep, 0, 0) != 0 || sem_init(&wakes, 0, 0) != 0) return 1;
    if (pthread_create(&threads[0], NULL, walk_first, NULL) != 0) return 1;
    if (pthread_create(&threads[1], NULL, walk_second, NULL) != 0) return 1;
    for (size_t i = 0; i < 2; i++) pthread_join(threads[i], NULL);
    lt_pass_close(&first);
    lt_pass_close(&second);
    return lt_shared_close(&table) == LT_DONE ? 0 : 1;
}
