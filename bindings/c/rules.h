/* The rules of one key in plain C, written from docs/RULES.md alone, to compare the library with. */
#ifndef RULES_H
#define RULES_H

#include <stdbool.h>
#include <stddef.h>
#include <stdint.h>

/* More requests than a test ever queues at one key. */
#define MOST 64

enum kind { VISIT, ACQUIRE, UPDATE, FINISH, LEAVE, LOOK };

struct request {
    uint64_t number, txn, wall; /* txn 0: none */
    uint32_t logical, wait, pass;
};

struct call {
    enum kind kind;
    const char *key;
    size_t key_len;
    struct request by; /* of acquire, update and finish the transaction alone; of leave and look the number */
    uint32_t longest;
    bool writes;
};

struct through {
    uint64_t number;
    uint32_t wait, pass;
};

struct writer {
    struct request request;
    bool active;
};

/* All zero is the empty record. */
struct record {
    uint64_t holder, wall; /* holder 0: none */
    uint32_t logical;
    bool is_reserved;
    struct request reservation;
    struct writer writer[MOST];
    size_t writers;
    struct request reader[MOST];
    size_t readers;
    uint64_t distinguished; /* 0: none */
};

struct answer {
    uint32_t code;
    uint64_t txn; /* that a look names */
    struct through let[2 * MOST];
    size_t lets;
};

bool is_before(uint64_t wall, uint32_t logical, uint64_t other_wall, uint32_t other_logical);

/* The index of a request in a queue; the queue's length if it is not there. */
size_t writer_of(const struct record *record, uint64_t number);
size_t reader_of(const struct record *record, uint64_t number);

bool is_empty(const struct record *record);

/* The reply of a look. `txn` becomes the transaction that it names, or 0. */
uint32_t look(const struct record *record, uint64_t number, uint64_t *txn);

struct answer apply(struct record *record, const struct call *call);

#endif
