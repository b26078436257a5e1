/*
 * The lock table of one thread, the table that threads share, and the check of key histories, for C and C++.
 *
 * The functions are those of crates/lt_c: each is proved against a contract, which this file tells in words. What a key
 * does is in docs/RULES.md, and the text that lt_check reads is in docs/FORMATS.md.
 *
 * Example. Transaction 9 holds key "a". Request 1 has to wait, and is let through when 9 finishes.
 *
 *     #include "locktable.h"
 *     #include <stdio.h>
 *     #include <sys/random.h>
 *     int main(void) {
 *         struct lt_table table = {0};
 *         uint64_t start;
 *         struct lt_through lets[8];
 *         size_t count;
 *         const uint8_t key[] = {'a'};
 *         const struct lt_txn nine = {.txn = 9, .wall = 10};
 *         const struct lt_request one = {.number = 1, .txn = 1, .wall = 10, .wait = 1, .pass = 1, .writes = true};
 *         if (getrandom(&start, sizeof start, 0) != sizeof start) return 6;
 *         if (lt_table_open(&table, start) != LT_DONE) return 1;
 *         if (lt_table_acquire(&table, key, 1, &nine, lets, 8, &count) != LT_TAKEN) return 2;
 *         if (lt_table_visit(&table, key, 1, &one, lets, 8, &count) != LT_MUST_WAIT) return 3;
 *         if (lt_table_finish(&table, key, 1, 9, lets, 8, &count) != LT_FREED || count != 1) return 4;
 *         printf("wait %u of request %llu is over\n", lets[0].wait, (unsigned long long)lets[0].number);
 *         return lt_table_close(&table) == LT_DONE ? 0 : 5;
 *     }
 *
 * WHAT A CALLER OWES. Nothing checks these rules, and the proofs rest on them. A handle is a struct lt_table, lt_shared, lt_pass,
 * lt_steps or lt_text_check:
 *
 *   - A handle is all zero before its first call. Afterwards only these functions read or write it.
 *   - A caller does not copy an open handle, because both copies would own one table. It closes each handle that it opened:
 *     memory of a handle that was not closed is lost.
 *   - No two calls use one handle at the same time. A caller with several threads keeps a struct lt_table behind a lock of
 *     its own (see THREADS), or gives each thread a pass of a shared table (see THE SHARED TABLE).
 *   - No pointer is null, even if a length is 0. Each points to as many elements as the length says. The places that
 *     one call writes do not overlap, and overlap nothing that it reads.
 *   - A bool has the value 0 or 1.
 *   - No call is made in a signal handler, or in the child that a process with threads has forked. No thread ends inside a call.
 *
 * Everything else is tested by the call. A number that is out of range, a closed handle, a handle of another kind or a text of
 * any bytes is answered by a code.
 *
 * THREADS. A table belongs to no thread: each call may come from another one, if the calls are ordered, for example by
 * a mutex that the caller holds during each call. Calls on different tables need no order. It is proved that a table may go
 * to another thread (its type is `Send`), since all that it owns is memory of the three functions below, which must work on
 * every thread. That its calls are ordered is the caller's part.
 *
 * WAITING. The table says who waits and who is let through. How a caller waits and is woken is up to the program, and a
 * caller that gives up leaves. The head of bindings/rust/src/sync/mod.rs has six rules for this. They hold in C too.
 *
 * CODES. A call answers one code. From LT_FIRST_REPLY on it is a reply of the rules, and the call took effect. Below
 * that it is LT_DONE or a refusal. A call that is refused changes nothing: the table, the lets that are left, and what
 * the caller's pointers point to are as they were. (Of a shared table this is proved of the handle and what the pointers point
 * to: no clause speaks of the shards. After LT_LOST one of them would be empty. lt_check and lt_check_end fill their report
 * also for a text that they refuse. A check in pieces is over once it has answered a fault or LT_MEMORY, and then answers the
 * same again. From LT_PROCEED on a code is that of a scan, a poll or a let of a shared table, and from
 * LT_BAD_KEEPING on a refusal of a call on its history; a scan and a leave of several keys may be refused between two of them, and
 * the functions say what then stands.)
 * If a call has several reasons to refuse, it answers the first in the order that stands at the call. After LT_MEMORY
 * the caller may make the same call again.
 *
 * MEMORY. The library takes memory by three functions, which the program defines: rattle_alloc, rattle_realloc and
 * rattle_dealloc. heap.c beside this file has them over malloc, and says what they owe. The table owns all memory that
 * it takes. Keys, requests and texts are copied or only read: the caller may change or free them after the call. Arrays
 * and structs for the answer are the caller's.
 *
 * KEYS are 1 to 64 bytes, each from 0x21 to 0x7E. They cross as a pointer and a length, without a final zero byte. A
 * key of up to 22 bytes is stored without an allocation of its own.
 */
#ifndef LOCKTABLE_H
#define LOCKTABLE_H

#include <stdbool.h>
#include <stddef.h>
#include <stdint.h>

#ifdef __cplusplus
extern "C" {
#endif

/* What a call answers. */
enum lt_code {
    LT_DONE = 0,            /* the call did what it was asked */

    /* refusals */
    LT_CLOSED = 1,          /* the table is not open */
    LT_MEMORY = 2,          /* an allocation failed */
    LT_OPEN_ALREADY = 3,    /* the table is open already */
    LT_LETS_LEFT = 4,       /* lets of the step before are left: call lt_table_lets first */
    LT_BAD_KEY_EMPTY = 5,   /* the key has no bytes */
    LT_BAD_KEY_LONG = 6,    /* the key has more than 64 bytes */
    LT_BAD_KEY_BYTE = 7,    /* the key has a byte that is not 0x21 to 0x7E */
    LT_BAD_TXN = 8,         /* the transaction is 0 */
    LT_BAD_NUMBER = 9,      /* the number of the request is not 1 to 2^40 - 1 */
    LT_BAD_WAIT = 10,       /* the wait number is not 1 to 2^24 - 1 */
    LT_BAD_PASS = 11,       /* the pass is not 1 to 1024 */
    LT_BUSY = 12,           /* another caller is in the shard: call again */
    LT_HISTORY_FULL = 13,   /* the shard has stored as many steps as it may */
    LT_NO_PASS = 14,        /* the table has given all of its passes out */
    LT_LOST = 15,           /* the shard is not the one of its table; no table that was opened answers this */

    /* faults of a text of histories, in the order in which lt_check tests each line */
    LT_FAULT_HEADER = 16,   /* the first line is not that of a version */
    LT_FAULT_SHAPE = 17,    /* the line does not have the form of a step */
    LT_FAULT_KEY_ORDER = 18,/* the key comes before the key of the line before */
    LT_FAULT_INDEX = 19,    /* the index does not follow that of the line before */
    LT_FAULT_REPLY = 20,    /* the rules give another reply */
    LT_FAULT_LETS = 21,     /* the rules let other requests through, or the same ones in another order */

    LT_BAD_SHARDS = 22,     /* a table has 1 to 64 shards */
    LT_BAD_PASSES = 23,     /* a table has 1 to 1024 passes */
    LT_BAD_STEPS = 24,      /* the number of steps that a shard may store is out of its range */
    LT_BAD_REQUESTS = 25,   /* a table takes 1 to 2^40 - 1 requests */
    LT_BAD_WAITS = 26,      /* a request begins 1 to 2^24 - 1 waits */
    LT_BAD_SHARD = 27,      /* the table has no shard with this index */
    LT_NO_KEYS = 28,        /* the request names no key */
    LT_TOO_MANY_KEYS = 29,  /* the request names more than 256 keys */
    LT_NUMBERS_OUT = 30,    /* as many requests entered as may */
    LT_BAD_INDEX = 31,      /* the request has no key with this index */

    /* replies of the rules */
    LT_FIRST_REPLY = 32,    /* no code of its own: replies begin here */
    LT_PASSED = 32,         /* visit: the request may proceed at this key */
    LT_MUST_WAIT = 33,      /* visit: the request is queued and has to wait */
    LT_TOO_LONG = 34,       /* visit: the request would wait, but there are at least `longest` writers */
    LT_TAKEN = 35,          /* acquire: the lock was free, and the transaction holds it now */
    LT_KEPT = 36,           /* acquire, update: the lock was held at this timestamp or a later one */
    LT_RAISED = 37,         /* acquire, update: the timestamp of the lock rose */
    LT_OTHER = 38,          /* acquire: another transaction holds the lock. update, finish: this one does not hold it */
    LT_FREED = 39,          /* finish: the transaction no longer holds the lock */
    LT_LEFT = 40,           /* leave: the request was at the key, and is no longer */
    LT_ABSENT = 41,         /* leave: the request was not at the key */
    LT_NOTHING = 42,        /* look: the request is not queued at the key */
    LT_RESERVED = 43,       /* look: the lock is reserved for the request */
    LT_IDLE = 44,           /* look: the request is an inactive writer, and does not wait */
    LT_WAIT_FOR_HELD = 45,  /* look: it waits for the transaction that holds the lock */
    LT_WAIT_FOR_RESERVED = 46,   /* look: it waits for the transaction for which the lock is reserved */
    LT_WAIT_FIRST_HELD = 47,     /* look: as LT_WAIT_FOR_HELD, and it is the distinguished waiter */
    LT_WAIT_FIRST_RESERVED = 48, /* look: as LT_WAIT_FOR_RESERVED, and it is the distinguished waiter */
    LT_WAIT_OWN = 49,       /* look: the lock is reserved for another request of its own transaction */

    /* answers of a scan, a poll and a let of a shared table */
    LT_PROCEED = 64,        /* scan: no conflict */
    LT_RESCAN = 65,         /* scan: the request waited on the way, and scans once more */
    LT_WAITING = 66,        /* scan, poll: the request has to wait */
    LT_QUEUE_TOO_LONG = 67, /* scan: there are at least `longest` writers */
    LT_LEAVING = 68,        /* scan refused: the request is leaving */
    LT_STILL_WAITING = 69,  /* scan refused: the request was not let through */
    LT_WAITS_OUT = 70,      /* scan refused: the request has begun as many waits as it may */
    LT_LET_THROUGH = 71,    /* poll: the request was let through */
    LT_NOT_WAITING = 72,    /* poll: the request does not wait */
    LT_NO_LET = 73,         /* let: none is left of which nobody was told */

    /* refusals of a table that keeps its steps */
    LT_BAD_KEEPING = 74,    /* open: there is no such way to keep steps */
    LT_KEPT_WHOLE = 75,     /* take: the table keeps its steps until its end */
    LT_PASSES_OUT = 76,     /* end: passes are out; the table ends once all have come back */
    LT_MISCOUNT = 77        /* end: the steps of a shard are not those of the passes; no table that was opened answers this */
};

/* The version of this header: the first number of the version times 1,000,000, the second times 1,000, and the third. */
#define LT_VERSION 1000

/* A table. All zero is a closed one. */
struct lt_table {
    bool is_open;
    void *at;
};

/* The check of a text that comes in pieces. All zero is a closed one. */
struct lt_text_check {
    bool is_open;
    void *at;
};

/* A transaction, from 1, at a timestamp. Timestamps are ordered by `wall` and then by `logical`. */
struct lt_txn {
    uint64_t txn;
    uint64_t wall;
    uint32_t logical;
};

/* A request that visits a key. */
struct lt_request {
    uint64_t number;  /* 1 to 2^40 - 1; a smaller number goes first. The caller gives each request its own number */
    uint64_t txn;     /* its transaction, or 0 for none */
    uint64_t wall;    /* the timestamp */
    uint32_t logical;
    uint32_t wait;    /* 1 to 2^24 - 1: the number of the wait that begins if the request has to wait here */
    uint32_t pass;    /* 1 to 1024: who makes the call. A let names it again */
    uint32_t longest; /* the bound on the writers, or 0 for none */
    bool writes;      /* whether the request wants to write, and not only to read */
};

/* A let: this wait of this request is over. */
struct lt_through {
    uint64_t number;
    uint32_t wait;
    uint32_t pass;
};

/* A queued request, or the one that has the reservation. `txn` is 0 for a request without a transaction. */
struct lt_queued {
    uint64_t number;
    uint64_t txn;
    uint64_t wall;
    uint32_t logical;
    uint32_t wait;
    uint32_t pass;
    bool active;      /* true for a reader and for an active writer, false for an inactive writer and a reservation */
};

/* A key: its first `len` bytes, which are 1 to 64, and zeros after them. */
struct lt_key_name {
    size_t len;
    uint8_t bytes[64];
};

/* The record of a key, without its queues. */
struct lt_key {
    uint64_t holder;              /* the transaction that holds the lock, or 0 for none */
    uint64_t wall;                /* the lock's timestamp, or 0.0 without a holder */
    uint32_t logical;
    uint64_t distinguished;       /* the number of the distinguished waiter, or 0 for none */
    struct lt_queued reservation; /* the request for which the lock is reserved, or all zero for none */
    size_t writers;               /* how many writers are queued, active or not */
    size_t readers;
};

/* What lt_check says of a text. */
struct lt_report {
    uint8_t version; /* of a legal text: 1 or 2. Otherwise 0 */
    size_t keys;     /* of a legal text: how many keys and steps it has. Otherwise 0 */
    size_t steps;
    size_t line;     /* of another text: its first faulty line, from 1. Otherwise 0 */
};

/*
 * Opens an empty table, whose keys are hashed from this start.
 *
 * Whoever chooses the keys can make the table slow if he knows the start. So draw it, for each table, where nobody can
 * guess it: getrandom(2) does. What the table answers does not depend on it.
 *
 * Answers LT_DONE, or refuses: LT_OPEN_ALREADY, LT_MEMORY.
 */
uint32_t lt_table_open(struct lt_table *table, uint64_t start);

/*
 * Closes the table and frees all of its memory, also if keys are held or lets are left. The struct is then closed, and
 * may be opened again.
 *
 * Answers LT_DONE, or refuses: LT_CLOSED.
 */
uint32_t lt_table_close(struct lt_table *table);

/*
 * THE STEPS: visit, acquire, update, finish, leave.
 *
 * A step changes the record of one key as docs/RULES.md says, and answers the reply. It may let requests through. It
 * writes the first of these lets into `lets`, in the order of the rules, as many as `room` allows, and sets `count` to
 * how many it wrote. The rest of the array stays as it was. `room` may be 0.
 *
 * If there are more lets than `room`, the table keeps the others. Until lt_table_lets has given them all, every step is
 * refused with LT_LETS_LEFT. So no let is lost. If `count` is below `room`, no let is left.
 *
 * A step takes memory before it changes anything. A LOCK CAN ALWAYS BE GIVEN UP: with a key of at most 22 bytes, an
 * update, a finish and a leave are never refused with LT_MEMORY, whatever they let through. An acquire is only if nobody
 * has locked the key and nobody waits for it. A visit is not if its reply would be LT_TOO_LONG, or LT_PASSED with the
 * reservation as it was.
 */

/*
 * The request visits the key to read or to write.
 *
 * Replies: LT_PASSED, LT_MUST_WAIT, LT_TOO_LONG. A visit lets nobody through, so `count` is 0.
 * Refuses, in this order: LT_BAD_NUMBER, LT_BAD_WAIT, LT_BAD_PASS, LT_CLOSED, LT_LETS_LEFT, LT_BAD_KEY_EMPTY,
 * LT_BAD_KEY_LONG, LT_BAD_KEY_BYTE, LT_MEMORY.
 */
uint32_t lt_table_visit(struct lt_table *table, const uint8_t *key, size_t key_len, const struct lt_request *request,
                        struct lt_through *lets, size_t room, size_t *count);

/*
 * The transaction takes the lock, or raises the timestamp at which it holds the lock.
 *
 * Replies: LT_TAKEN, LT_KEPT, LT_RAISED, LT_OTHER.
 * Refuses, in this order: LT_BAD_TXN, LT_CLOSED, LT_LETS_LEFT, LT_BAD_KEY_EMPTY, LT_BAD_KEY_LONG, LT_BAD_KEY_BYTE,
 * LT_MEMORY.
 */
uint32_t lt_table_acquire(struct lt_table *table, const uint8_t *key, size_t key_len, const struct lt_txn *by,
                          struct lt_through *lets, size_t room, size_t *count);

/*
 * The transaction raises the timestamp at which it holds the lock.
 *
 * Replies: LT_KEPT, LT_RAISED, LT_OTHER. Refuses as lt_table_acquire.
 */
uint32_t lt_table_update(struct lt_table *table, const uint8_t *key, size_t key_len, const struct lt_txn *by,
                         struct lt_through *lets, size_t room, size_t *count);

/*
 * The transaction releases the lock.
 *
 * Replies: LT_FREED, LT_OTHER. Refuses as lt_table_acquire.
 */
uint32_t lt_table_finish(struct lt_table *table, const uint8_t *key, size_t key_len, uint64_t txn,
                         struct lt_through *lets, size_t room, size_t *count);

/*
 * The request with this number gives up its reservation, or stops waiting. Every number may be asked.
 *
 * Replies: LT_LEFT, LT_ABSENT.
 * Refuses, in this order: LT_CLOSED, LT_LETS_LEFT, LT_BAD_KEY_EMPTY, LT_BAD_KEY_LONG, LT_BAD_KEY_BYTE, LT_MEMORY.
 */
uint32_t lt_table_leave(struct lt_table *table, const uint8_t *key, size_t key_len, uint64_t number,
                        struct lt_through *lets, size_t room, size_t *count);

/*
 * Gives the next lets of the last step, in order, as a step does: as many as `room` allows, and their number in
 * `count`. If `count` is below `room`, no let is left. The call allocates nothing.
 *
 * Answers LT_DONE, also if no let was left, or refuses: LT_CLOSED.
 */
uint32_t lt_table_lets(struct lt_table *table, struct lt_through *lets, size_t room, size_t *count);

/*
 * THE QUERIES: look, key, writers, readers, keys.
 *
 * A query changes nothing in the table. It answers also while lets are left.
 */

/*
 * What the request with this number finds at the key. Sets `txn` to the transaction that the reply names, which is the
 * holder's or the reservation's, or to 0 if it names none. Every number may be asked. With a key of at most 22 bytes
 * the call allocates nothing.
 *
 * Replies: LT_NOTHING, LT_RESERVED, LT_IDLE, LT_WAIT_FOR_HELD, LT_WAIT_FOR_RESERVED, LT_WAIT_FIRST_HELD,
 * LT_WAIT_FIRST_RESERVED, LT_WAIT_OWN.
 * Refuses, in this order: LT_CLOSED, LT_BAD_KEY_EMPTY, LT_BAD_KEY_LONG, LT_BAD_KEY_BYTE, LT_MEMORY.
 */
uint32_t lt_table_look(struct lt_table *table, const uint8_t *key, size_t key_len, uint64_t number, uint64_t *txn);

/*
 * The record of the key. A key without a record has the empty one: all zero. The call takes time in proportion to the
 * key's queues, because it copies them.
 *
 * Answers LT_DONE, or refuses as lt_table_look.
 */
uint32_t lt_table_key(struct lt_table *table, const uint8_t *key, size_t key_len, struct lt_key *out);

/*
 * The writers of the key, in the order of their numbers: as many of the first as fit into the `room` places of the array.
 * Sets `count` to how many writers there are, which may be more. The rest of the array stays as it was. The call takes time
 * in proportion to the key's queues.
 *
 * Answers LT_DONE, or refuses as lt_table_look; then the array and the count are as they were.
 */
uint32_t lt_table_writers(struct lt_table *table, const uint8_t *key, size_t key_len, struct lt_queued *array,
                          size_t room, size_t *count);

/* The readers of the key. The latest is first. Otherwise as lt_table_writers. */
uint32_t lt_table_readers(struct lt_table *table, const uint8_t *key, size_t key_len, struct lt_queued *array,
                          size_t room, size_t *count);

/*
 * The keys that have a record: they are held, reserved or waited for. Lists them in byte order, from the first one that
 * comes after the key `after`, or from the very first if `after_len` is 0: as many as fit into the `room` places of the
 * array. Sets `count` to how many were written. If these are fewer than `room`, no key comes after them. `after` need not
 * have a record, so a caller lists all keys by giving the last key of a call to the next one. The call looks at all keys, and
 * keeps copies of no more than `room` of them and one at a time.
 *
 * Answers LT_DONE, or refuses, in this order: LT_CLOSED, LT_BAD_KEY_LONG, LT_BAD_KEY_BYTE, LT_MEMORY; then the array and
 * the count are as they were.
 */
uint32_t lt_table_keys(struct lt_table *table, const uint8_t *after, size_t after_len, struct lt_key_name *array,
                       size_t room, size_t *count);

/*
 * Which shard has the key, if a store spreads its keys over several tables: the sum of the key's bytes modulo `shards`.
 * The result is below `shards`. It is 0 if there are more than 64 bytes, or if `shards` is 0. The call does not test
 * the bytes.
 */
size_t lt_shard_of(const uint8_t *key, size_t key_len, size_t shards);

/*
 * Checks whether the text is a text of legal histories (docs/FORMATS.md, "The text of key histories").
 *
 * Answers LT_DONE for exactly the legal texts, and fills the report: the version, and the numbers of keys and steps.
 * For every other text it answers the first fault of the first faulty line, LT_FAULT_HEADER to LT_FAULT_LETS, and fills
 * the report: the line. It answers LT_MEMORY if an allocation failed, and then the report is as it was. The text may
 * have any length.
 */
uint32_t lt_check(const uint8_t *text, size_t len, struct lt_report *report);

/*
 * THE CHECK OF A TEXT IN PIECES, for texts that do not fit into memory, or that are still being written. A caller begins a
 * check, gives it the pieces of the text in order, and ends it. Where the text is cut does not matter. The check keeps a
 * line that is not whole yet, and the record of one key. What a caller owes a table, he owes a check too.
 */

/*
 * Begins a check.
 *
 * Answers LT_DONE, or refuses: LT_OPEN_ALREADY, LT_MEMORY.
 */
uint32_t lt_check_begin(struct lt_text_check *check);

/*
 * Checks the next piece of the text. Answers LT_DONE if no fault was found so far. Once there is a fault, it answers this
 * fault, and every later piece is answered so too, or LT_MEMORY: whatever comes after does not change it. The fault of a line
 * is found at the latest with the piece that ends the line: no contract says that, a test does. If an allocation fails, the
 * check is over: it answers LT_MEMORY from then on.
 *
 * Refuses: LT_CLOSED.
 */
uint32_t lt_check_piece(struct lt_text_check *check, const uint8_t *piece, size_t len);

/*
 * Ends the check, which is then closed, and says of the whole text what lt_check says: the same code and the same report.
 * After LT_MEMORY the report is as it was. Texts of 2^64 - 8 bytes or more are not
 * spoken of.
 *
 * Refuses: LT_CLOSED.
 */
uint32_t lt_check_end(struct lt_text_check *check, struct lt_report *report);

/*
 * THE SHARED TABLE. Threads share it without a mutex of their own. Each caller has a pass, in a handle of its own. No call
 * blocks. A key step enters the shard of its key, which is the one that lt_shard_of names. If another caller is in that shard,
 * the call answers LT_BUSY and has not made the step: call again, after a pause if it comes often.
 *
 * What a caller owes a handle stands at the head of this file. Calls on different handles need no order, and a handle may go from
 * thread to thread between two calls. A thread that ends inside a call leaves the shard taken: every later step there answers
 * LT_BUSY.
 *
 * WHAT IS PROVED. Each function names the clauses of its contract (crates/lt_c/src). Together they say of every schedule:
 *
 *   - A step that a call reports stands in the history that the call's pass has seen: with its key, its call and its reply, and
 *     after all that the pass had seen before (`made`, `scanned`, `left`, `looked`).
 *   - This history is legal (`legal`). So no key has two holders in it (docs/PROOFS.md, "Before a close").
 *   - A request that waited goes on only if a step in that history let it through (`scanned`, `polled`).
 *
 * docs/PROOFS.md says what follows of all callers together if one legal history extends what each pass has seen. The end of a
 * table gives such a history, of the passes that came back (lt_shared_end). That a pass comes back as it was when its caller gave
 * it back, no clause says: its seat forgets what it has seen. While the table is open no clause gives such a history
 * (docs/ARCHITECTURE.md, "The growing history"). Nothing promises that a call is not refused with LT_BUSY again and again, or that
 * a caller is told of each let. The clauses also allow LT_LOST where they allow LT_BUSY: that no table answers it is not proved.
 *
 * THE LIFE OF A REQUEST. A pass names keys (lt_pass_want) and enters (lt_pass_enter): the request draws a number, and the
 * smaller number goes first. A scan (lt_pass_scan) visits the keys in order:
 *
 *   LT_PROCEED         no conflict at any key: take the locks that the transaction needs (lt_pass_acquire), then leave
 *   LT_RESCAN          it waited on the way: scan once more
 *   LT_WAITING         it is queued at the key with this index: wait until a poll answers LT_LET_THROUGH, then scan again
 *   LT_QUEUE_TOO_LONG  there are as many writers as its bound: leave, or scan again later
 *   LT_WAITS_OUT       it has begun as many waits as it may: leave
 *   LT_BUSY            scan again: it goes on at the key where it was
 *
 * At its end the transaction finishes each lock that it holds (lt_pass_finish), through a pass or through a request.
 *
 * THE PROTOCOL OF A REQUEST. Nothing checks these rules. Whoever breaks one breaks no contract of this file, but callers may then
 * wait for ever. threads.c keeps all of them, with waits by polls, by a futex and by a condition variable.
 *
 *   1. A scan that proceeds holds nothing. The acquires come next, and are part of the same step of the walk: if one answers
 *      LT_OTHER, another transaction came first, and the request scans again.
 *   2. A let is not a lock. It ends one wait, so whoever is let through scans again, and may have to wait again.
 *   3. Whoever gives up leaves, and wakes those whom the leave lets through (rule 5). A request leaves on every path, because
 *      those queued after it wait until it does.
 *   4. Register before the table is left. Whoever sleeps announces it before the scan or the poll that may answer LT_WAITING:
 *      what a waker writes after that scan or poll must keep the sleeper awake.
 *   5. Wake after the call. After each acquire, update, finish and leave, also one that answers LT_BUSY, ask lt_pass_let of the
 *      same handle until it answers LT_NO_LET, and wake the callers of the passes that the lets name. Whoever is woken polls.
 *   6. Whoever scans again first frees the locks that he holds, or the program finds deadlocks: a holder that waits for a
 *      reservation, whose owner waits for the held lock, waits for ever.
 *
 * That a later wait of a request has a greater number, and that a request visits its keys in one order, is the library's part.
 */

/* A table that threads share. All zero is a closed one. */
struct lt_shared {
    bool is_open;
    void *at;
};

/* A pass of a shared table, or the request that has it. All zero is a closed one. */
struct lt_pass {
    bool is_open;
    void *at;
};

/* Steps of one shard of a shared table, in order. All zero is a closed handle. */
struct lt_steps {
    bool is_open;
    void *at;
};

/* The numbers with which a shared table is opened. */
struct lt_config {
    size_t shards;         /* 1 to 64: at most so many steps are made at once */
    size_t passes;         /* 1 to 1024: at most so many callers */
    uint64_t max_requests; /* 1 to 2^40 - 1: at most so many requests enter */
    uint32_t max_waits;    /* 1 to 2^24 - 1: a request begins at most so many waits, and makes no visit after the last one */
};

/* How a shared table keeps its steps. */
enum lt_way {
    LT_KEEP_NONE = 0,   /* not at all */
    LT_KEEP_TAKEN = 1,  /* each step until it is taken out (lt_pass_take), or until the end */
    LT_KEEP_WHOLE = 2   /* each step until the end */
};

struct lt_keeping {
    uint64_t max_steps; /* 1 to 2^32: a shard holds at most so many at a time */
    uint32_t way;       /* one of enum lt_way */
};

/* What a request asks for beside its keys. */
struct lt_terms {
    uint64_t txn;     /* its transaction, or 0 for none */
    uint64_t wall;    /* its timestamp */
    uint32_t logical;
    uint32_t longest; /* the bound on the writers, or 0 for none */
};

/*
 * Opens a table that stores no step. Draw `start` as for lt_table_open. It takes 16 bytes for each pair of passes, for their
 * lets: 16 MiB for 1,024 passes.
 *
 * Answers LT_DONE, or refuses, in this order: LT_OPEN_ALREADY, LT_BAD_SHARDS, LT_BAD_PASSES, LT_BAD_REQUESTS, LT_BAD_WAITS,
 * LT_MEMORY. A refused call leaves the handle closed.
 *
 * Proved: it refuses so and in this order (`open_already`, `refused`); once it is done, the table has these numbers, stores no
 * step, and has all of its passes, of which nobody has used any and each keeps the lets of its steps (`opened`); a refused call
 * has not changed the handle (`kept`).
 */
uint32_t lt_shared_open(struct lt_shared *table, const struct lt_config *config, uint64_t start);

/*
 * The same for a table that keeps its steps in this way. A step that is kept takes 80 bytes, and more if it has lets or a key of
 * more than 22 bytes. In a table that keeps steps, each step may be refused with LT_MEMORY, and with LT_HISTORY_FULL if its shard
 * holds as many steps as it may.
 *
 * Answers LT_DONE, or refuses, in this order: LT_OPEN_ALREADY, LT_BAD_KEEPING, LT_BAD_SHARDS, LT_BAD_PASSES, LT_BAD_STEPS,
 * LT_BAD_REQUESTS, LT_BAD_WAITS, LT_MEMORY. A refused call leaves the handle closed.
 *
 * Proved: as of lt_shared_open; the table keeps its steps in this way (`opened`).
 */
uint32_t lt_shared_open_keeping(struct lt_shared *table, const struct lt_config *config, const struct lt_keeping *keeping,
                                uint64_t start);

/*
 * Gives the table's next pass out, to a closed handle.
 *
 * Answers LT_DONE, or refuses, in this order: LT_OPEN_ALREADY (the pass is open), LT_CLOSED (the table is not), LT_NO_PASS (all
 * passes were given out, and none of them is given out again), LT_MEMORY.
 *
 * Proved: it refuses so and in this order (`open_already`, `refused`); a pass that is given out is one of those that the table
 * had left, goes from that list, and names no key (`given`); a refused call has changed neither handle (`kept`).
 */
uint32_t lt_shared_pass(struct lt_shared *table, struct lt_pass *pass);

/*
 * Closes the handle of the table, or of a pass. The table is freed with the last of its handles: they may be closed in any
 * order. A request that was entered and has not left stays in its queues for ever, and what it has reserved stays reserved, so it
 * leaves first. A lock that a transaction holds stays held: another pass may finish it. Each of the two functions closes either
 * kind of handle.
 *
 * Answers LT_DONE, or refuses: LT_CLOSED.
 *
 * Proved: the handle of a shared table, of a pass or of a request is closed afterwards (`done`); any other is refused and has not
 * changed (`closed`).
 */
uint32_t lt_shared_close(struct lt_shared *table);
uint32_t lt_pass_close(struct lt_pass *pass);

/*
 * Adds a key to those that the next request of the pass names, to read or to write. A request names 1 to 256 keys; a key that
 * is named twice is visited once, to write if it is named so.
 *
 * Answers LT_DONE, or refuses, in this order: LT_CLOSED (also while a request has the pass), LT_BAD_KEY_EMPTY, LT_BAD_KEY_LONG,
 * LT_BAD_KEY_BYTE, LT_MEMORY.
 *
 * Proved: it refuses so and in this order (`closed`, `refused`); once it is done, the pass names this key beside those before
 * (`wanted`); after a refusal the handle is as it was, but for the room that its pass has to name keys (`kept`).
 */
uint32_t lt_pass_want(struct lt_pass *pass, const uint8_t *key, size_t key_len, bool writes);

/*
 * The request with these keys enters. The handle is then the request's, until it has left. The call enters no shard.
 *
 * Answers LT_DONE, or refuses, in this order: LT_CLOSED (also while a request has the pass), LT_NO_KEYS, LT_TOO_MANY_KEYS; and
 * then LT_MEMORY or LT_NUMBERS_OUT. After a refusal the pass still names its keys, and no number was
 * drawn for it. (Proved is less: that the pass has made no step and is as it was, but after LT_NUMBERS_OUT it may have seen more.)
 *
 * Proved: the handle of a pass is not refused as closed (`opened`); a request that entered has the keys that were named, each
 * once and in order, these terms, and a number of at most `max_requests` that its pass has just drawn, and one that did not enter
 * has given its pass back with the keys, for the reason that the code names (`entered`); a handle that is refused as closed has
 * not changed (`kept`); what the pass has seen is legal (`legal`).
 */
uint32_t lt_pass_enter(struct lt_pass *pass, const struct lt_terms *terms);

/*
 * Visits the request's keys in order, from where the last scan ended. Sets `index` to the index of the key at which it waits
 * or at which the queue is too long, in the order of the request's keys (written ones first, each kind in byte order), and
 * otherwise to 0. A call that is refused as closed leaves `index` as it is
 * (`out_kept`).
 *
 * Answers LT_PROCEED, LT_RESCAN, LT_WAITING, LT_QUEUE_TOO_LONG, or refuses. Before any visit: LT_CLOSED, LT_LEAVING,
 * LT_STILL_WAITING. Before the next visit, while those that it has made stand: LT_WAITS_OUT, LT_BUSY, LT_MEMORY, LT_HISTORY_FULL.
 * After the last three the next scan goes on there. After LT_WAITS_OUT the request keeps its places, and leaves.
 *
 * Proved: the handle of a request is not refused as closed (`opened`), and any that is has not changed (`kept`). All else is in
 * `scanned`: the code and the index are those of one result; each visit was made in order and is reported; the scan ended as the
 * rules of a request say (docs/RULES.md, "A request"); a request that waited went on only if it was let through; the index of a
 * wait is that of a key of its list; a queue that was too long was so at that key; and the request keeps its keys, its number and
 * its pass. What the pass has seen is legal (`legal`).
 */
uint32_t lt_pass_scan(struct lt_pass *pass, size_t *index);

/*
 * Whether the request was let through: one load of a word. Enters no shard and allocates nothing.
 *
 * Answers LT_LET_THROUGH, LT_WAITING, LT_NOT_WAITING, or refuses: LT_CLOSED.
 *
 * Proved: the handle of a request is not refused as closed (`opened`), and any that is has not changed (`kept`); the code is what
 * the word says of the request's very wait, and if that is LT_LET_THROUGH, the pass has seen the step that let it through
 * (`polled`); what it has seen is legal (`legal`).
 */
uint32_t lt_pass_poll(struct lt_pass *pass);

/*
 * The request gives up its places and reservations. The handle is then the pass's again, which names no key.
 *
 * Answers LT_DONE, or refuses: LT_CLOSED, LT_BUSY. After LT_BUSY the leaves before it stand, a scan answers LT_LEAVING, and the
 * same call goes on at the key where it was. In a table that keeps no steps a leave is never refused for memory; another table may
 * answer LT_MEMORY and LT_HISTORY_FULL, which leave it as LT_BUSY does.
 *
 * Proved: the handle of a request is not refused as closed (`opened`), and any that is has not changed (`kept`); after LT_DONE a
 * leave was made and reported at each key that was left to leave, and after any other code at those up to the refused one, and
 * the code of a table that keeps no steps is neither LT_MEMORY nor LT_HISTORY_FULL (`left`); what the pass has seen is legal
 * (`legal`).
 */
uint32_t lt_pass_leave(struct lt_pass *pass);

/*
 * What the request finds at its key with this index. Sets `txn` as lt_table_look does. In a table that keeps no steps the call
 * allocates nothing.
 *
 * Answers the replies of lt_table_look, or refuses, in this order: LT_CLOSED, LT_BAD_INDEX; and then LT_BUSY, or, in a table that
 * keeps steps, LT_MEMORY or LT_HISTORY_FULL.
 *
 * Proved: it refuses so and in this order (`refused`), and never for memory if the table keeps no steps (`no_memory`); a look that
 * is answered is reported with the reply and the transaction of the code and of `txn` (`looked`); a refused call has changed
 * neither the handle nor `txn` (`kept`); what the pass has seen is legal (`legal`).
 */
uint32_t lt_pass_look(struct lt_pass *pass, size_t index, uint64_t *txn);

/*
 * The record of the key, and of its writers and its readers as many of the first as fit into each array: the writers in the
 * order of their numbers, the latest reader first. `out` says how many there are, which may be more. The rest of each array
 * stays as it was. The call goes through a pass or through a request, which stays as it is. It takes time and memory in
 * proportion to the key's queues, because it copies them in the shard.
 *
 * Answers LT_DONE, or refuses, in this order: LT_CLOSED, LT_BAD_KEY_EMPTY, LT_BAD_KEY_LONG, LT_BAD_KEY_BYTE; and then LT_BUSY or
 * LT_MEMORY.
 *
 * Proved: it refuses so and in this order (`refused`); the record is that of the key after steps of its shard that the pass has
 * then seen, and the arrays have the first of its queues (`shown`); a refused call has changed neither the handle (`kept`) nor
 * what it was to write (`out_kept`).
 */
uint32_t lt_pass_inspect(struct lt_pass *pass, const uint8_t *key, size_t key_len, struct lt_key *out,
                         struct lt_queued *writers, size_t writers_room, struct lt_queued *readers, size_t readers_room);

/*
 * The keys of the shard with this index that have a record, from the first one that comes after the key `after`, or from the
 * very first if `after_len` is 0: as lt_table_keys lists those of a table of one thread. The shards have the indices from 0 to
 * their number less 1. Each call lists the keys as of one moment, and two calls as of two. The call goes through a pass that has
 * no request. It is in the shard while it looks at all of the shard's keys.
 *
 * Answers LT_DONE, or refuses, in this order: LT_CLOSED, LT_BAD_SHARD, LT_BAD_KEY_LONG, LT_BAD_KEY_BYTE; and then LT_BUSY or
 * LT_MEMORY.
 *
 * Proved: it refuses so and in this order (`refused`); the keys are the first of those that have a record after the steps of the
 * shard that the pass has then seen (`listed`); a refused call has changed neither the handle (`kept`) nor what it was to write
 * (`out_kept`).
 */
uint32_t lt_pass_keys(struct lt_pass *pass, size_t shard, const uint8_t *after, size_t after_len, struct lt_key_name *array,
                      size_t room, size_t *count);

/*
 * The steps of a transaction, as those of the table of one thread, through a pass or through a request, which stays as it is.
 *
 * Answer the replies of lt_table_acquire, lt_table_update and lt_table_finish, or refuse, in this order: LT_BAD_TXN, LT_CLOSED,
 * LT_BAD_KEY_EMPTY, LT_BAD_KEY_LONG, LT_BAD_KEY_BYTE; and then LT_BUSY, LT_MEMORY or, in a table that keeps steps, LT_HISTORY_FULL.
 * A refused call has made no step (the handle is as it was, and that is proved).
 * In a table that keeps no steps, and with a key of at most 22 bytes, an update and a finish are never refused for memory.
 *
 * Proved: they refuse so and in this order (`refused`), and there update and finish not for memory (`gives_up`); a
 * step that is answered was made at this key and is reported with the reply of the code, and the request stays as it is
 * (`made`); a refused call has not changed the handle (`kept`); what the pass has seen is legal (`legal`).
 */
uint32_t lt_pass_acquire(struct lt_pass *pass, const uint8_t *key, size_t key_len, const struct lt_txn *by);
uint32_t lt_pass_update(struct lt_pass *pass, const uint8_t *key, size_t key_len, const struct lt_txn *by);
uint32_t lt_pass_finish(struct lt_pass *pass, const uint8_t *key, size_t key_len, uint64_t txn);

/*
 * Takes out a let that a call of this pass or its request has made, and that it was not told yet: the number and the wait of the
 * request that was let through, and the number of its pass, in no promised order. Rule 5 says when to ask, and whom to wake. If a
 * pass was let through twice before you asked, you are told its latest let. Lets that are left when the handle is closed are told
 * to nobody. The call enters no shard and allocates nothing.
 *
 * Answers LT_DONE, or LT_NO_LET if none is left, or refuses: LT_CLOSED.
 *
 * Proved: the handle of a pass or a request is not refused as closed, and any other is (`opened`, `closed`); what is told is a let
 * that was left, which is then left no more, and LT_NO_LET is answered only if none was (`tells`); unless it is done, the call has
 * changed neither the handle nor `through` (`kept`). Each let of a reported step is left to be told: of each pass the latest one
 * (the law `lets_are_left`). So whoever asks until LT_NO_LET forgets nobody.
 */
uint32_t lt_pass_let(struct lt_pass *pass, struct lt_through *through);

/*
 * The number of the pass, from 1, that the handle holds, or whose request it holds; or 0 if it holds neither. A let names it.
 *
 * Proved: it is this number (`number`), and the call has not changed the handle (`same`).
 */
uint32_t lt_pass_number(struct lt_pass *pass);

/*
 * THE HISTORY OF A SHARED TABLE. A table that keeps its steps gives them to a struct lt_steps: of a shard while it runs
 * (lt_pass_take), or at its end. The end needs all passes back: each caller gives his pass back (lt_pass_back), and one caller
 * then ends the table. A pass whose handle was closed instead does not come back, and the table then has no end.
 */

/*
 * Gives the pass back to its table, and closes the handle. A request leaves first. It allocates nothing.
 *
 * Answers LT_DONE, or refuses: LT_CLOSED (also while a request has the pass).
 *
 * Proved: the handle of a pass is closed by it, unless the answer is LT_LOST (`refused`, `done`), which no pass of a table is
 * answered, but that is not proved; any other handle is refused (`refused`, `closed`); a refused call has not changed the handle
 * (`kept`).
 */
uint32_t lt_pass_back(struct lt_pass *pass);

/* What an end tells. */
struct lt_end {
    uint64_t draws;    /* after LT_DONE: how many request numbers were drawn */
    size_t passes_out; /* after LT_PASSES_OUT: how many passes are out */
    size_t shard;      /* after LT_MISCOUNT: the first shard whose steps are not those of the passes */
};

/*
 * Ends the table. All of its passes have to be back, or never given out. The handle then holds what is left of each shard.
 *
 * Answers LT_DONE, or refuses, in this order: LT_CLOSED, LT_PASSES_OUT, LT_MEMORY, LT_BUSY (another handle is just giving its pass
 * back: call again). The clauses also allow LT_MISCOUNT and LT_LOST, which no table answers; that is not proved. After any of
 * these but LT_LOST the table is as it was. After LT_MEMORY it may be that it gives no pass out any more.
 *
 * Proved: it refuses so, as a closed handle before all else (`refused`); once it is done (`ended`), the table was ended with passes
 * of its own, at least as many as it has; each shard has a final history, which is legal at each key and has as many steps as
 * these passes made there; what is left is this history from some index on: from 0 if the table kept its steps whole, from as many
 * steps on as these passes took out if it kept them until then, and no step if it kept none; one legal history of all shards
 * extends what each of these passes had seen, and its draws are those that are told; each let of the final histories was shown to
 * the pass that waited. This is the end that the main theorem of docs/PROOFS.md begins with. After a refusal the table and its
 * passes are as they were (`kept`); after LT_LOST the handle is closed (`lost`).
 */
uint32_t lt_shared_end(struct lt_shared *table, struct lt_end *end);

/*
 * Gives what the end left of the shard with this index, from 0, to a closed handle. A later call for the same shard gives no step.
 *
 * Answers LT_DONE, or refuses, in this order: LT_OPEN_ALREADY (`steps` is open), LT_CLOSED (the table has not ended),
 * LT_BAD_SHARD, LT_MEMORY.
 *
 * Proved: it refuses so and in this order (`open_already`, `refused`); it gives what was left of this shard, of which then nothing
 * is left, and changes nothing of the others (`given`); a refused call has changed neither handle (`kept`).
 */
uint32_t lt_shared_rest(struct lt_shared *table, size_t shard, struct lt_steps *steps);

/*
 * Takes the steps out that the shard with this index holds, through a pass that has no request, and puts them into a closed handle.
 * The table keeps them until they are taken: LT_KEEP_TAKEN. A table that keeps none gives none. Each step is given once.
 *
 * Answers LT_DONE, or refuses, in this order: LT_OPEN_ALREADY (`steps` is open), LT_CLOSED, LT_BAD_SHARD, LT_KEPT_WHOLE, LT_MEMORY,
 * LT_BUSY.
 *
 * Proved: it refuses so and in this order up to LT_KEPT_WHOLE (`open_already`, `refused`); the steps are all of the shard's from
 * some index on in what the pass has then seen, and this index is where the takes before it ended (`taken`); so the pieces that one
 * reader takes are the shard's history, without a gap and with no step twice; a refused call has not changed the handles (`kept`,
 * `out_kept`), but after LT_LOST, which no table answers, the pass may have noted a take (`lost`).
 */
uint32_t lt_pass_take(struct lt_pass *pass, size_t shard, struct lt_steps *steps);

/* A call of a step. What it does not name is 0. */
struct lt_call {
    uint64_t number;   /* visit, leave, look: the request */
    uint64_t txn;      /* visit, acquire, update, finish: the transaction */
    uint64_t wall;     /* visit, acquire, update: the timestamp */
    uint32_t logical;
    uint32_t wait;     /* visit: the number of the wait that it may begin */
    uint32_t longest;  /* visit: the bound on the writers */
    uint32_t kind;     /* 1 visit, 2 acquire, 3 update, 4 finish, 5 leave, 6 look */
    bool writes;       /* visit */
};

/* A step: the pass made the call at the key, and was given the reply. */
struct lt_step {
    struct lt_key_name key;
    struct lt_call call;
    uint32_t pass;
    uint32_t reply;     /* its code, from LT_FIRST_REPLY on */
    uint64_t reply_txn; /* the transaction that the reply names, or 0 */
    size_t lets;        /* how many requests it let through */
};

/*
 * How many steps the handle holds, and how many steps of their shard were made before them.
 *
 * Answers LT_DONE, or refuses: LT_CLOSED. Proved: these are the numbers (`counted`), it refuses so (`refused`), and has then
 * written nothing (`out_kept`); the handle has not changed (`same`).
 */
uint32_t lt_steps_count(struct lt_steps *steps, uint64_t *from, size_t *count);

/*
 * The step at this place, from 0, and of its lets as many of the first as fit into the array. `step` says how many there are. The
 * rest of the array stays as it was. The call allocates nothing.
 *
 * Answers LT_DONE, or refuses, in this order: LT_CLOSED, LT_BAD_INDEX.
 *
 * Proved: this is the step with its key, call, pass and reply, and these are its lets (`shown`); it refuses so and in this order
 * (`refused`), and has then written nothing (`out_kept`); the handle has not changed (`same`).
 */
uint32_t lt_steps_at(struct lt_steps *steps, size_t place, struct lt_step *step, struct lt_through *lets, size_t room);

/*
 * The line of the step at this place, with its line end: as many of its bytes as fit, and how many there are. With `index` 0 it is
 * a line of a trace, for `locktrace sort`. Otherwise it is a line of a text of histories, for lt_check: the first line of such a
 * text is "locks 2", the keys rise, and the steps of each key are counted from 1 (docs/FORMATS.md).
 *
 * Answers LT_DONE, or refuses, in this order: LT_CLOSED, LT_BAD_INDEX, LT_MEMORY.
 *
 * Proved: these are the bytes of the line of this step with this index (`lined`); it refuses so and in this order (`refused`), and
 * has then written nothing (`out_kept`); the handle has not changed (`same`).
 */
uint32_t lt_steps_line(struct lt_steps *steps, size_t place, uint64_t index, uint8_t *bytes, size_t room, size_t *count);

/*
 * Drops the steps, and closes the handle. Answers LT_DONE, or refuses: LT_CLOSED.
 *
 * Proved: a handle of steps is closed afterwards (`done`); any other is refused and has not changed (`closed`).
 */
uint32_t lt_steps_close(struct lt_steps *steps);

/* The version of the library, counted as LT_VERSION is. */
uint32_t lt_version(void);

#ifdef __cplusplus
}
#endif

#endif
