#include "cases.h"
#include "locktable.h"

#include <stdio.h>
#include <stdlib.h>

#define AS_NAME(name) name,
#define AS_TEXT(name) #name,
enum rule_case { CASES(AS_NAME) HOW_MANY };
static const char *const texts[] = {CASES(AS_TEXT)};
static size_t met[HOW_MANY];

/* A write with a bound, at a key that has at least as many writers. */
static bool is_past_its_bound(const struct record *record, const struct call *call) {
    return call->writes && call->longest > 0 && record->writers >= call->longest;
}

static enum rule_case case_at_a_held_lock(const struct record *record, const struct call *call) {
    bool is_writer = writer_of(record, call->by.number) < record->writers;
    bool waits = is_writer || reader_of(record, call->by.number) < record->readers;
    if (call->by.txn != 0 && call->by.txn == record->holder) return VISIT_OF_THE_OWN_LOCK;
    if (!call->writes) {
        if (is_before(call->by.wall, call->by.logical, record->wall, record->logical)) return READ_BELOW_THE_LOCK;
        return waits ? READ_THAT_WAITS_ANEW : READ_THAT_WAITS;
    }
    if (is_past_its_bound(record, call))
        return is_writer ? WRITE_THAT_STANDS_PAST_ITS_BOUND : WRITE_TOO_LONG_AT_A_HELD_LOCK;
    return waits ? WRITE_THAT_WAITS_ANEW : WRITE_THAT_WAITS;
}

static enum rule_case case_at_a_reserved_lock(const struct record *record, const struct call *call) {
    if (!call->writes) return READ_OF_A_RESERVED_KEY;
    if (call->by.number == record->reservation.number) return WRITE_OF_THE_OWN_RESERVATION;
    if (call->by.number < record->reservation.number)
        return call->by.txn != 0 ? WRITE_BEFORE_THE_RESERVATION : WRITE_WITHOUT_A_TRANSACTION_BEFORE_THE_RESERVATION;
    if (!is_past_its_bound(record, call)) return WRITE_BEHIND_THE_RESERVATION;
    return writer_of(record, call->by.number) < record->writers
               ? WRITE_THAT_STANDS_PAST_ITS_BOUND_BEHIND_THE_RESERVATION
               : WRITE_TOO_LONG_BEHIND_THE_RESERVATION;
}

static enum rule_case case_of_a_visit(const struct record *record, const struct call *call) {
    if (record->holder != 0) return case_at_a_held_lock(record, call);
    return record->is_reserved ? case_at_a_reserved_lock(record, call) : VISIT_OF_A_FREE_KEY;
}

void count_look(uint32_t code) {
    switch (code) {
    case LT_NOTHING: met[LOOK_OF_NOBODY]++; break;
    case LT_RESERVED: met[LOOK_OF_THE_RESERVATION]++; break;
    case LT_IDLE: met[LOOK_OF_AN_INACTIVE_WRITER]++; break;
    case LT_WAIT_FOR_HELD: met[LOOK_FOR_A_HOLDER]++; break;
    case LT_WAIT_FOR_RESERVED: met[LOOK_FOR_A_RESERVATION]++; break;
    case LT_WAIT_FIRST_HELD: met[FIRST_LOOK_FOR_A_HOLDER]++; break;
    case LT_WAIT_FIRST_RESERVED: met[FIRST_LOOK_FOR_A_RESERVATION]++; break;
    case LT_WAIT_OWN: met[LOOK_FOR_THE_OWN_TRANSACTION]++; break;
    }
}

static void count_lets(const struct answer *answer, const struct record *after) {
    switch (answer->code) {
    case LT_FREED: met[LET_AT_A_FINISH]++; break;
    case LT_LEFT: met[LET_AT_A_LEAVE]++; break;
    case LT_TAKEN: met[LET_AT_AN_ACQUIRE]++; break;
    case LT_RAISED:
        met[LET_AT_A_RAISE]++;
        if (after->readers > 0) met[RAISE_THAT_LETS_SOME_READERS_WAIT]++;
        break;
    }
}

/* A lock came free: all readers are let through, then writers without a transaction, then perhaps the next one. */
static void count_release(const struct record *before, const struct answer *answer, const struct record *after) {
    size_t writers = answer->lets - before->readers;
    if (!after->is_reserved) {
        if (writers > 0) met[WRITERS_LET_THROUGH_AND_NONE_IS_NEXT]++;
        return;
    }
    bool next_is_let = writers > 0 && answer->let[answer->lets - 1].number == after->reservation.number;
    if (!next_is_let) met[IDLE_WRITER_IS_NEXT]++;
    if (writers > next_is_let) met[WRITERS_LET_THROUGH_BEFORE_THE_NEXT]++;
}

void count_cases(const struct record *before, const struct call *call, const struct answer *answer,
                 const struct record *after) {
    bool had_reservation = before->is_reserved && before->reservation.number == call->by.number;
    if (call->kind == LOOK) count_look(answer->code);
    if (call->kind == VISIT) met[case_of_a_visit(before, call)]++;
    if (answer->lets > 0) count_lets(answer, after);
    if (answer->code == LT_FREED || (answer->code == LT_LEFT && had_reservation)) count_release(before, answer, after);
}

size_t want_all_cases(void) {
    bool lacks = false;
    for (size_t i = 0; i < HOW_MANY; i++)
        if (met[i] == 0) {
            fprintf(stderr, "case %s: no random call met it\n", texts[i]);
            lacks = true;
        }
    if (lacks) exit(1);
    return HOW_MANY;
}
