/* Which cases of the rules of a key did a run meet? A case is a row of a table of docs/RULES.md, or a part of one. */
#ifndef CASES_H
#define CASES_H

#include "rules.h"

/* Every case, each once. */
#define CASES(with) \
    with(VISIT_OF_A_FREE_KEY) \
    with(VISIT_OF_THE_OWN_LOCK) \
    with(READ_BELOW_THE_LOCK) \
    with(READ_THAT_WAITS) \
    with(READ_THAT_WAITS_ANEW) \
    with(WRITE_THAT_WAITS) \
    with(WRITE_THAT_WAITS_ANEW) \
    with(WRITE_THAT_STANDS_PAST_ITS_BOUND) \
    with(WRITE_TOO_LONG_AT_A_HELD_LOCK) \
    with(READ_OF_A_RESERVED_KEY) \
    with(WRITE_OF_THE_OWN_RESERVATION) \
    with(WRITE_BEFORE_THE_RESERVATION) \
    with(WRITE_WITHOUT_A_TRANSACTION_BEFORE_THE_RESERVATION) \
    with(WRITE_BEHIND_THE_RESERVATION) \
    with(WRITE_THAT_STANDS_PAST_ITS_BOUND_BEHIND_THE_RESERVATION) \
    with(WRITE_TOO_LONG_BEHIND_THE_RESERVATION) \
    with(LOOK_OF_NOBODY) \
    with(LOOK_OF_THE_RESERVATION) \
    with(LOOK_OF_AN_INACTIVE_WRITER) \
    with(LOOK_FOR_A_HOLDER) \
    with(LOOK_FOR_A_RESERVATION) \
    with(FIRST_LOOK_FOR_A_HOLDER) \
    with(FIRST_LOOK_FOR_A_RESERVATION) \
    with(LOOK_FOR_THE_OWN_TRANSACTION) \
    with(LET_AT_A_FINISH) \
    with(LET_AT_A_LEAVE) \
    with(LET_AT_A_RAISE) \
    with(LET_AT_AN_ACQUIRE) \
    with(RAISE_THAT_LETS_SOME_READERS_WAIT) \
    with(WRITERS_LET_THROUGH_BEFORE_THE_NEXT) \
    with(WRITERS_LET_THROUGH_AND_NONE_IS_NEXT) \
    with(IDLE_WRITER_IS_NEXT)

/* Counts the cases of a call: the record before it, its answer, and the record after it. */
void count_cases(const struct record *before, const struct call *call, const struct answer *answer,
                 const struct record *after);

/* Counts the case of a look with this reply. */
void count_look(uint32_t code);

/* How many cases there are. Prints each that no call met, and then exits with status 1. */
size_t want_all_cases(void);

#endif
