/* The rules of one key in plain C. The names are those of docs/RULES.md, and each part has the order of its table. */
#include "rules.h"
#include "locktable.h"

#include <string.h>

bool is_before(uint64_t wall, uint32_t logical, uint64_t other_wall, uint32_t other_logical) {
    return wall < other_wall || (wall == other_wall && logical < other_logical);
}

static void let_through(struct answer *answer, const struct request *request) {
    answer->let[answer->lets++] = (struct through){request->number, request->wait, request->pass};
}

/* THE QUEUES. */

size_t writer_of(const struct record *record, uint64_t number) {
    size_t i = 0;
    while (i < record->writers && record->writer[i].request.number != number) i++;
    return i;
}

size_t reader_of(const struct record *record, uint64_t number) {
    size_t i = 0;
    while (i < record->readers && record->reader[i].number != number) i++;
    return i;
}

static void insert_writer(struct record *record, size_t at, struct request request, bool active) {
    for (size_t i = record->writers++; i > at; i--) record->writer[i] = record->writer[i - 1];
    record->writer[at] = (struct writer){request, active};
}

static void remove_writer(struct record *record, size_t at) {
    record->writers--;
    for (size_t i = at; i < record->writers; i++) record->writer[i] = record->writer[i + 1];
}

static void insert_first_reader(struct record *record, struct request request) {
    for (size_t i = record->readers++; i > 0; i--) record->reader[i] = record->reader[i - 1];
    record->reader[0] = request;
}

static void remove_reader(struct record *record, size_t at) {
    record->readers--;
    for (size_t i = at; i < record->readers; i++) record->reader[i] = record->reader[i + 1];
}

/* SETTLE, AND A LOCK THAT COMES FREE. */

static bool is_reserved_for_txn(const struct record *record, uint64_t txn) {
    return record->is_reserved && txn != 0 && record->reservation.txn == txn;
}

static bool is_eligible_writer(const struct record *record, size_t i) {
    return record->writer[i].active && !is_reserved_for_txn(record, record->writer[i].request.txn);
}

static void settle(struct record *record) {
    if (record->distinguished != 0) {
        if (reader_of(record, record->distinguished) < record->readers) return;
        size_t i = writer_of(record, record->distinguished);
        if (i < record->writers && is_eligible_writer(record, i)) return;
    }
    record->distinguished = 0;
    if (record->readers > 0) {
        record->distinguished = record->reader[0].number;
        return;
    }
    for (size_t i = 0; i < record->writers; i++)
        if (is_eligible_writer(record, i)) {
            record->distinguished = record->writer[i].request.number;
            return;
        }
}

static void free_lock(struct record *record, struct answer *answer) {
    for (size_t i = 0; i < record->readers; i++) let_through(answer, &record->reader[i]);
    record->readers = 0;
    while (record->writers > 0 && record->writer[0].request.txn == 0) {
        let_through(answer, &record->writer[0].request);
        remove_writer(record, 0);
    }
    if (record->writers > 0) {
        record->is_reserved = true;
        record->reservation = record->writer[0].request;
        if (record->writer[0].active) let_through(answer, &record->reservation);
        remove_writer(record, 0);
    }
    settle(record);
}

/* A VISIT. */

static uint32_t wait_to_write(struct record *record, const struct call *call) {
    size_t at = writer_of(record, call->by.number);
    if (at < record->writers) {
        record->writer[at] = (struct writer){call->by, true};
        return LT_MUST_WAIT;
    }
    if (call->longest > 0 && record->writers >= call->longest) return LT_TOO_LONG;
    at = 0;
    while (at < record->writers && record->writer[at].request.number < call->by.number) at++;
    insert_writer(record, at, call->by, true);
    return LT_MUST_WAIT;
}

static uint32_t visit_held(struct record *record, const struct call *call) {
    if (call->by.txn != 0 && call->by.txn == record->holder) return LT_PASSED;
    if (call->writes) return wait_to_write(record, call);
    if (is_before(call->by.wall, call->by.logical, record->wall, record->logical)) return LT_PASSED;
    size_t at = writer_of(record, call->by.number);
    if (at < record->writers)
        record->writer[at] = (struct writer){call->by, true};
    else
        insert_first_reader(record, call->by);
    return LT_MUST_WAIT;
}

static uint32_t visit_reserved(struct record *record, const struct call *call) {
    if (!call->writes || record->reservation.number == call->by.number) return LT_PASSED;
    if (record->reservation.number < call->by.number) return wait_to_write(record, call);
    if (call->by.txn == 0) return LT_PASSED;
    insert_writer(record, 0, record->reservation, false);
    record->reservation = call->by;
    return LT_PASSED;
}

static uint32_t visit(struct record *record, const struct call *call) {
    size_t at = reader_of(record, call->by.number);
    if (at < record->readers) remove_reader(record, at);
    uint32_t code = LT_PASSED;
    if (record->holder != 0)
        code = visit_held(record, call);
    else if (record->is_reserved)
        code = visit_reserved(record, call);
    settle(record);
    return code;
}

/* THE OTHER CALLS. */

static uint32_t update(struct record *record, const struct call *call, struct answer *answer) {
    if (record->holder != call->by.txn) return LT_OTHER;
    if (!is_before(record->wall, record->logical, call->by.wall, call->by.logical)) return LT_KEPT;
    record->wall = call->by.wall;
    record->logical = call->by.logical;
    for (size_t i = 0; i < record->readers;)
        if (is_before(record->reader[i].wall, record->reader[i].logical, record->wall, record->logical)) {
            let_through(answer, &record->reader[i]);
            remove_reader(record, i);
        } else {
            i++;
        }
    settle(record);
    return LT_RAISED;
}

static uint32_t acquire(struct record *record, const struct call *call, struct answer *answer) {
    if (record->holder != 0) return update(record, call, answer);
    if (record->is_reserved && record->reservation.txn != call->by.txn)
        insert_writer(record, 0, record->reservation, false);
    record->is_reserved = false;
    record->holder = call->by.txn;
    record->wall = call->by.wall;
    record->logical = call->by.logical;
    for (size_t i = 0; i < record->writers;)
        if (record->writer[i].request.txn == call->by.txn) {
            if (record->writer[i].active) let_through(answer, &record->writer[i].request);
            remove_writer(record, i);
        } else {
            i++;
        }
    settle(record);
    return LT_TAKEN;
}

static uint32_t finish(struct record *record, const struct call *call, struct answer *answer) {
    if (record->holder != call->by.txn) return LT_OTHER;
    record->holder = 0;
    record->wall = 0;
    record->logical = 0;
    free_lock(record, answer);
    return LT_FREED;
}

static uint32_t leave(struct record *record, const struct call *call, struct answer *answer) {
    if (record->is_reserved && record->reservation.number == call->by.number) {
        record->is_reserved = false;
        free_lock(record, answer);
        return LT_LEFT;
    }
    size_t writer = writer_of(record, call->by.number), reader = reader_of(record, call->by.number);
    if (writer < record->writers)
        remove_writer(record, writer);
    else if (reader < record->readers)
        remove_reader(record, reader);
    else
        return LT_ABSENT;
    settle(record);
    return LT_LEFT;
}

uint32_t look(const struct record *record, uint64_t number, uint64_t *txn) {
    bool held = record->holder != 0;
    *txn = 0;
    size_t at = writer_of(record, number);
    if (record->is_reserved && record->reservation.number == number) return LT_RESERVED;
    if (at < record->writers && !record->writer[at].active) return LT_IDLE;
    if (at == record->writers && reader_of(record, number) == record->readers) return LT_NOTHING;
    *txn = held ? record->holder : record->reservation.txn;
    if (at < record->writers && is_reserved_for_txn(record, record->writer[at].request.txn)) return LT_WAIT_OWN;
    if (record->distinguished == number) return held ? LT_WAIT_FIRST_HELD : LT_WAIT_FIRST_RESERVED;
    return held ? LT_WAIT_FOR_HELD : LT_WAIT_FOR_RESERVED;
}

bool is_empty(const struct record *record) {
    return record->holder == 0 && !record->is_reserved && record->writers == 0 && record->readers == 0;
}

struct answer apply(struct record *record, const struct call *call) {
    struct answer answer;
    answer.txn = 0;
    answer.lets = 0;
    switch (call->kind) {
    case VISIT: answer.code = visit(record, call); break;
    case ACQUIRE: answer.code = acquire(record, call, &answer); break;
    case UPDATE: answer.code = update(record, call, &answer); break;
    case FINISH: answer.code = finish(record, call, &answer); break;
    case LEAVE: answer.code = leave(record, call, &answer); break;
    case LOOK: answer.code = look(record, call->by.number, &answer.txn); break;
    }
    return answer;
}
