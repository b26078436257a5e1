/*
 * The protocol in the head of src/sync/mod.rs, at one key: can a wake-up or the lock get lost?
 *
 *     ./run        checks every interleaving, and then expects an error of each fault below
 *
 * Three transactions lock the key. Transaction 1, the oldest, and 3 do so once and wait for ever. Transaction 2 does so
 * twice, and may give up each time: at a deadline, or because it was doomed. The table's rules are those of
 * docs/RULES.md for writers with a transaction. A statement that touches the table is one step under the mutex.
 *
 * The checker reports an error if
 *   - two transactions have the lock at one time, or one goes on without it;
 *   - a wait ends that no step has let through;
 *   - a transaction sleeps for ever: an invalid end state;
 *   - at the end the key is locked, reserved or waited for.
 *
 * -DFAULT=n breaks a rule:
 *   1  rule 1: a visit and its acquire are two critical sections
 *   2  rule 2: a let is taken for the lock
 *   3  rule 3: whoever gives up does not leave
 *   4  rule 3: whoever leaves does not wake the next one
 *   5  rule 4: a waiter is registered after the mutex is free
 *   6  rule 5: a wake-up is dropped
 *   7  rule 6: each wait has the number 1
 */
#ifndef FAULT
#define FAULT 0
#endif
#define N 3

/* The record of the key. 0 is nobody. An inactive writer is queued and does not wait. */
byte holder, reserved;
bool queued[N + 1], waits[N + 1];

/* The shard's mutex, and under it the waits that are registered, by their number. */
bool mutex;
byte registered[N + 1];

/* The waiter of each transaction: the greatest wait that was let through, and whether it is doomed. */
byte through[N + 1];
bool doomed[N + 1];

/* For the assertions alone: how many waits each has begun, and which of them a step has let through. */
byte begun[N + 1], let_through[N + 1];
byte inside, ended;

#define LOCK atomic { !mutex -> mutex = true }
#define UNLOCK mutex = false

/* The lock has lost its holder or its reservation: it is reserved for the first writer. If that one waits, it is let through,
   and whoever makes the step takes its wait out of the register, to wake it later. */
inline free_key() {
    if
    :: queued[1] -> reserved = 1
    :: !queued[1] && queued[2] -> reserved = 2
    :: !queued[1] && !queued[2] && queued[3] -> reserved = 3
    :: else -> reserved = 0
    fi;
    woken = 0;
    if
    :: reserved != 0 ->
        queued[reserved] = false;
        if
        :: waits[reserved] ->
            waits[reserved] = false;
            let_through[reserved] = begun[reserved];
            if
            :: registered[reserved] != 0 -> woken = reserved; woken_wait = registered[reserved]; registered[reserved] = 0
            :: else
            fi
        :: else
        fi
    :: else
    fi
}

inline wake() {
    if
    :: woken != 0 ->
#if FAULT == 6
        if
        :: true
        :: through[woken] = (through[woken] > woken_wait -> through[woken] : woken_wait)
        fi;
#else
        through[woken] = (through[woken] > woken_wait -> through[woken] : woken_wait);
#endif
        woken = 0
    :: else
    fi
}

inline acquire(me) {
    if
    :: reserved != 0 && reserved != me -> queued[reserved] = true; waits[reserved] = false
    :: else
    fi;
    reserved = 0;
    queued[me] = false;
    waits[me] = false;
    holder = me
}

proctype transaction(byte me; byte tries; bool gives_up) {
    byte wait, woken, woken_wait;
    bool passed;

    do
    :: tries == 0 -> break
    :: else ->
        tries--;
visit:
        LOCK;
        d_step {
            passed = holder == 0 && (reserved == 0 || reserved >= me);
            if
#if FAULT != 1
            :: passed -> acquire(me)
#else
            :: passed
#endif
            :: else ->
                queued[me] = true;
                waits[me] = true;
                begun[me]++;
#if FAULT == 7
                wait = 1;
#else
                wait = begun[me];
#endif
#if FAULT != 5
                registered[me] = wait
#endif
            fi
        };
        UNLOCK;
        if
        :: passed ->
#if FAULT == 1
            LOCK;
            d_step { acquire(me) };
            UNLOCK;
#endif
            goto locked
        :: else
        fi;
#if FAULT == 5
        LOCK;
        registered[me] = wait;
        UNLOCK;
#endif
        if
        :: doomed[me] -> goto give_up
        :: !doomed[me] && through[me] >= wait ->
            assert(let_through[me] == begun[me]);
#if FAULT == 2
            goto locked
#else
            goto visit
#endif
        :: gives_up -> goto give_up
        fi;
locked:
        inside++;
        assert(inside == 1);
        inside--;
        LOCK;
        d_step {
            assert(holder == me);
            holder = 0;
            free_key()
        };
        UNLOCK;
        wake();
        goto next;
give_up:
#if FAULT != 3
        LOCK;
        d_step {
            registered[me] = 0;
            woken = 0;
            if
            :: reserved == me -> free_key()
            :: else -> queued[me] = false; waits[me] = false
            fi
        };
        UNLOCK;
#if FAULT != 4
        wake();
#endif
#endif
        doomed[me] = false;
next:
        skip
    od;
    ended++
}

init {
    atomic {
        run transaction(1, 1, false);
        run transaction(2, 2, true);
        run transaction(3, 1, false)
    };
    if
    :: doomed[2] = true
    :: true
    fi;
    ended == N;
    assert(holder == 0 && reserved == 0);
    assert(!queued[1] && !queued[2] && !queued[3]);
    assert(registered[1] == 0 && registered[2] == 0 && registered[3] == 0)
}
