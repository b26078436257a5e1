// Package locktable is a lock table that goroutines share and wait at.
//
// A transaction locks keys, which are strings of any bytes, and holds them until it is released. If a key is locked, the
// call blocks, or gives up when its context is done. Transactions go in the order in which they began: the oldest waiter is
// next. Locks are exclusive; a reader waits only for locks at or below its timestamp.
//
// # What stands behind it
//
// A key has one shard, chosen by a hash with a random seed. A shard is a table of bindings/c/locktable.h behind a mutex.
// That table is proved: who waits, who is let through, and in which order. This package is not: it wakes those who were let
// through. It is tested. The proved check judges the key steps of a run (Options.Sink, Check), and not whether everybody
// was woken.
//
// # The protocol
//
// It is that of the Rust module locktable::sync, whose head tells its six rules. Here: a visit and its acquire are one
// critical section (Txn.visitAnd); whoever is let through visits again (Txn.work); whoever gives up leaves, and the lets of
// that leave are woken too (Txn.leave); a waiter is registered before the mutex comes free (shard.step); waking comes after
// (Locks.at); wait numbers rise (Txn.visitAnd).
//
// # Memory
//
// ErrMemory comes if an allocation of the archive fails. Nothing that gives a lock up fails: it calls again until memory
// suffices. If Go itself runs out of memory, the process ends.
package locktable

import (
	"context"
	"crypto/rand"
	"encoding/binary"
	"errors"
	"fmt"
	"hash/maphash"
	"sync"
	"sync/atomic"
)

// Why a lock was not given, or a transaction not begun. The transaction then waits nowhere, and holds what it held before.
var (
	// ErrDoomed: somebody called Locks.Doom on the transaction.
	ErrDoomed = errors.New("the transaction was doomed")
	// ErrQueueFull: at least as many writers as Options.Longest wait for the key.
	ErrQueueFull = errors.New("too many writers wait for the key")
	// ErrMemory: an allocation of the archive failed.
	ErrMemory = errors.New("the lock table has no memory")
	// ErrClosed: somebody called Locks.Close.
	ErrClosed = errors.New("the lock table is closed")
	// ErrReleased: the transaction has ended.
	ErrReleased = errors.New("the transaction was released")
	// ErrNumbersOut: the table has begun 2^40 - 1 transactions, or the transaction 2^24 - 1 waits.
	ErrNumbersOut = errors.New("no number is left for a transaction or a wait")
)

// A GaveUpError says that the context was done before the transaction had the lock. It unwraps to the error of the context.
type GaveUpError struct {
	WaitedFor uint64 // which transaction held the lock then, or had it reserved; 0 if the call did not wait for one
	Err       error  // context.Canceled or context.DeadlineExceeded
}

func (e *GaveUpError) Error() string {
	if e.WaitedFor == 0 {
		return "gave up: " + e.Err.Error()
	}
	return fmt.Sprintf("gave up waiting for transaction %d: %v", e.WaitedFor, e.Err)
}

func (e *GaveUpError) Unwrap() error { return e.Err }

// gaveUp is an error exactly if the context is done.
func gaveUp(ctx context.Context) error {
	if err := ctx.Err(); err != nil {
		return &GaveUpError{Err: err}
	}
	return nil
}

// Options say how a table is opened. The zero value has 64 shards, no bound on queues and no sink.
type Options struct {
	// How many shards the table has; 0 is taken as 64. Each has a mutex and a table of its own, so take a few for each
	// processor.
	Shards int
	// The bound on the writers that wait for a key, or 0 for none.
	Longest uint32
	// Is told each step, under the mutex of the step's shard: those of one key in their order, those of different shards at
	// the same time. It must be quick, and must not call the table or end its goroutine. If it panics, its shard tells it nothing more.
	Sink func(Step)
}

// An Edge is a transaction that waits, and for whom.
type Edge struct {
	Waiter        uint64
	Wait          uint32 // the number of its wait; the next wait of the transaction has a greater one
	Key           string // the key of the table (Locks.TableKey)
	WaitsFor      uint64
	Held          bool // whether that transaction holds the lock; otherwise the lock is reserved for it
	Distinguished bool // whether the waiter is the one of the key's waiters that has to push
}

// Locks is a lock table that goroutines share. Any goroutine may call it, and many may at once.
type Locks struct {
	longest uint32
	start   start
	shards  []shard
	live    [16]liveWaiters
	begun   atomic.Uint64
	_       line
}

// liveWaiters are those of some of the transactions that have not ended, so that those that begin and end at once mostly have
// different mutexes.
type liveWaiters struct {
	mu      sync.Mutex
	waiters map[uint64]*waiter // nil once the table is closed
	_       line
}

// A line is behind what goroutines write to, so that neighbours share no line of the cache and do not slow one another down.
// Processors fetch lines of 64 bytes in pairs.
type line [128]byte

// liveOf is where the waiter of a transaction is.
func (l *Locks) liveOf(txn uint64) *liveWaiters { return &l.live[txn%uint64(len(l.live))] }

// A shard is a table, who waits in it, and whom its steps let through. All of it is used under the mutex.
type shard struct {
	mu      sync.Mutex
	index   int
	table   table
	sink    func(Step)
	waiting map[uint64]waiting // by transaction: it waits at one key at a time
	woken   []waiting
	_       line
}

type waiting struct {
	wait   uint32
	key    string
	waiter *waiter
}

// Open opens an empty table. Its memory is that of C until Close. The error is ErrMemory, or says that the system has no
// random bytes.
func Open(options Options) (*Locks, error) {
	many := options.Shards
	if many < 1 {
		many = 64
	}
	start, err := newStart()
	if err != nil {
		return nil, err
	}
	l := &Locks{longest: options.Longest, start: start, shards: make([]shard, many)}
	for i := range l.live {
		l.live[i].waiters = map[uint64]*waiter{}
	}
	for i := range l.shards {
		s := &l.shards[i]
		s.index, s.sink, s.waiting = i, options.Sink, map[uint64]waiting{}
		var word [8]byte
		if _, err = rand.Read(word[:]); err == nil {
			err = s.table.open(binary.LittleEndian.Uint64(word[:]))
		}
		if err != nil {
			l.Close()
			return nil, err
		}
	}
	return l, nil
}

// Close closes the table and frees its memory, also if keys are locked. Whoever waits gets ErrClosed, and so does each later
// call that answers an error; the other calls then do nothing.
func (l *Locks) Close() error {
	for i := range l.live {
		live := &l.live[i]
		live.mu.Lock()
		waiters := live.waiters
		live.waiters = nil
		live.mu.Unlock()
		if waiters == nil {
			return ErrClosed
		}
		for _, w := range waiters {
			w.close()
		}
	}
	for i := range l.shards {
		s := &l.shards[i]
		s.mu.Lock()
		s.table.close()
		s.waiting = nil
		s.mu.Unlock()
	}
	return nil
}

// Begin begins a transaction. Its number is its age: where several wait, the one that began first goes first. The error is
// ErrClosed or ErrNumbersOut.
func (l *Locks) Begin(ts Timestamp) (*Txn, error) {
	id := l.begun.Add(1)
	if id >= 1<<40 {
		return nil, ErrNumbersOut
	}
	t := &Txn{locks: l, id: id, ts: ts, waiter: newWaiter()}
	live := l.liveOf(id)
	live.mu.Lock()
	defer live.mu.Unlock()
	if live.waiters == nil {
		return nil, ErrClosed
	}
	live.waiters[id] = t.waiter
	return t, nil
}

// Doom dooms a transaction: its wait ends with ErrDoomed, and so does each later call by which it would lock or read, until
// Txn.Restart. It keeps its locks until then, or until it is released. It answers whether there is such a transaction.
func (l *Locks) Doom(txn uint64) bool {
	live := l.liveOf(txn)
	live.mu.Lock()
	w := live.waiters[txn]
	live.mu.Unlock()
	if w != nil {
		w.doom()
	}
	return w != nil
}

// Edges tells who waits for whom, in no order. The shards are asked one after the other, so a cycle of edges may never have
// been there at one time. It is a deadlock if the next call gives each edge of it again, with the same Edge.Wait.
func (l *Locks) Edges() ([]Edge, error) {
	var all []Edge
	err := l.each(func(s *shard) error {
		for txn, it := range s.waiting {
			found, other := s.table.look(it.key, txn)
			if err := found.err(); err != nil {
				return err
			}
			held, first := found == firstHeld || found == waitForHeld, found == firstHeld || found == firstReserved
			if held || first || found == waitForReserved {
				all = append(all, Edge{txn, it.wait, it.key, other, held, first})
			}
		}
		return nil
	})
	return all, err
}

// Deadlocks finds who waits for one another in a cycle. A cycle has the edge of each of its transactions, from the youngest on,
// which is the one with the greatest number: Edge.WaitsFor is the Edge.Waiter of the next, and that of the last the youngest.
// The call asks for the edges twice, and answers the cycles whose waits went on in between. Call it from time to time and doom
// the youngest of each cycle: a deadlock ends once that transaction is restarted or released.
func (l *Locks) Deadlocks() ([][]Edge, error) {
	before, err := l.waits()
	if err != nil {
		return nil, err
	}
	now, err := l.waits()
	if err != nil {
		return nil, err
	}
	var all [][]Edge
	for txn := range before {
		if cycle := cycleFrom(txn, before); cycle != nil && goOn(cycle, now) {
			all = append(all, cycle)
		}
	}
	return all, nil
}

// waits has the edge of each transaction that waits, by its number. A transaction waits at one key at a time.
func (l *Locks) waits() (map[uint64]Edge, error) {
	edges, err := l.Edges()
	waits := make(map[uint64]Edge, len(edges))
	for _, edge := range edges {
		waits[edge.Waiter] = edge
	}
	return waits, err
}

// cycleFrom is the cycle whose youngest transaction is this one, or nil.
func cycleFrom(youngest uint64, waits map[uint64]Edge) (cycle []Edge) {
	for next := youngest; len(cycle) < len(waits); {
		edge, isWaiting := waits[next]
		if !isWaiting || next > youngest {
			return nil
		}
		cycle, next = append(cycle, edge), edge.WaitsFor
		if next == youngest {
			return cycle
		}
	}
	return nil
}

// goOn tells whether each wait of the cycle is among these, and is for the same transaction.
func goOn(cycle []Edge, waits map[uint64]Edge) bool {
	for _, edge := range cycle {
		now, isWaiting := waits[edge.Waiter]
		if !isWaiting || now.Wait != edge.Wait || now.WaitsFor != edge.WaitsFor {
			return false
		}
	}
	return true
}

// Keys are those of the table that are held, reserved or waited for, in the order of their bytes in each shard. The call
// sorts the keys of a shard under the mutex of that shard.
func (l *Locks) Keys() ([]string, error) {
	var all []string
	err := l.each(func(s *shard) (err error) {
		all, err = s.table.keys(all)
		return err
	})
	return all, err
}

// TableKey is the key of the table that stands for this string: the one that edges, Keys and steps name. Two strings share
// one only if both need more than 64 bytes in it, begin alike, and have one hash of 128 bits after a prefix that the table
// draws; they then share a lock.
func (l *Locks) TableKey(key string) string { return l.start.tableKey(key) }

func (l *Locks) each(look func(*shard) error) error {
	for i := range l.shards {
		s := &l.shards[i]
		s.mu.Lock()
		err := look(s)
		if s.table.at == nil {
			err = ErrClosed
		}
		s.mu.Unlock()
		if err != nil {
			return err
		}
	}
	return nil
}

// at makes a critical section of the key's shard. Whomever its steps let through is woken once the mutex is free.
func (l *Locks) at(key string, section func(*shard) code) code {
	s := &l.shards[maphash.String(l.start.seed, key)%uint64(len(l.shards))]
	s.mu.Lock()
	answer := section(s)
	woken := s.woken
	s.woken = nil
	s.mu.Unlock()
	for _, it := range woken {
		it.waiter.letThrough(it.wait)
	}
	return answer
}

// step makes a step, notes whom it lets through, and tells the sink. Whoever is told to wait is known here before the mutex
// comes free, and whoever leaves does not wait here any more.
func (s *shard) step(key string, call *call, w *waiter) code {
	answer, lets := s.table.step(key, call, len(s.waiting))
	if answer < firstReply {
		return answer
	}
	for _, let := range lets {
		if it, found := s.waiting[let.Txn]; found {
			s.woken = append(s.woken, it)
			delete(s.waiting, let.Txn)
		}
	}
	if answer == mustWait {
		s.waiting[call.txn] = waiting{call.wait, key, w}
	} else if call.kind == leave && s.waiting[call.txn].key == key {
		delete(s.waiting, call.txn)
	}
	if s.sink != nil {
		s.tell(Step{s.index, key, call.pass(), call.String(), replyWords[answer], lets})
	}
	return answer
}

func (s *shard) tell(step Step) {
	defer func() {
		if recover() != nil {
			s.sink = nil
		}
	}()
	s.sink(step)
}
