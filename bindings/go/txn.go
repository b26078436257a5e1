package locktable

import (
	"context"
	"sort"
	"time"
)

// A Txn is a transaction. It holds what it locked until it is released, which is its commit as well as its abort: install
// what the locks protect before. One goroutine uses it at a time.
type Txn struct {
	locks     *Locks
	id        uint64
	ts        Timestamp
	waiter    *waiter
	waits     uint32          // how many waits it has begun
	waitingAt string          // where its latest wait is
	visited   []string        // the keys of the table at which it may be queued, or have the reservation
	isVisited map[string]bool // the same keys, if there are more than a few
	held      []string
	released  bool
}

// An Access is a key, and whether a transaction wants to lock it or only to read it.
type Access struct {
	Key   string
	Write bool
}

// A job works at a call until it is done, fails or has to wait; if it has to wait, it answers true.
type job func() (bool, error)

// ID is its number: a transaction that began earlier has a smaller one.
func (t *Txn) ID() uint64 { return t.id }

// Timestamp is the one at which it began, or to which it was raised.
func (t *Txn) Timestamp() Timestamp { return t.ts }

// Locked is what it has locked, in the order in which it did.
func (t *Txn) Locked() []string { return append([]string(nil), t.held...) }

// Lock locks the key, and blocks until it has the lock. A key that it has locked before is locked once. If the context is
// done first, also before the call, the error is a *GaveUpError. The others are ErrDoomed, ErrQueueFull, ErrMemory,
// ErrClosed, ErrReleased and ErrNumbersOut.
func (t *Txn) Lock(ctx context.Context, key string) error {
	return t.drive(ctx, func() (bool, error) { return t.visitAndAcquire(key) })
}

// TryLock locks the key if that takes no waiting, and answers whether it did. It does not overtake: if the lock is reserved
// for a transaction that began earlier, the answer is false. The errors are those of Lock without *GaveUpError and
// ErrQueueFull.
func (t *Txn) TryLock(key string) (bool, error) {
	err := t.drive(context.Background(), func() (bool, error) {
		waits, err := t.visitAndAcquire(key)
		if waits {
			err = ErrQueueFull
		}
		return waits, err
	})
	if err == ErrQueueFull {
		return false, nil
	}
	return err == nil, err
}

// Read blocks until no other transaction holds the key at this transaction's timestamp or below. It locks nothing: another
// transaction may lock the key at once. The errors are those of Lock without ErrQueueFull.
func (t *Txn) Read(ctx context.Context, key string) error {
	return t.drive(ctx, func() (bool, error) { return t.visit(key, false) })
}

// LockAll locks the keys to write, once it has visited all keys, one after the other, without having to wait. While it
// waits it holds none of these locks, so transactions that each make one such call and no other never wait for one another
// in a cycle. If it answers an error, which is one of those of Lock, it holds none of the keys that it did not hold before.
func (t *Txn) LockAll(ctx context.Context, keys []Access) error {
	list, before := scanOrder(keys), len(t.held)
	index, hasWaited := 0, false
	return t.drive(ctx, func() (bool, error) {
		for again := true; again; index, again, hasWaited = 0, hasWaited, false {
			for index < len(list) {
				it := list[index]
				index++
				if waits, err := t.visit(it.Key, it.Write); err != nil || waits {
					hasWaited = true
					return waits, err
				}
			}
		}
		for _, it := range list {
			if !it.Write {
				break
			}
			if waits, err := t.visitAndAcquire(it.Key); err != nil || waits {
				t.freeAfter(before)
				return waits, err
			}
		}
		return false, nil
	})
}

// scanOrder is the keys to write in byte order, and then the keys to read, each key once.
func scanOrder(keys []Access) []Access {
	writes := map[string]bool{}
	for _, it := range keys {
		writes[it.Key] = writes[it.Key] || it.Write
	}
	var list []Access
	for key, write := range writes {
		list = append(list, Access{key, write})
	}
	sort.Slice(list, func(i, j int) bool {
		if list[i].Write != list[j].Write {
			return list[i].Write
		}
		return list[i].Key < list[j].Key
	})
	return list
}

// Raise raises the timestamp, and that of each lock. Readers below it go on. An earlier timestamp changes nothing.
func (t *Txn) Raise(ts Timestamp) {
	if !t.ts.before(ts) {
		return
	}
	t.ts = ts
	for _, key := range t.held {
		t.insist(t.locks.TableKey(key), update)
	}
}

// Restart frees each key, leaves each queue, and the transaction is doomed no more. It keeps its number, so in the end it is
// the oldest and goes first.
func (t *Txn) Restart() {
	t.leave()
	t.freeAfter(0)
	t.waiter.pardon()
}

// Release frees each key, leaves each queue and ends the transaction. A later call of it does nothing.
func (t *Txn) Release() {
	t.Restart()
	t.released = true
	live := t.locks.liveOf(t.id)
	live.mu.Lock()
	defer live.mu.Unlock()
	delete(live.waiters, t.id)
}

// visit visits the key. Like the next, it answers whether the transaction has to wait.
func (t *Txn) visit(key string, writes bool) (bool, error) { return t.visitAnd(key, writes, false) }

// visitAndAcquire visits the key and, unless it has to wait, takes the lock. Nobody comes in between.
func (t *Txn) visitAndAcquire(key string) (bool, error) { return t.visitAnd(key, true, true) }

// visitAnd makes a request whose wait number is greater than all before.
func (t *Txn) visitAnd(key string, writes, acquires bool) (bool, error) {
	name := t.locks.TableKey(key)
	t.noteVisit(name)
	request := call{kind: visit, txn: t.id, ts: t.ts, wait: t.waits + 1, longest: t.locks.longest, writes: writes}
	answer := t.locks.at(name, func(s *shard) code {
		answer := s.step(name, &request, t.waiter)
		if answer == passed && acquires {
			answer = s.step(name, &call{kind: acquire, txn: t.id, ts: t.ts}, nil)
		}
		return answer
	})
	switch answer {
	case taken:
		t.held = append(t.held, key)
	case mustWait:
		t.waits++
		t.waitingAt = name
		return true, nil
	case tooLong:
		return false, ErrQueueFull
	}
	return false, answer.err()
}

// noteVisit notes that the transaction may be queued at the key, or have its reservation, from now on.
func (t *Txn) noteVisit(name string) {
	const few = 16
	if len(t.visited) < few {
		for _, it := range t.visited {
			if it == name {
				return
			}
		}
	} else {
		if t.isVisited == nil {
			t.isVisited = make(map[string]bool, 2*few)
			for _, it := range t.visited {
				t.isVisited[it] = true
			}
		}
		if t.isVisited[name] {
			return
		}
		t.isVisited[name] = true
	}
	t.visited = append(t.visited, name)
}

// forgetVisits forgets where the transaction may be queued: it has what it wanted, or has left.
func (t *Txn) forgetVisits() { t.visited, t.isVisited = t.visited[:0], nil }

// drive works at a job until it is done, fails, or the context is done. Whoever fails leaves.
func (t *Txn) drive(ctx context.Context, work job) error {
	if t.released {
		return ErrReleased
	}
	err := t.work(ctx, work)
	if err != nil {
		t.leave()
	}
	t.forgetVisits()
	return err
}

func (t *Txn) work(ctx context.Context, work job) error {
	for {
		if _, err := t.waiter.isOver(0); err != nil {
			return err
		}
		if err := gaveUp(ctx); err != nil {
			return err
		}
		if waits, err := work(); err != nil || !waits {
			return err
		}
		if err := t.sleep(ctx); err != nil {
			return err
		}
	}
}

// sleep sleeps until the wait that it has begun is over.
func (t *Txn) sleep(ctx context.Context) error {
	err := t.waiter.sleep(ctx, t.waits)
	if late, is := err.(*GaveUpError); is {
		t.locks.at(t.waitingAt, func(s *shard) (answer code) {
			answer, late.WaitedFor = s.table.look(t.waitingAt, t.id)
			return answer
		})
	}
	return err
}

// leave leaves each key at which it may be queued or have the reservation. Those behind it go on.
func (t *Txn) leave() {
	for _, name := range t.visited {
		t.insist(name, leave)
	}
	t.forgetVisits()
}

// freeAfter frees what it has locked after the first so many.
func (t *Txn) freeAfter(many int) {
	for len(t.held) > many {
		last := len(t.held) - 1
		t.insist(t.locks.TableKey(t.held[last]), finish)
		t.held = t.held[:last]
	}
}

// insist makes a call until memory suffices for it. A wait that was given up, and a lock that nobody wants any more, must
// not stay behind.
func (t *Txn) insist(name string, kind kind) {
	step := func(s *shard) code { return s.step(name, &call{kind: kind, txn: t.id, ts: t.ts}, nil) }
	for t.locks.at(name, step) == outOfMemory {
		time.Sleep(time.Millisecond)
	}
}
