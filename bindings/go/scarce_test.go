//go:build scarce

package locktable

import (
	"context"
	"errors"
	"fmt"
	"runtime"
	"sort"
	"sync/atomic"
	"testing"
	"time"
)

// Each call on keys as long as these takes memory.
const (
	free   = "a-key-of-more-than-22-bytes-that-nobody-has"
	held   = "a-key-of-more-than-22-bytes-that-the-first-has"
	fought = "a-key-of-more-than-22-bytes-that-the-third-waits-for"
)

// A scene is a table in which the first transaction holds two keys, and the third waits for one of them.
type scene struct {
	locks        *Locks
	first, other *Txn
	third        *Txn
	thirdEnded   <-chan error
	isThirdOver  bool
}

func newScene(t *testing.T) *scene {
	locks := open(t, Options{Shards: 1})
	s := &scene{locks: locks, first: begin(t, locks, 1), other: begin(t, locks, 1), third: begin(t, locks, 1)}
	for _, key := range []string{held, fought} {
		if err := s.first.Lock(forEver, key); err != nil {
			t.Fatal(err)
		}
	}
	s.thirdEnded = launch(func() error { return s.third.Lock(forEver, fought) })
	waitsAt(s.third, fought)
	return s
}

// state is all that a program can see of the table and of its transactions, but for the third one while it waits.
func (s *scene) state(t *testing.T) string {
	keys, noKeys := s.locks.Keys()
	edges, noEdges := s.locks.Edges()
	if noKeys != nil || noEdges != nil {
		t.Fatal(noKeys, noEdges)
	}
	sort.Strings(keys)
	return fmt.Sprint(keys, edges, s.first.Locked(), s.first.Timestamp(), s.other.Locked(), s.other.Timestamp())
}

// awaitThird returns once the third has its key.
func (s *scene) awaitThird() error {
	if s.isThirdOver {
		return nil
	}
	s.isThirdOver = true
	return answer(s.thirdEnded)
}

// lockAndGiveUp gives up as soon as it waits.
func (s *scene) lockAndGiveUp() error {
	ctx, cancel := context.WithCancel(forEver)
	var isOver atomic.Bool
	defer isOver.Store(true)
	go func() {
		defer cancel()
		for ; !isOver.Load(); time.Sleep(50 * time.Microsecond) {
			edges, _ := s.locks.Edges()
			for _, edge := range edges {
				if edge.Waiter == s.other.id {
					return
				}
			}
		}
	}()
	return s.other.Lock(ctx, held)
}

// end ends the scene: the third gets its key, however often memory ran out before.
func (s *scene) end(t *testing.T) {
	s.first.Release()
	if err := s.awaitThird(); err != nil {
		t.Error("the third:", err)
	}
	s.third.Release()
	s.other.Release()
}

// When does a call answer ErrMemory? If an allocation of the archive failed: never, always, or only if it failed before the
// rest of the call is to give up what it has.
type says int

const (
	never says = iota
	always
	unlessItGivesUp
)

var errNot = errors.New("the answer is false")

func isTrue(is bool, err error) error {
	if err == nil && !is {
		err = errNot
	}
	return err
}

// Each request of the archive for memory fails in turn, alone and with the two after it. A call answers ErrMemory and has
// changed nothing, or it answers and has done what it does if memory suffices. A call without an error always does that.
func TestACallThatGetsNoMemoryChangesNothing(t *testing.T) {
	all := []Access{{free, true}, {held, true}}
	calls := []struct {
		name   string
		memory says
		answer error // if memory suffices
		call   func(*scene) error
	}{
		{"Lock", always, nil, func(s *scene) error { return s.other.Lock(forEver, free) }},
		{"Lock of a key that it has", always, nil, func(s *scene) error { return s.first.Lock(forEver, held) }},
		{"Lock that gives up", unlessItGivesUp, context.Canceled, func(s *scene) error { return s.lockAndGiveUp() }},
		{"TryLock", always, nil, func(s *scene) error { return isTrue(s.other.TryLock(free)) }},
		{"TryLock of a held key", unlessItGivesUp, errNot, func(s *scene) error { return isTrue(s.other.TryLock(held)) }},
		{"Read", always, nil, func(s *scene) error { return s.other.Read(forEver, free) }},
		{"LockAll", always, nil, func(s *scene) error { return s.first.LockAll(forEver, all) }},
		{"Edges", always, nil, func(s *scene) error { _, err := s.locks.Edges(); return err }},
		{"Deadlocks", always, nil, func(s *scene) error { _, err := s.locks.Deadlocks(); return err }},
		{"Keys", always, nil, func(s *scene) error { _, err := s.locks.Keys(); return err }},
		{"Doom", never, nil, func(s *scene) error { return isTrue(s.locks.Doom(s.other.ID()), nil) }},
		{"Raise", never, nil, func(s *scene) error { s.first.Raise(Timestamp{Wall: 9}); return nil }},
		{"Restart", never, nil, func(s *scene) error { s.first.Restart(); return s.awaitThird() }},
		{"Release", never, nil, func(s *scene) error { s.first.Release(); return s.awaitThird() }},
	}
	for _, it := range calls {
		t.Run(it.name, func(t *testing.T) {
			wanted, refusals := "", 0
			blocks := liveBlocks()
			t.Run("memory suffices", func(t *testing.T) {
				s := newScene(t)
				if err := it.call(s); !errors.Is(err, it.answer) {
					t.Fatal(err)
				}
				wanted = s.state(t)
				s.end(t)
			})
			for _, many := range []int{1, 3} {
				for after, fails := 0, true; fails; after++ {
					t.Run(fmt.Sprint(many, " after ", after), func(t *testing.T) {
						// This goroutine has its thread for itself, so the third transaction is on another one and gets memory.
						runtime.LockOSThread()
						defer runtime.UnlockOSThread()
						s := newScene(t)
						before := s.state(t)
						failAllocations(after, many)
						err := it.call(s)
						failed := stopFailing()
						fails = failed == many
						switch now := s.state(t); {
						case err == ErrMemory && it.memory != never && failed > 0:
							refusals++
							if now != before {
								t.Errorf("it was refused and has changed\n%s\nto\n%s", before, now)
							}
							if err := it.call(s); !errors.Is(err, it.answer) || s.state(t) != wanted {
								t.Errorf("the same call with memory: %v, %s", err, s.state(t))
							}
						case !errors.Is(err, it.answer):
							t.Error(err)
						case now != wanted:
							t.Errorf("it has done\n%s\nand not\n%s", now, wanted)
						case failed > 0 && it.memory == always:
							t.Error("an allocation failed, and it answered nothing of it")
						}
						s.end(t)
					})
				}
			}
			if (refusals > 0) != (it.memory != never) {
				t.Errorf("%d refusals", refusals)
			}
			if liveBlocks() != blocks {
				t.Errorf("%d blocks are lost", liveBlocks()-blocks)
			}
			t.Logf("refused %d times", refusals)
		})
	}
}

func TestOpenAndCheckTellThatTheyGetNoMemory(t *testing.T) {
	runtime.LockOSThread()
	defer runtime.UnlockOSThread()
	text := []byte("locks 2\na 1 1 acquire 1 10.0 = taken\na 2 1 finish 1 = freed\n")
	calls := map[string]func() error{
		"Open": func() error {
			locks, err := Open(Options{Shards: 3})
			if err == nil {
				return locks.Close()
			}
			return err
		},
		"Check": func() error {
			report, err := Check(text)
			if err == nil && report != (Report{2, 1, 2}) {
				return fmt.Errorf("%v", report)
			}
			return err
		},
	}
	for name, call := range calls {
		blocks, after := liveBlocks(), 0
		for fails := true; fails; after++ {
			failAllocations(after, 1)
			err := call()
			fails = stopFailing() > 0
			if fails && err != ErrMemory || !fails && err != nil {
				t.Errorf("%s after %d: %v", name, after, err)
			}
		}
		if after < 2 || liveBlocks() != blocks {
			t.Errorf("%s: %d allocations, %d blocks are lost", name, after-1, liveBlocks()-blocks)
		}
	}
}
