package locktable

import (
	"context"
	"errors"
	"fmt"
	"math/rand"
	"reflect"
	"sort"
	"strings"
	"sync"
	"sync/atomic"
	"testing"
	"time"
	"unsafe"
)

var forEver = context.Background()

// A trace has the steps of a run.
type trace struct {
	mu    sync.Mutex
	steps map[string][]string
}

func (it *trace) note(step Step) {
	it.mu.Lock()
	defer it.mu.Unlock()
	line := strings.TrimPrefix(step.String(), step.Key)
	it.steps[step.Key] = append(it.steps[step.Key], fmt.Sprintf("%s %d%s\n", step.Key, len(it.steps[step.Key])+1, line))
}

// open opens a table, at the end of whose test nothing may be left and the check accepts its steps.
func open(t *testing.T, options Options) *Locks {
	run := &trace{steps: map[string][]string{}}
	options.Sink = run.note
	locks, err := Open(options)
	if err != nil {
		t.Fatal(err)
	}
	t.Cleanup(func() {
		keys, noKeys := locks.Keys()
		edges, noEdges := locks.Edges()
		if len(keys) != 0 || len(edges) != 0 || noKeys != nil || noEdges != nil {
			t.Errorf("left at the end: %v %v %v %v", keys, edges, noKeys, noEdges)
		}
		text, names, steps := "locks 2\n", []string{}, 0
		for name := range run.steps {
			names = append(names, name)
		}
		sort.Strings(names)
		for _, name := range names {
			text += strings.Join(run.steps[name], "")
			steps += len(run.steps[name])
		}
		if report, err := Check([]byte(text)); err != nil || report != (Report{2, len(names), steps}) {
			t.Errorf("the check: %v %v", report, err)
		}
		if err := locks.Close(); err != nil {
			t.Error(err)
		}
		t.Logf("%d steps", steps)
	})
	return locks
}

func begin(t *testing.T, locks *Locks, wall uint64) *Txn {
	txn, err := locks.Begin(Timestamp{Wall: wall})
	if err != nil {
		t.Fatal(err)
	}
	t.Cleanup(txn.Release)
	return txn
}

// launch makes the call in a goroutine.
func launch(call func() error) <-chan error {
	ended := make(chan error, 1)
	go func() { ended <- call() }()
	return ended
}

// waitsAt returns once the transaction waits at the key.
func waitsAt(txn *Txn, key string) Edge {
	for end := time.Now().Add(20 * time.Second); time.Now().Before(end); time.Sleep(50 * time.Microsecond) {
		edges, _ := txn.locks.Edges()
		for _, edge := range edges {
			if edge.Waiter == txn.id && edge.Key == key {
				return edge
			}
		}
	}
	panic("a call does not wait")
}

// answer is that of the channel. A call that hangs ends the test program, because its transaction is in use.
func answer(ended <-chan error) error {
	select {
	case err := <-ended:
		return err
	case <-time.After(20 * time.Second):
		panic("a call hangs")
	}
}

// Each of so many transactions holds a key and waits for the next one's. They begin to wait in the order of their numbers, or
// against it, so any of them may close the cycle. A further transaction waits beside them.
func TestTheYoungestOfADeadlockIsFoundFirst(t *testing.T) {
	for _, many := range []int{2, 3, 7} {
		for _, upwards := range []bool{true, false} {
			t.Run(fmt.Sprint(many, " upwards ", upwards), func(t *testing.T) {
				locks := open(t, Options{})
				key := func(i int) string { return fmt.Sprint("key", i%many) }
				txns := make([]*Txn, many)
				for i := range txns {
					txns[i] = begin(t, locks, 0)
					if err := txns[i].Lock(forEver, key(i)); err != nil {
						t.Fatal(err)
					}
				}
				beside := begin(t, locks, 0)
				ended := make([]<-chan error, many)
				wait := func(i int) {
					ended[i] = launch(func() error { return txns[i].Lock(forEver, key(i+1)) })
					waitsAt(txns[i], key(i+1))
				}
				expect := func(want ...uint64) {
					t.Helper()
					cycles, err := locks.Deadlocks()
					var found []uint64
					for _, cycle := range cycles {
						for i, edge := range cycle {
							found = append(found, edge.Waiter)
							if next := cycle[(i+1)%len(cycle)].Waiter; edge.WaitsFor != next {
								t.Errorf("%d waits for %d, and next is %d", edge.Waiter, edge.WaitsFor, next)
							}
						}
					}
					if !reflect.DeepEqual(found, want) || err != nil {
						t.Errorf("found %v %v, want %v", found, err, want)
					}
				}
				for i := 0; i < many; i++ {
					expect()
					if upwards {
						wait(i)
					} else {
						wait(many - 1 - i)
					}
				}
				besideEnded := launch(func() error { return beside.Lock(forEver, key(0)) })
				waitsAt(beside, key(0))

				// The transactions have the numbers 1 to many, and the last waits for the first.
				want := []uint64{uint64(many)}
				for number := 1; number < many; number++ {
					want = append(want, uint64(number))
				}
				expect(want...)
				locks.Doom(want[0])
				if err := answer(ended[many-1]); err != ErrDoomed {
					t.Error("the youngest:", err)
				}
				expect()
				for i := many - 1; i >= 0; i-- {
					if i < many-1 {
						if err := answer(ended[i]); err != nil {
							t.Error("an older one:", err)
						}
					}
					txns[i].Release()
				}
				if err := answer(besideEnded); err != nil {
					t.Error("beside:", err)
				}
			})
		}
	}
}

func TestOnlyWaitsThatGoOnAreADeadlock(t *testing.T) {
	first, second := Edge{Waiter: 1, Wait: 4, WaitsFor: 2}, Edge{Waiter: 2, Wait: 5, WaitsFor: 1, Held: true}
	for name, it := range map[string]struct {
		now  []Edge
		want bool
	}{
		"both wait":                 {[]Edge{first, second}, true},
		"the lock has become free":  {[]Edge{first, {Waiter: 2, Wait: 5, WaitsFor: 1}}, true},
		"one does not wait":         {[]Edge{first}, false},
		"one waits anew":            {[]Edge{first, {Waiter: 2, Wait: 6, WaitsFor: 1, Held: true}}, false},
		"one waits for another one": {[]Edge{first, {Waiter: 2, Wait: 5, WaitsFor: 3, Held: true}}, false},
	} {
		waits := map[uint64]Edge{}
		for _, edge := range it.now {
			waits[edge.Waiter] = edge
		}
		if goOn([]Edge{second, first}, waits) != it.want {
			t.Error(name)
		}
	}
}

func TestEachRowOfCallsIsAnsweredAsTheRulesSay(t *testing.T) {
	type row struct {
		txn  int // 0 to 2: each is at the timestamp of its index
		act  string
		key  string
		want error
	}
	tests := map[string][]row{
		"a lock is exclusive": {{0, "lock", "a", nil}, {1, "waits", "a", nil}, {1, "lock", "b", nil}, {0, "release", "", nil},
			{1, "lock", "a", nil}, {0, "lock", "c", ErrReleased}, {0, "release", "", nil}},
		"a key is locked once":            {{0, "lock", "a", nil}, {0, "lock", "a", nil}, {0, "release", "", nil}, {1, "lock", "a", nil}},
		"a reader passes a lock above it": {{2, "lock", "a", nil}, {1, "read", "a", nil}, {0, "read", "a", nil}},
		"a reader waits for a lock at or below it": {{1, "lock", "a", nil}, {2, "reads late", "a", nil},
			{1, "read", "a", nil}, {0, "read", "a", nil}},
		"a raise lets readers pass": {{0, "lock", "a", nil}, {1, "reads late", "a", nil}, {0, "raise", "", nil},
			{1, "read", "a", nil}},
		"a doomed transaction keeps its locks until it restarts": {{0, "lock", "a", nil}, {0, "doom", "", nil},
			{0, "lock", "b", ErrDoomed}, {1, "waits", "a", nil}, {0, "restart", "", nil}, {1, "lock", "a", nil},
			{0, "lock", "b", nil}},
	}
	for name, rows := range tests {
		t.Run(name, func(t *testing.T) {
			locks := open(t, Options{Shards: 4})
			txns := []*Txn{begin(t, locks, 0), begin(t, locks, 1), begin(t, locks, 2)}
			for i, row := range rows {
				txn, err, want := txns[row.txn], error(nil), row.want
				switch row.act {
				case "lock":
					err = txn.Lock(forEver, row.key)
				case "read":
					err = txn.Read(forEver, row.key)
				case "waits":
					if got, failed := txn.TryLock(row.key); got || failed != nil {
						err = fmt.Errorf("it did not have to wait: %v %v", got, failed)
					}
				case "reads late":
					ctx, cancel := context.WithCancel(forEver)
					ended := launch(func() error { return txn.Read(ctx, row.key) })
					edge := waitsAt(txn, row.key)
					cancel()
					var late *GaveUpError
					if err = answer(ended); errors.As(err, &late) && late.WaitedFor == edge.WaitsFor {
						want = context.Canceled
					}
				case "raise":
					txn.Raise(Timestamp{Wall: 9})
				case "doom":
					if !locks.Doom(txn.ID()) || locks.Doom(99) {
						err = errors.New("doom")
					}
				case "restart":
					txn.Restart()
				case "release":
					txn.Release()
				}
				if !errors.Is(err, want) {
					t.Fatalf("row %d: %v", i+1, err)
				}
			}
		})
	}
}

// Transaction 1 holds b. Transaction 2 has the reservation of a, which 3 released, and waits for b. Transaction 4 waits for a.
func TestEachEndOfAWaitPassesTheReservationOn(t *testing.T) {
	for name, want := range map[string]error{"release": nil, "doom": ErrDoomed, "cancel": context.Canceled} {
		t.Run(name, func(t *testing.T) {
			locks := open(t, Options{Shards: 4})
			first, second, third, last := begin(t, locks, 1), begin(t, locks, 1), begin(t, locks, 1), begin(t, locks, 1)
			if first.Lock(forEver, "b") != nil || third.Lock(forEver, "a") != nil {
				t.Fatal("they are free")
			}
			ctx, cancel := context.WithCancel(forEver)
			defer cancel()
			ended := launch(func() error { return second.LockAll(ctx, []Access{{"a", true}, {"b", true}}) })
			edges := []Edge{waitsAt(second, "a")}
			third.Release()
			edges = append(edges, waitsAt(second, "b"))
			lastEnded := launch(func() error { return last.Lock(forEver, "a") })
			edges = append(edges, waitsAt(last, "a"))
			hoped := []Edge{{2, 1, "a", 3, true, true}, {2, 2, "b", 1, true, true}, {4, 1, "a", 2, false, true}}
			if !reflect.DeepEqual(edges, hoped) {
				t.Error(edges)
			}
			switch name {
			case "release":
				first.Release()
			case "doom":
				locks.Doom(2)
			case "cancel":
				cancel()
			}
			if err := answer(ended); !errors.Is(err, want) {
				t.Error(err)
			}
			if want == nil {
				second.Release()
			}
			if err := answer(lastEnded); err != nil {
				t.Error(err)
			}
		})
	}
}

func TestSeveralKeysAreLockedTogetherOrNotAtAll(t *testing.T) {
	locks := open(t, Options{Longest: 1})
	first, second, third := begin(t, locks, 1), begin(t, locks, 1), begin(t, locks, 1)
	err := first.LockAll(forEver, []Access{{"b", true}, {"c", false}, {"a", true}, {"b", false}})
	if err != nil || !reflect.DeepEqual(first.Locked(), []string{"a", "b"}) {
		t.Fatal(err, first.Locked())
	}
	ctx, cancel := context.WithCancel(forEver)
	ended := launch(func() error { return second.LockAll(ctx, []Access{{"a", true}, {"0", true}}) })
	waitsAt(second, "a")
	if err := third.Lock(forEver, "a"); err != ErrQueueFull {
		t.Fatal(err)
	}
	cancel()
	if err := answer(ended); !errors.Is(err, context.Canceled) || len(second.Locked()) != 0 {
		t.Fatal(err, second.Locked())
	}
	if got, err := third.TryLock("0"); !got || err != nil {
		t.Fatal(got, err)
	}
}

func TestWhatGoroutinesWriteToSharesNoLine(t *testing.T) {
	var s shard
	var part liveWaiters
	var l Locks
	for what, room := range map[string]uintptr{
		"shards":       unsafe.Sizeof(s) - unsafe.Offsetof(s.woken) - unsafe.Sizeof(s.woken),
		"live waiters": unsafe.Sizeof(part) - unsafe.Offsetof(part.waiters) - unsafe.Sizeof(part.waiters),
		"the number":   unsafe.Sizeof(l) - unsafe.Offsetof(l.begun) - unsafe.Sizeof(l.begun),
	} {
		if room < 128 {
			t.Error(what, room)
		}
	}
}

// The bound lies between what these keys take under the race detector and what a search of all keys at each key takes.
func TestARequestOverManyKeysIsLinear(t *testing.T) {
	locks, err := Open(Options{})
	if err != nil {
		t.Fatal(err)
	}
	defer locks.Close()
	keys := make([]Access, 80000)
	for i := range keys {
		keys[i] = Access{fmt.Sprint("key/", i), true}
	}
	txn, began := begin(t, locks, 1), time.Now()
	if err := txn.LockAll(forEver, keys); err != nil || len(txn.Locked()) != len(keys) {
		t.Fatal(err, len(txn.Locked()))
	}
	if took := time.Since(began); took > 20*time.Second {
		t.Error(took)
	}
	txn.Release()
	if left, err := locks.Keys(); len(left) != 0 || err != nil {
		t.Error(len(left), err)
	}
}

func TestKeysAreStringsOfAnyBytes(t *testing.T) {
	locks := open(t, Options{})
	long := strings.Repeat("k", 65)
	for key, want := range map[string]string{"": "%", "a": "a", "!~": "!~", "100% of \xFF": "100%25%20of%20%FF",
		"\x7F\x00": "%7F%00", long[1:]: long[1:], "a" + strings.Repeat(" ", 21): "a" + strings.Repeat("%20", 21),
		long: long[:30] + "%#", long + "!": long[:30] + "%#", strings.Repeat("\x00", 22): strings.Repeat("%00", 10) + "%#"} {
		name := locks.TableKey(key)
		if front := strings.TrimSuffix(want, "%#"); front != want && len(name) != 64 || !strings.HasPrefix(name, want) ||
			front == want && name != want {
			t.Errorf("%q: %s", key, name)
		}
		if got, err := begin(t, locks, 1).TryLock(key); !got || err != nil {
			t.Errorf("%q shares a lock", key)
		}
	}
}

func TestAllKeysAreListedInOrder(t *testing.T) {
	for _, many := range []int{0, 1, keysAtFirst - 1, keysAtFirst, keysAtFirst + 1, 200} {
		locks := open(t, Options{Shards: 1})
		txn := begin(t, locks, 1)
		var all []string
		for at := 0; at < many; at++ {
			all = append(all, fmt.Sprint(1000+at))
			if got, err := txn.TryLock(all[at]); !got || err != nil {
				t.Fatal(got, err)
			}
		}
		if keys, err := locks.Keys(); err != nil || strings.Join(keys, " ") != strings.Join(all, " ") {
			t.Errorf("%d keys: %v %v", many, keys, err)
		}
	}
}

func TestACloseEndsEachWaitAndCall(t *testing.T) {
	locks, err := Open(Options{Sink: func(Step) { panic("a sink that panics is told nothing more") }})
	if err != nil {
		t.Fatal(err)
	}
	first, second := begin(t, locks, 1), begin(t, locks, 1)
	if err := first.Lock(forEver, "a"); err != nil {
		t.Fatal(err)
	}
	ended := launch(func() error { return second.Lock(forEver, "a") })
	waitsAt(second, "a")
	failed := []error{locks.Close(), answer(ended), locks.Close(), first.Lock(forEver, "b"), first.Read(forEver, "b")}
	_, begun := locks.Begin(Timestamp{})
	_, keys := locks.Keys()
	_, edges := locks.Edges()
	_, cycles := locks.Deadlocks()
	_, tried := second.TryLock("b")
	for i, err := range append(failed, begun, keys, edges, cycles, tried) {
		if err != ErrClosed && (i > 0 || err != nil) {
			t.Errorf("%d: %v", i, err)
		}
	}
	first.Raise(Timestamp{Wall: 2})
}

func TestTheCheckNamesTheFirstFaultyLine(t *testing.T) {
	for text, want := range map[string]int{"": 1, "locks 2\na 1 1 acquire 1 10.0 = taken\n": 0,
		"locks 2\na 1 1 acquire 1 10.0 = kept\n": 2, "locks 2\na 2 1 finish 1 = other\n": 2} {
		var fault *FaultError
		if _, err := Check([]byte(text)); errors.As(err, &fault) != (want > 0) || want > 0 && fault.Line != want {
			t.Errorf("%q: %v", text, err)
		}
	}
}

// Goroutines move money between four accounts. No money may be lost, and none of them may hang.
func TestGoroutinesMeetAtAFewKeys(t *testing.T) {
	type mode struct {
		inOrder, dooms bool
		patience       time.Duration // 0 is for ever
	}
	for name, mode := range map[string]mode{"in order for ever": {inOrder: true},
		"in any order with deadlines":           {patience: 300 * time.Microsecond},
		"in any order for ever, and with dooms": {dooms: true}} {
		t.Run(name, func(t *testing.T) {
			locks := open(t, Options{Shards: 2})
			var money [4]int
			var over atomic.Bool
			var ended atomic.Int64
			var workers sync.WaitGroup
			move := func(random *rand.Rand, txn *Txn) error {
				from, to := random.Intn(4), random.Intn(3)
				if to >= from {
					to++
				}
				if mode.inOrder && from > to {
					from, to = to, from
				}
				ctx, cancel := context.WithCancel(forEver)
				if mode.patience > 0 {
					ctx, cancel = context.WithTimeout(forEver, time.Duration(random.Int63n(int64(mode.patience))))
				}
				defer cancel()
				keys := []string{fmt.Sprint("account/", from), fmt.Sprint("account/", to)}
				if !mode.inOrder && random.Intn(4) == 0 {
					if err := txn.LockAll(ctx, []Access{{keys[0], true}, {keys[1], true}}); err != nil {
						return err
					}
				} else if err := txn.Lock(ctx, keys[0]); err != nil {
					return err
				} else if err := txn.Lock(ctx, keys[1]); err != nil {
					return err
				}
				if random.Intn(4) == 0 {
					txn.Raise(Timestamp{Wall: 2 + uint64(random.Intn(4))})
				}
				money[from]--
				money[to]++
				return txn.Read(ctx, fmt.Sprint("account/", from))
			}
			work := func(seed int64) {
				defer workers.Done()
				for random := rand.New(rand.NewSource(seed)); !over.Load(); ended.Add(1) {
					txn, err := locks.Begin(Timestamp{Wall: 1 + uint64(random.Intn(3))})
					if err == nil {
						for err = move(random, txn); err == ErrDoomed; err = move(random, txn) {
							txn.Restart()
						}
						txn.Release()
					}
					if err != nil && !(mode.patience > 0 && errors.Is(err, context.DeadlineExceeded)) {
						t.Error(err)
					}
				}
			}
			for seed := int64(0); seed < 8; seed++ {
				workers.Add(1)
				go work(seed)
			}
			joined := make(chan error)
			go func() { workers.Wait(); close(joined) }()
			for start, end := time.Now(), time.Now().Add(20*time.Second); ; time.Sleep(time.Millisecond) {
				over.Store(time.Since(start) > time.Second)
				if edges, _ := locks.Edges(); mode.dooms {
					for _, edge := range edges {
						locks.Doom(edge.Waiter)
					}
				}
				select {
				case <-joined:
					t.Logf("%d transactions", ended.Load())
					if sum := money[0] + money[1] + money[2] + money[3]; sum != 0 {
						t.Error("money is lost", money)
					}
					return
				default:
					if time.Now().After(end) {
						panic(name + ": a goroutine hangs")
					}
				}
			}
		})
	}
}
