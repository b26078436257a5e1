package locktable_test

import (
	"context"
	"errors"
	"fmt"
	"locktable"
	"sync"
	"time"
)

func Example() {
	locks, err := locktable.Open(locktable.Options{})
	if err != nil {
		panic(err)
	}
	defer locks.Close()
	ctx := context.Background()
	begin := func() *locktable.Txn {
		txn, err := locks.Begin(locktable.Timestamp{Wall: 10})
		if err != nil {
			panic(err)
		}
		return txn
	}
	first, second, third := begin(), begin(), begin()
	defer first.Release()
	fmt.Println("first:", first.Lock(ctx, "orders/7"))

	// The second transaction waits in a goroutine of its own, and locks the key once the first has ended.
	waiting := make(chan error)
	go func() {
		defer second.Release()
		waiting <- second.Lock(ctx, "orders/7")
	}()

	// The third gives up after a millisecond.
	soon, cancel := context.WithTimeout(ctx, time.Millisecond)
	defer cancel()
	err = third.Lock(soon, "orders/7")
	fmt.Println("third:", errors.Is(err, context.DeadlineExceeded))
	third.Release()

	first.Release()
	fmt.Println("second:", <-waiting)
	// Output:
	// first: <nil>
	// third: true
	// second: <nil>
}

// breakDeadlocks dooms the youngest transaction of each deadlock.
func breakDeadlocks(locks *locktable.Locks) error {
	cycles, err := locks.Deadlocks()
	for _, cycle := range cycles {
		locks.Doom(cycle[0].Waiter)
	}
	return err
}

// lockBoth locks two keys in this order. A transaction that is doomed begins again, with its age: in the end it is the oldest.
func lockBoth(ctx context.Context, txn *locktable.Txn, one, other string) error {
	for {
		err := txn.Lock(ctx, one)
		if err == nil {
			err = txn.Lock(ctx, other)
		}
		if err != locktable.ErrDoomed {
			return err
		}
		txn.Restart()
	}
}

// Transactions lock two keys in any order and wait for ever, and a goroutine looks for deadlocks.
func ExampleLocks_Deadlocks() {
	locks, err := locktable.Open(locktable.Options{})
	if err != nil {
		panic(err)
	}
	defer locks.Close()
	over := make(chan struct{})
	watched := make(chan error)
	go func() {
		for {
			select {
			case <-over:
				watched <- nil
				return
			case <-time.After(time.Millisecond):
				if err := breakDeadlocks(locks); err != nil {
					watched <- err
					return
				}
			}
		}
	}()

	keys := [...]string{"north", "east", "south", "west"}
	ended, mu := 0, sync.Mutex{}
	var all sync.WaitGroup
	for worker := 0; worker < 8; worker++ {
		all.Add(1)
		go func(worker int) {
			defer all.Done()
			for round := 0; round < 100; round++ {
				txn, err := locks.Begin(locktable.Timestamp{})
				if err != nil {
					panic(err)
				}
				err = lockBoth(context.Background(), txn, keys[(worker+round)%4], keys[(3*worker+2*round+1)%4])
				txn.Release()
				if err == nil {
					mu.Lock()
					ended++
					mu.Unlock()
				}
			}
		}(worker)
	}
	all.Wait()
	close(over)
	fmt.Println("watched:", <-watched)
	left, err := locks.Keys()
	fmt.Println("ended:", ended, "left:", left, err)
	// Output:
	// watched: <nil>
	// ended: 800 left: [] <nil>
}
