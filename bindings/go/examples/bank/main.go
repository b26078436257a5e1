// Command bank is a bank on goroutines: deposits and transfers with deadlines. If a file is named, each step of the lock
// table becomes a line of it, for `locktrace sort`.
//
//	bank [TRACE]
//
// The store is a map behind a mutex, which a call holds for one access. What keeps two transfers from one account is the
// lock table.
package main

import (
	"bufio"
	"context"
	"errors"
	"fmt"
	"locktable"
	"log"
	"os"
	"sync"
	"sync/atomic"
	"time"
)

const (
	tellers   = 4
	transfers = 500
	accounts  = 6
	opening   = 100
	patience  = 50 * time.Millisecond
)

var errFunds = errors.New("the account has too little")

type bank struct {
	locks *locktable.Locks
	mu    sync.Mutex
	store map[string]int64
}

// deposit adds the amount, unless the account is busy for 50 milliseconds.
func (b *bank) deposit(ctx context.Context, account string, amount int64) error {
	txn, err := b.locks.Begin(locktable.Timestamp{})
	if err != nil {
		return err
	}
	// On every path the account is freed here, and the next transaction goes on.
	defer txn.Release()
	ctx, cancel := context.WithTimeout(ctx, patience)
	defer cancel()
	if err := txn.Lock(ctx, account); err != nil {
		return err
	}
	b.set(account, b.balance(account)+amount)
	return nil
}

// transfer moves the amount, unless the accounts are busy for 50 milliseconds. It locks both by one call, and so in no
// order that could end in a deadlock.
func (b *bank) transfer(ctx context.Context, from, to string, amount int64) error {
	txn, err := b.locks.Begin(locktable.Timestamp{})
	if err != nil {
		return err
	}
	defer txn.Release()
	ctx, cancel := context.WithTimeout(ctx, patience)
	defer cancel()
	if err := txn.LockAll(ctx, []locktable.Access{{Key: from, Write: true}, {Key: to, Write: true}}); err != nil {
		return err
	}
	has := b.balance(from)
	if has < amount {
		return errFunds
	}
	b.set(from, has-amount)
	b.set(to, b.balance(to)+amount)
	return nil
}

func (b *bank) balance(account string) int64 {
	b.mu.Lock()
	defer b.mu.Unlock()
	return b.store[account]
}

func (b *bank) set(account string, amount int64) {
	b.mu.Lock()
	defer b.mu.Unlock()
	b.store[account] = amount
}

func account(number int) string { return fmt.Sprintf("account/%d", number%accounts) }

// A trace is a file with a line for each step. Goroutines tell it the steps of different shards at the same time.
type trace struct {
	mu   sync.Mutex
	file *os.File
	out  *bufio.Writer
}

func (t *trace) note(step locktable.Step) {
	t.mu.Lock()
	defer t.mu.Unlock()
	// The writer keeps the first error for close.
	_, _ = fmt.Fprintln(t.out, step)
}

func (t *trace) close() error {
	if err := t.out.Flush(); err != nil {
		return err
	}
	return t.file.Close()
}

// work makes one transfer after the other, and a deposit after each, and answers how many transfers were made.
func work(b *bank, teller int) (made int64) {
	ctx := context.Background()
	for round := 0; round < transfers; round++ {
		if b.transfer(ctx, account(teller+round), account(teller*round+1), 1) == nil {
			made++
		}
		if err := b.deposit(ctx, "deposits", 1); err != nil && !errors.Is(err, context.DeadlineExceeded) {
			log.Fatal(err)
		}
	}
	return made
}

func run(options locktable.Options) error {
	locks, err := locktable.Open(options)
	if err != nil {
		return err
	}
	b := &bank{locks: locks, store: map[string]int64{}}
	for number := 0; number < accounts; number++ {
		b.set(account(number), opening)
	}

	var made atomic.Int64
	var all sync.WaitGroup
	for teller := 0; teller < tellers; teller++ {
		all.Add(1)
		go func(teller int) {
			defer all.Done()
			made.Add(work(b, teller))
		}(teller)
	}
	all.Wait()

	total := int64(0)
	for number := 0; number < accounts; number++ {
		total += b.balance(account(number))
	}
	fmt.Printf("%d of %d transfers were made\nthe accounts hold %d\n", made.Load(), tellers*transfers, total)
	if total != accounts*opening {
		return errors.New("money was made or lost")
	}
	return locks.Close()
}

func main() {
	options := locktable.Options{}
	if len(os.Args) > 1 {
		file, err := os.Create(os.Args[1])
		if err != nil {
			log.Fatal(err)
		}
		t := &trace{file: file, out: bufio.NewWriter(file)}
		options.Sink = t.note
		defer func() {
			if err := t.close(); err != nil {
				log.Fatal(err)
			}
		}()
	}
	if err := run(options); err != nil {
		log.Fatal(err)
	}
}
