package locktable

import (
	"context"
	"sync"
)

// A waiter is where one transaction sleeps. Whoever makes the step that lets it through calls letThrough.
type waiter struct {
	mu sync.Mutex
	// The greatest number of a wait that was let through. Wait numbers rise, so a late wake-up of an earlier wait ends no
	// later one.
	through          uint32
	doomed, isClosed bool
	changed          chan struct{} // has room for one; what it has may be of an earlier wait
}

func newWaiter() *waiter { return &waiter{changed: make(chan struct{}, 1)} }

func (w *waiter) tell(change func()) {
	w.mu.Lock()
	change()
	w.mu.Unlock()
	select {
	case w.changed <- struct{}{}:
	default:
	}
}

// letThrough tells that the wait is over. The caller holds no shard's mutex.
func (w *waiter) letThrough(wait uint32) {
	w.tell(func() {
		if w.through < wait {
			w.through = wait
		}
	})
}

func (w *waiter) doom()  { w.tell(func() { w.doomed = true }) }
func (w *waiter) close() { w.tell(func() { w.isClosed = true }) }

func (w *waiter) pardon() {
	w.mu.Lock()
	defer w.mu.Unlock()
	w.doomed = false
}

// isOver tells whether the wait with this number is over. The error says why the transaction may not go on.
func (w *waiter) isOver(wait uint32) (bool, error) {
	w.mu.Lock()
	defer w.mu.Unlock()
	switch {
	case w.isClosed:
		return true, ErrClosed
	case w.doomed:
		return true, ErrDoomed
	}
	return w.through >= wait, nil
}

// sleep sleeps until the wait with this number ends. A doomed transaction gives up, even if it was let through.
func (w *waiter) sleep(ctx context.Context, wait uint32) error {
	for {
		if over, err := w.isOver(wait); over {
			return err
		}
		select {
		case <-w.changed:
		case <-ctx.Done():
			return gaveUp(ctx)
		}
	}
}
