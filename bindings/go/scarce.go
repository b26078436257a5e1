//go:build scarce

package locktable

// void scarce_fail(long after, long many);
// long scarce_stop(void);
// long scarce_live(void);
import "C"

// failAllocations lets that many requests of this thread fail, once so many have succeeded.
func failAllocations(after, many int) { C.scarce_fail(C.long(after), C.long(many)) }

// stopFailing answers how many requests of this thread failed.
func stopFailing() int { return int(C.scarce_stop()) }

// liveBlocks is how many blocks the archive has taken and not freed.
func liveBlocks() int { return int(C.scarce_live()) }
