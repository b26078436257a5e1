package locktable

// What crosses to C? The calls of locktable.h, and nothing else of this package. C keeps no Go pointer: the struct of a
// table is memory of C, and keys, requests and texts are read during the call alone.
//
// In a release the header and the archive are in this folder. In the repository the header is in ../c, and the environment
// names the folder of the archive (bindings/README.md).

/*
#cgo CFLAGS: -I${SRCDIR} -I${SRCDIR}/../c
#cgo LDFLAGS: -L${SRCDIR} -llt_c
#include <stdlib.h>
#include "locktable.h"
*/
import "C"

import (
	"fmt"
	"unsafe"
)

// keysAtFirst is how many keys the first call for keys lists at most.
const keysAtFirst = 64

// A code is what a call answers: a refusal, or from firstReply on a reply of the rules.
type code uint32

const (
	done            code = C.LT_DONE
	closed          code = C.LT_CLOSED
	outOfMemory     code = C.LT_MEMORY
	badWait         code = C.LT_BAD_WAIT
	firstReply      code = C.LT_FIRST_REPLY
	passed          code = C.LT_PASSED
	mustWait        code = C.LT_MUST_WAIT
	tooLong         code = C.LT_TOO_LONG
	taken           code = C.LT_TAKEN
	waitForHeld     code = C.LT_WAIT_FOR_HELD
	waitForReserved code = C.LT_WAIT_FOR_RESERVED
	firstHeld       code = C.LT_WAIT_FIRST_HELD
	firstReserved   code = C.LT_WAIT_FIRST_RESERVED
)

var replyWords = map[code]string{passed: "pass", mustWait: "wait", tooLong: "long", taken: "taken", C.LT_KEPT: "kept",
	C.LT_RAISED: "raised", C.LT_OTHER: "other", C.LT_FREED: "freed", C.LT_LEFT: "left", C.LT_ABSENT: "absent"}

var faultWords = map[code]string{C.LT_FAULT_HEADER: "not the first line of a version",
	C.LT_FAULT_SHAPE: "not the form of a step", C.LT_FAULT_KEY_ORDER: "the key comes before that of the line before",
	C.LT_FAULT_INDEX: "the index does not follow that of the line before",
	C.LT_FAULT_REPLY: "the rules give another reply", C.LT_FAULT_LETS: "the rules let other requests through"}

// err is the error of a refusal, or nil.
func (c code) err() error {
	switch {
	case c == done || c >= firstReply:
		return nil
	case c == closed:
		return ErrClosed
	case c == outOfMemory:
		return ErrMemory
	case c == badWait:
		return ErrNumbersOut
	}
	panic(fmt.Sprintf("the lock table answered code %d", c))
}

// A table is that of one thread: its caller keeps a mutex around it.
type table struct {
	at   *C.struct_lt_table // nil once it is closed
	lets []C.struct_lt_through
}

func (t *table) open(start uint64) error {
	at := (*C.struct_lt_table)(C.calloc(1, C.sizeof_struct_lt_table))
	if at == nil {
		return ErrMemory
	}
	if err := code(C.lt_table_open(at, C.uint64_t(start))).err(); err != nil {
		C.free(unsafe.Pointer(at))
		return err
	}
	t.at = at
	return nil
}

func (t *table) close() {
	if t.at != nil {
		C.lt_table_close(t.at)
		C.free(unsafe.Pointer(t.at))
		t.at = nil
	}
}

// step makes the call. At most many requests wait in the table.
func (t *table) step(key string, call *call, many int) (code, []Let) {
	if t.at == nil {
		return closed, nil
	}
	for len(t.lets) <= many {
		t.lets = append(t.lets, C.struct_lt_through{})
	}
	var answer C.uint32_t
	var count C.size_t
	bytes := []byte(key)
	at, size, lets, room := (*C.uint8_t)(&bytes[0]), C.size_t(len(bytes)), &t.lets[0], C.size_t(len(t.lets))
	by := C.struct_lt_txn{txn: C.uint64_t(call.txn), wall: C.uint64_t(call.ts.Wall), logical: C.uint32_t(call.ts.Logical)}
	switch call.kind {
	case visit:
		request := C.struct_lt_request{number: by.txn, txn: by.txn, wall: by.wall, logical: by.logical,
			wait: C.uint32_t(call.wait), pass: C.uint32_t(call.pass()), longest: C.uint32_t(call.longest),
			writes: C.bool(call.writes)}
		answer = C.lt_table_visit(t.at, at, size, &request, lets, room, &count)
	case acquire:
		answer = C.lt_table_acquire(t.at, at, size, &by, lets, room, &count)
	case update:
		answer = C.lt_table_update(t.at, at, size, &by, lets, room, &count)
	case finish:
		answer = C.lt_table_finish(t.at, at, size, by.txn, lets, room, &count)
	case leave:
		answer = C.lt_table_leave(t.at, at, size, by.txn, lets, room, &count)
	}
	var made []Let
	for _, let := range t.lets[:count] {
		made = append(made, Let{Txn: uint64(let.number), Wait: uint32(let.wait)})
	}
	return code(answer), made
}

// look tells what the transaction finds at the key, and for whom it waits there.
func (t *table) look(key string, txn uint64) (code, uint64) {
	if t.at == nil {
		return closed, 0
	}
	var other C.uint64_t
	bytes := []byte(key)
	answer := C.lt_table_look(t.at, (*C.uint8_t)(&bytes[0]), C.size_t(len(bytes)), C.uint64_t(txn), &other)
	return code(answer), uint64(other)
}

// keys adds those that have a record.
func (t *table) keys(all []string) ([]string, error) {
	if t.at == nil {
		return nil, ErrClosed
	}
	var after C.struct_lt_key_name
	// Each call looks at all keys, so each one lists twice as many as the one before.
	for room := keysAtFirst; ; room *= 2 {
		var count C.size_t
		array := make([]C.struct_lt_key_name, room)
		answer := code(C.lt_table_keys(t.at, &after.bytes[0], after.len, &array[0], C.size_t(room), &count))
		if answer != done {
			return nil, answer.err()
		}
		for i := range array[:count] {
			all = append(all, C.GoStringN((*C.char)(unsafe.Pointer(&array[i].bytes[0])), C.int(array[i].len)))
		}
		if int(count) < room {
			return all, nil
		}
		after = array[room-1]
	}
}

// A Report is what Check tells of a legal text.
type Report struct{ Version, Keys, Steps int }

// A FaultError is the first fault of a text: in which line, from 1, and what is wrong with it.
type FaultError struct {
	Line  int
	Fault string
}

func (e *FaultError) Error() string { return fmt.Sprintf("line %d: %s", e.Line, e.Fault) }

// Check tells whether the text is one of legal histories (docs/FORMATS.md, "The text of key histories"). It is the proved
// check of the archive. The error is a *FaultError or ErrMemory.
func Check(text []byte) (Report, error) {
	var report C.struct_lt_report
	bytes := append(text[:len(text):len(text)], 0) // so that there is an address, even of no bytes
	answer := code(C.lt_check((*C.uint8_t)(&bytes[0]), C.size_t(len(text)), &report))
	if fault, ok := faultWords[answer]; ok {
		return Report{}, &FaultError{Line: int(report.line), Fault: fault}
	}
	return Report{Version: int(report.version), Keys: int(report.keys), Steps: int(report.steps)}, answer.err()
}
