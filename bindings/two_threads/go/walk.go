// Two goroutines at one key of a shared table, in Go: the walk of walk.c.
package main

/*
#include "locktable.h"
#include "heap.c"
*/
import "C"

import (
	"fmt"
	"os"
	"sync"
)

var key = [1]C.uint8_t{'a'}

func walkFirst(pass *C.struct_lt_pass, held chan<- bool, asleep <-chan bool, number C.uint32_t, wakes chan<- bool) {
	by := C.struct_lt_txn{txn: 1, wall: 1}
	fmt.Println("1 acquire", C.lt_pass_acquire(pass, &key[0], 1, &by))
	held <- true
	<-asleep
	fmt.Println("1 finish", C.lt_pass_finish(pass, &key[0], 1, 1))
	for let := new(C.struct_lt_through); C.lt_pass_let(pass, let) == C.LT_DONE; {
		fmt.Printf("1 let of request %d, wait %d\n", let.number, let.wait)
		if let.pass == number {
			wakes <- true
		}
	}
}

// A channel with room keeps a wake that comes before the sleep.
func walkSecond(pass *C.struct_lt_pass, held <-chan bool, asleep chan<- bool, wakes <-chan bool) {
	by := C.struct_lt_txn{txn: 2, wall: 2}
	terms := C.struct_lt_terms{txn: 2, wall: 2}
	var index C.size_t
	<-held
	fmt.Println("2 want", C.lt_pass_want(pass, &key[0], 1, true))
	fmt.Println("2 enter", C.lt_pass_enter(pass, &terms))
	fmt.Println("2 scan", C.lt_pass_scan(pass, &index))
	asleep <- true
	<-wakes
	fmt.Println("2 poll", C.lt_pass_poll(pass))
	fmt.Println("2 scan", C.lt_pass_scan(pass, &index))
	fmt.Println("2 scan", C.lt_pass_scan(pass, &index))
	fmt.Println("2 acquire", C.lt_pass_acquire(pass, &key[0], 1, &by))
	fmt.Println("2 leave", C.lt_pass_leave(pass))
	fmt.Println("2 finish", C.lt_pass_finish(pass, &key[0], 1, 2))
}

func want(done C.uint32_t) {
	if done != C.LT_DONE {
		os.Exit(1)
	}
}

func main() {
	table, first, second := new(C.struct_lt_shared), new(C.struct_lt_pass), new(C.struct_lt_pass)
	config := C.struct_lt_config{shards: 4, passes: 2, max_requests: 100, max_waits: 100}
	want(C.lt_shared_open(table, &config, 7))
	want(C.lt_shared_pass(table, first))
	want(C.lt_shared_pass(table, second))
	held, asleep, wakes := make(chan bool, 1), make(chan bool, 1), make(chan bool, 1)
	number := C.lt_pass_number(second)
	var both sync.WaitGroup
	both.Add(2)
	go func() { defer both.Done(); walkFirst(first, held, asleep, number, wakes) }()
	go func() { defer both.Done(); walkSecond(second, held, asleep, wakes) }()
	both.Wait()
	want(C.lt_pass_close(first))
	want(C.lt_pass_close(second))
	want(C.lt_shared_close(table))
}
