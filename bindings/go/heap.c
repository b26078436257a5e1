//go:build !scarce

/* The allocator that the archive calls, compiled into the package. */
#include "../c/heap.c"
