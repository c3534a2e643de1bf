// A user in Go, with the function of docs/GUIDE.md: USER WORLD CALLS BLOCK FUEL prints the world after the block where it is accepted.
package main

// #include <stdint.h>
import "C"

import (
	"os"
	"strconv"
)

func read(name string) []byte {
	bytes, err := os.ReadFile(name)
	if err != nil {
		os.Exit(3)
	}
	return bytes
}

func main() {
	fuel, _ := strconv.ParseUint(os.Args[4], 10, 64)
	next := Verify(read(os.Args[1]), read(os.Args[2]), read(os.Args[3]), make([]byte, 1<<24), C.uint64_t(fuel))
	if next == nil {
		os.Exit(1)
	}
	os.Stdout.Write(next)
}
