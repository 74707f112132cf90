// Rounds on Go's own lock word by as many goroutines as processors, with the words and the printed line of the
// other contenders of lock_word.rs: its load, the number of threads, the rounds of each, the bytes ahead of the word.
package main

import (
	"fmt"
	"os"
	"runtime"
	"strconv"
	"sync"
	_ "unsafe" // for the two names that the runtime gives
)

//go:linkname runtime_Semacquire sync.runtime_Semacquire
func runtime_Semacquire(sema *uint32)

//go:linkname semrelease sync.runtime_Semrelease
func semrelease(sema *uint32, handoff bool, skipframes int)

func runtime_Semrelease(sema *uint32) { semrelease(sema, false, 0) }

// FD is what Go's file needs of its package.
type FD struct {
	fdmu   fdMutex
	isFile bool
}

func (fd *FD) destroy() error { return nil }

func errClosing(isFile bool) error { return nil }

type guarded struct {
	mu   fdMutex
	half uint64
}

func (g *guarded) round(load string) {
	if load == "references" {
		g.mu.incref()
		g.mu.decref()
		return
	}
	g.mu.rwlock(true)
	g.half++
	g.mu.rwunlock(true)
}

func number(word string) int {
	n, err := strconv.Atoi(word)
	if err != nil {
		panic(err)
	}
	return n
}

func main() {
	load, threads, rounds, lead := os.Args[1], number(os.Args[2]), number(os.Args[3]), number(os.Args[4])
	runtime.GOMAXPROCS(threads)
	ahead := make([]byte, lead)
	g := new(guarded)
	var all sync.WaitGroup
	for i := 0; i < threads; i++ {
		all.Add(1)
		go func() {
			defer all.Done()
			for n := 0; n < rounds; n++ {
				g.round(load)
			}
		}()
	}
	all.Wait()
	runtime.KeepAlive(ahead)
	fmt.Printf("%d rounds, word %d, half %d\n", threads*rounds, g.mu.state, g.half)
}
