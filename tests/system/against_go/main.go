// Runs random steps on Go's own lock word and on ours, and compares each word and answer.
//
// Go's code is copied beside this file when it is built, as it stands in Debian's golang-src; its semaphores are
// the two functions below, which stop inside each call until the next step, so that a Go call that waits or that
// releases several waiters goes through the same single steps as a script of `pollrelay trace`.
package main

import (
	"bytes"
	"flag"
	"fmt"
	"math/rand"
	"os"
	"os/exec"
	"strings"
)

// What Go's file needs of its package.
type FD struct {
	fdmu   fdMutex
	isFile bool
}

func (fd *FD) destroy() error { return nil }

func errClosing(isFile bool) error { return nil }

// A call of Go's in a goroutine of its own, which goes on when it gets a step and answers it when it stops again.
type call struct {
	steps   chan string
	answers chan string
	// what the call has still to answer where it stops first
	pending string
}

// The call that runs: one at a time.
var running *call

// Lets a queued lock fail here in place of parking, for the many waiters that nobody ever wakes.
type abandoned struct{}

func runtime_Semacquire(sema *uint32) {
	c := running
	if c == nil {
		panic(abandoned{})
	}
	c.answers <- "queued"
	for range c.steps {
		if *sema > 0 {
			break
		}
		c.answers <- "notyet"
	}
	*sema--
	c.answers <- "woken"
	// the lock is tried again at the next step
	<-c.steps
}

func runtime_Semrelease(sema *uint32) {
	c := running
	c.answers <- c.pending
	<-c.steps
	*sema++
	c.pending = "signalled"
}

// Does what the steps ask of Go's word, one call after the other.
func (c *call) serve(mu *fdMutex) {
	for op := range c.steps {
		c.answers <- c.do(mu, op)
	}
}

func (c *call) do(mu *fdMutex, op string) (answer string) {
	defer func() {
		if why := recover(); why != nil {
			answer = panicked(why)
		}
	}()
	switch op {
	case "incref":
		return either(mu.incref(), "held", "closed")
	case "rlock", "wlock":
		return either(mu.rwlock(op == "rlock"), "held", "closed")
	case "decref":
		return either(mu.decref(), "last", "kept")
	case "runlock", "wunlock":
		c.pending = "owes"
		last := mu.rwunlock(op == "runlock")
		return stopped(c, either(last, "last", "kept"), "owes")
	case "close":
		c.pending = "closing"
		return stopped(c, either(mu.increfAndClose(), "closing", "closed"), "closing")
	}
	panic("no such operation: " + op)
}

// The answer of a call that may have stopped at a release: then its last step was a signal.
func stopped(c *call, answer, first string) string {
	if c.pending != first {
		return c.pending
	}
	return answer
}

func either(is bool, yes, no string) string {
	if is {
		return yes
	}
	return no
}

// Go panics where a script is answered.
func panicked(why any) string {
	text := fmt.Sprint(why)
	if strings.HasPrefix(text, "too many concurrent operations") {
		return "toomany"
	}
	if text == "inconsistent poll.fdMutex" {
		return "misuse"
	}
	panic(why)
}

func main() {
	program := flag.String("program", "", "the built pollrelay")
	total := flag.Int("steps", 1_000_000, "how many steps in all")
	seed := flag.Int64("seed", 1, "the first round's seed")
	flag.Parse()
	done, rounds, answers := 0, 0, map[string]int{}
	for done < *total {
		r := newRound(*seed+int64(rounds), rounds%25 == 24)
		r.play(1_000)
		if err := r.compare(*program); err != nil {
			fmt.Printf("seed %d: %v\n", *seed+int64(rounds), err)
			os.Exit(1)
		}
		for _, line := range r.expected {
			answers[strings.Fields(line)[0]]++
		}
		done, rounds = done+r.steps, rounds+1
	}
	fmt.Printf("%d steps in %d rounds: each word and answer is that of Go's lock word\n", done, rounds)
	fmt.Println(answers)
}

// compare runs the round's script and looks for the first line that differs.
func (r *round) compare(program string) error {
	command := exec.Command(program, "trace")
	command.Stdin = strings.NewReader(strings.Join(r.script, "\n"))
	out, err := command.Output()
	if err != nil {
		return fmt.Errorf("%s trace: %v", program, err)
	}
	got := strings.Split(string(bytes.TrimSuffix(out, []byte("\n"))), "\n")
	for i, want := range r.expected {
		if i >= len(got) || got[i] != want {
			from := max(0, i-8)
			return fmt.Errorf("line %d differs\n  script: %s\n  Go:     %s\n  ours:   %v", i+1,
				strings.Join(r.script[from:i+1], "; "), want, got[min(i, len(got)):min(i+1, len(got))])
		}
	}
	if len(got) != len(r.expected) {
		return fmt.Errorf("%d lines in place of %d", len(got), len(r.expected))
	}
	return nil
}

func min(a, b int) int {
	if a < b {
		return a
	}
	return b
}

func max(a, b int) int {
	return a + b - min(a, b)
}

func newRound(seed int64, atLimit bool) *round {
	r := &round{random: rand.New(rand.NewSource(seed)), mark: "-"}
	r.holders = make([]holder, 2+r.random.Intn(49))
	for i := range r.holders {
		r.holders[i] = holder{call: &call{steps: make(chan string), answers: make(chan string)}, stake: "free"}
		go r.holders[i].serve(&r.fd.fdmu)
	}
	if atLimit {
		r.fill()
	}
	return r
}
