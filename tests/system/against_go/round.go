package main

import (
	"fmt"
	"math/rand"
)

// A round: one word of Go's, its holders, and the script that says the same to ours.
type round struct {
	random   *rand.Rand
	fd       FD
	holders  []holder
	mark     string
	script   []string
	expected []string
	steps    int
}

// A holder's stake says what may be asked of it next, so that Go's word is used as its callers use it.
type holder struct {
	*call
	stake string
	// what a closer still owes, readers first
	reads, writes uint64
}

const (
	// what one who waits adds to our word, and its limits
	readWaiter     = 1 << 27
	writeWaiter    = 1 << 45
	mostReferences = 1<<24 - 1
	mostWaiting    = 1<<18 - 1
	// names of holders that only fill a count
	fillers = 1_000
)

// ours is our word with the fields of Go's.
func ours(word uint64) uint64 {
	return word&(mutexClosed|mutexRLock|mutexWLock|mutexRefMask) |
		word&mutexRMask/mutexRWait*readWaiter | word&mutexWMask/mutexWWait*writeWaiter
}

// play makes so many steps, or ends once nothing but a closed word is left.
func (r *round) play(steps int) {
	for r.steps < steps {
		i := r.random.Intn(len(r.holders))
		if op := r.choose(&r.holders[i]); op != "" {
			r.step(i, op)
		}
		if r.mark != "-" && r.random.Intn(40) == 0 {
			break
		}
	}
	// a goroutine that is parked inside a call stays there: the round is over
}

// choose picks an operation that this holder's stake allows, or that Go itself refuses by a panic.
func (r *round) choose(h *holder) string {
	word := r.fd.fdmu.state
	switch h.stake {
	case "free":
		return r.chooseFree(word)
	case "ref":
		return "decref"
	case "read", "write":
		return h.stake[:1] + "unlock"
	case "waits r", "waits w":
		return r.chooseWaiting(h.stake[6:])
	case "woken r", "woken w":
		return h.stake[6:] + "lock"
	case "owes r", "owes w":
		return h.stake[5:] + "signal"
	case "closing":
		return chooseClosing(h)
	case "last":
		return "destroy"
	}
	panic(h.stake)
}

func (r *round) chooseFree(word uint64) string {
	switch n := r.random.Intn(2_000); {
	case n < 600:
		return "incref"
	case n < 1_250:
		return "rlock"
	case n < 1_900:
		return "wlock"
	case n < 1_904:
		return "close"
	// a return that Go calls inconsistent
	case n < 1_940 && word&mutexRefMask == 0:
		return "decref"
	case n < 1_970 && word&mutexRLock == 0:
		return "runlock"
	case word&mutexWLock == 0:
		return "wunlock"
	}
	return ""
}

// chooseWaiting wakes where there is a signal; where there is none, seldom, since that changes nothing.
func (r *round) chooseWaiting(way string) string {
	signals := map[string]uint32{"r": r.fd.fdmu.rsema, "w": r.fd.fdmu.wsema}[way]
	if signals == 0 && r.random.Intn(30) > 0 {
		return ""
	}
	return way + "wake"
}

func chooseClosing(h *holder) string {
	switch {
	case h.reads > 0:
		return "rsignal"
	case h.writes > 0:
		return "wsignal"
	}
	return "decref"
}

func (r *round) step(i int, op string) {
	h := &r.holders[i]
	before := r.fd.fdmu.state
	answer := "done"
	if op == "destroy" {
		r.mark = fmt.Sprint(i)
		h.stake = "free"
	} else {
		running = h.call
		h.steps <- op
		answer = <-h.answers
		h.after(op, answer, before)
	}
	r.say(fmt.Sprintf("%d %s", i, op), answer, 1)
}

func (r *round) say(line, answer string, steps int) {
	mu := &r.fd.fdmu
	r.script = append(r.script, line)
	r.expected = append(r.expected, fmt.Sprintf("%s %016x %d %d %s", answer, ours(mu.state), mu.rsema, mu.wsema, r.mark))
	r.steps += steps
}

// after says what the holder has now.
func (h *holder) after(op, answer string, before uint64) {
	switch answer {
	case "held":
		h.stake = map[string]string{"incref": "ref", "rlock": "read", "wlock": "write"}[op]
	case "queued":
		h.stake = "waits " + op[:1]
	case "woken":
		h.stake = "woken " + op[:1]
	case "owes":
		h.stake = "owes " + op[:1]
	case "closing":
		h.stake, h.reads, h.writes = "closing", before&mutexRMask/mutexRWait, before&mutexWMask/mutexWWait
	case "signalled":
		h.signalled(op)
	case "last":
		h.stake = "last"
	case "kept", "closed":
		h.stake = "free"
	}
}

func (h *holder) signalled(op string) {
	switch {
	case h.stake != "closing":
		h.stake = "free"
	case op == "rsignal":
		h.reads--
	default:
		h.writes--
	}
}

// near is a count at the limit, or one or two below it, where Go's and ours are the same; else one that no holder
// takes to either.
func (r *round) near(limitOfGo, limit int) int {
	if limitOfGo == limit {
		return limit - r.random.Intn(3)
	}
	return min(limitOfGo, limit) - len(r.holders)
}

// fill takes one count to its limit, or near it, before the holders begin.
func (r *round) fill() {
	if r.random.Intn(2) == 0 {
		n := r.near(mutexRefMask/mutexRef, mostReferences)
		for i := 0; i < n; i++ {
			r.fd.fdmu.incref()
		}
		r.say(fmt.Sprintf("%d+%d incref", fillers, n), "held", 1)
		return
	}
	n := r.near(mutexRMask/mutexRWait, mostWaiting)
	way := []string{"r", "w"}[r.random.Intn(2)]
	r.step(0, way+"lock")
	running = nil
	for i := 0; i < n; i++ {
		r.abandon(way == "r")
	}
	r.say(fmt.Sprintf("%d+%d %slock", fillers, n, way), "queued", 1)
}

// abandon queues a lock that nobody waits for.
func (r *round) abandon(read bool) {
	defer func() {
		if _, is := recover().(abandoned); !is {
			panic("a lock that is held was granted again")
		}
	}()
	r.fd.fdmu.rwlock(read)
}
