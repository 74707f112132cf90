/* A descriptor: its lock word, the cell where its calls wait, its timers and one poller
   (crates/fd_descriptor, deadline_core; readiness, poller.rt; relay, closing.rt).

   READERS make READS reads each, WRITERS one write, SHUTTERS one close_write of a connection that is
   being made. A peer makes ARRIVALS bytes for readers and ROOMS rooms for writers, at any time.
   SETTERS set SETTINGS deadlines each, for reads, or for both directions where somebody writes.
   CLOSERS close, DRAINERS drain. The clock goes on to LAST_MOMENT. */
#include "lock_word.inc"
#include "waiting_calls.inc"
#include "cell.inc"

#ifndef READERS
#define READERS 0
#endif
#ifndef READS
#define READS 1
#endif
#ifndef WRITERS
#define WRITERS 0
#endif
#ifndef SHUTTERS
#define SHUTTERS 0
#endif
#ifndef SETTERS
#define SETTERS 0
#endif
#ifndef SETTINGS
#define SETTINGS 1
#endif
#ifndef CLOSERS
#define CLOSERS 0
#endif
#ifndef DRAINERS
#define DRAINERS 0
#endif
#ifndef ARRIVALS
#define ARRIVALS 0
#endif
#ifndef ROOMS
#define ROOMS 0
#endif
#ifndef LAST_MOMENT
#define LAST_MOMENT 2
#endif

#define THREADS (READERS + WRITERS + SHUTTERS + SETTERS + CLOSERS + DRAINERS)
#define BEFORE_SETTERS (READERS + WRITERS + SHUTTERS)
#define POLLER 6

byte table_lock = FREE;
bit in_table = 1;                 /* the entry, by which the poller finds the cell */
/* The system: what a try in each direction finds, and the edge that a poll tells once. */
byte available[2] = 0;
bit edge[2] = 0;
bit polling = 0;                  /* the poller is in its poll */
byte served = 0;

/* rwloops::read, write over one half: prepare, try, wait, try again. The answer is `look`. */
inline transfer(d) {
  prepare(d);
  do
  :: look != Go -> break
  :: else ->
     if
     :: atomic { available[d] > 0 -> available[d]--; served++; break }
     :: else -> wait_in_cell(d)
     fi
  od
}

/* shut_connected: waits while the connection is being made, unless it may not go on */
inline shut_connected() {
  look = Go;
  do
  :: available[WRITE] > 0 || look != Go -> break
  :: else -> wait_in_cell(WRITE)
  od
}

/* FdHandle::read, write, close_write over with_half */
proctype Caller(byte id; byte d; byte times; bit shuts) {
  mtype answer = 0, look = 0; short found = 0; byte seen = 0; bit over = 0;
  do
  :: times > 0 && !over ->
     times--;
     lock(d);
     if
     :: answer == Closed || answer == Draining -> over = 1
     :: else ->
        inside[d]++; assert(inside[d] == 1);
        if
        :: shuts -> shut_connected()
        :: else -> transfer(d)
        fi;
        atomic { over = (look != Go); look = 0; inside[d]-- };
        unlock(d)
     fi
  :: else -> break
  od;
  running--
}

/* FdHandle::set_read_deadline, set_deadline over set_by */
proctype Setter(byte id) {
  mtype answer = 0; short found = 0;
  byte settings = SETTINGS, at = 0, moment = 0; bit read = 1, write = 0;
  bit was_read = 0, was_write = 0, any = 0, first = 0, over = 0;
  do
  :: settings > 0 && !over ->
     atomic {
       settings--;
       select(at : 0 .. LAST_MOMENT);
#if WRITERS + SHUTTERS > 0
       select(write : 0 .. 1);
#endif
       moment = now               /* the caller's clock */
     };
#if CLOSERS + DRAINERS > 0        /* without them a reference delays nobody */
     incref();
#endif
     if
     :: answer == Closed || answer == Draining -> over = 1
     :: else ->
        set_deadline(read, write, at, moment);
#if CLOSERS + DRAINERS > 0
        decref()
#endif
     fi;
     atomic { at = 0; moment = 0; write = 0 }
  :: else -> break
  od;
  running--
}

/* close_by_id over close_by */
proctype Closer(byte id) {
  mtype answer = 0; short found = 0; byte owed[2] = 0;
  bit was_read = 0, was_write = 0, any = 0, mine = 0;
  atomic { table_lock == FREE -> mine = in_table; in_table = 0 };
#ifdef CLOSES_UNDER_THE_TABLES_LOCK
  TAKE(table_lock);
#endif
#ifdef ALARMS_GO_BEFORE_THE_CLOSE
  atomic { timers_lock == FREE -> alarm[READ] = NEVER; alarm[WRITE] = NEVER };
#endif
#ifdef WITHOUT_A_TABLE
  mine = 1;                       /* handles alone: each of them may close */
#endif
  if
  :: mine ->
#ifdef EVICTS_BEFORE_THE_FLAG
     evict();
#endif
     close_mark();
     if
     :: answer == Closed -> skip
     :: else ->
#if !defined(EVICTS_BEFORE_THE_FLAG) && !defined(EVICTS_AFTER_THE_DROP) && !defined(EVICTS_AFTER_THE_WAIT)
        evict();
#endif
        drop_closing();
#ifdef EVICTS_AFTER_THE_DROP
        evict();
#endif
        if
        :: answer == Last -> finish()
        :: else -> wait_done()
        fi;
#ifdef EVICTS_AFTER_THE_WAIT
        evict();
#endif
        assert(destroyed == 1)
     fi;
#ifndef ALARMS_GO_BEFORE_THE_CLOSE
     atomic { timers_lock == FREE -> alarm[READ] = NEVER; alarm[WRITE] = NEVER };
#endif
     assert(answer == Closed || (alarm[READ] == NEVER && alarm[WRITE] == NEVER))
  :: else -> skip
  fi;
#ifdef CLOSES_UNDER_THE_TABLES_LOCK
  GIVE(table_lock);
#endif
  running--
}

/* FdHandle::drain: it evicts nobody, so who is parked in the cell stays there */
proctype Drainer(byte id) {
  mtype answer = 0; short found = 0; byte owed[2] = 0;
#ifdef DRAIN_EVICTS
  bit was_read = 0, was_write = 0, any = 0;
  evict();
#endif
  drain();
  running--
}

#include "poller.inc"

/* The other end and the clock: what comes, comes at any time. */
proctype Peer(byte d; byte times) {
  do
  :: atomic { times > 0 -> times--; available[d]++; edge[d] = 1 }
  :: times == 0 -> break
  od
}

proctype Clock() {
  do
  :: now < LAST_MOMENT -> now++
  :: else -> break
  od
}

/* Whoever is asleep in the cell may be: no byte is there, no close and no deadline that has passed. */
#define MAY_WAIT(d) (available[d] == 0 && !closing && !PASSED(deadline[d], now))
#define BIT(mask, i) (((mask) >> (i)) & 1)
#define ASLEEP(mask) \
  (BIT(mask, 0) + BIT(mask, 1) + BIT(mask, 2) + BIT(mask, 3) + BIT(mask, 4) + BIT(mask, 5))

init {
  byte id = 0;
  atomic {
    running = THREADS;
    assert(THREADS <= 6);
    run Poller(POLLER);
    do
    :: id < READERS -> run Caller(id, READ, READS, 0); id++
    :: id >= READERS && id < READERS + WRITERS -> run Caller(id, WRITE, 1, 0); id++
    :: id >= READERS + WRITERS && id < BEFORE_SETTERS -> run Caller(id, WRITE, 1, 1); id++
    :: id >= BEFORE_SETTERS && id < BEFORE_SETTERS + SETTERS -> run Setter(id); id++
    :: id >= BEFORE_SETTERS + SETTERS && id < THREADS - DRAINERS -> run Closer(id); id++
    :: id >= THREADS - DRAINERS && id < THREADS -> run Drainer(id); id++
    :: id == THREADS -> break
    od;
    if :: ARRIVALS > 0 -> run Peer(READ, ARRIVALS) :: else -> skip fi;
    if :: ROOMS > 0 -> run Peer(WRITE, ROOMS) :: else -> skip fi;
    if :: SETTERS > 0 -> run Clock() :: else -> skip fi
  };
  timeout;
  /* Nothing more will happen: who waits is one that may wait, and all others have ended. */
  assert(polling && cell_lock == FREE && timers_lock == FREE && table_lock == FREE);
  assert(in_cell[READ] == 0 || MAY_WAIT(READ));
  assert(in_cell[WRITE] == 0 || MAY_WAIT(WRITE));
  assert(asleep[READ] == 0 || in_cell[READ] != 0);
  assert(asleep[WRITE] == 0 || in_cell[WRITE] != 0);
  assert(running == ASLEEP(in_cell[READ]) + ASLEEP(in_cell[WRITE]) + ASLEEP(asleep[READ]) + ASLEEP(asleep[WRITE]));
  assert(signals[READ] == 0 && signals[WRITE] == 0);
  /* Nobody queues for a half of a drained descriptor, and no drain ends a call. */
  assert(!(state & DRAIN_BIT) || (asleep[READ] == 0 && asleep[WRITE] == 0));
  assert(CLOSERS > 0 || !closing);
  if
  :: CLOSERS == 0 -> assert(destroyed == 0 && !done && !(state & CLOSED_BIT))
  :: else -> assert(running == 0 && destroyed == 1 && done && UNDRAINED(state) == CLOSED_BIT);
             assert(alarm[READ] == NEVER && alarm[WRITE] == NEVER)
  fi
}
