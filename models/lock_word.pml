/* Threads on one lock word (crates/lockword, crates/fdmutex).
   READERS and WRITERS lock and unlock ROUNDS times, REFERRERS take and give back a reference as
   often, each until the word is closed or drained; CLOSERS close, and wait for the end; AWAITERS
   wait for it; DRAINERS drain. */
#include "lock_word.inc"
#include "waiting_calls.inc"

#ifndef READERS
#define READERS 0
#endif
#ifndef WRITERS
#define WRITERS 0
#endif
#ifndef REFERRERS
#define REFERRERS 0
#endif
#ifndef CLOSERS
#define CLOSERS 0
#endif
#ifndef AWAITERS
#define AWAITERS 0
#endif
#ifndef DRAINERS
#define DRAINERS 0
#endif
#ifndef ROUNDS
#define ROUNDS 1
#endif

proctype Locker(byte id; byte d) {
  mtype answer = Lost; short found = 0; byte rounds = 0;
  do
  :: rounds < ROUNDS ->
     lock(d);
     if
     :: answer == Closed || answer == Draining -> break
     :: else -> skip
     fi;
     inside[d]++; assert(inside[d] == 1);
     inside[d]--;
     unlock(d);
     rounds++
  :: else -> break
  od;
  running--
}

proctype Referrer(byte id) {
  mtype answer = Lost; short found = 0; byte rounds = 0;
  do
  :: rounds < ROUNDS ->
     incref();
     if
     :: answer == Closed || answer == Draining -> break
     :: else -> decref(); rounds++
     fi
  :: else -> break
  od;
  running--
}

/* close_by without its cell */
proctype Closer(byte id) {
  mtype answer = Lost; short found = 0; byte owed[2] = 0;
  close_mark();
  if
  :: answer == Closed -> wait_done()          /* a caller of fdmutex may wait though another closed */
  :: else ->
     drop_closing();
     if
     :: answer == Last -> finish()
     :: else -> wait_done()
     fi;
#ifdef CLOSER_SIGNALS_AFTER_ITS_WAIT
     signal_all(READ); signal_all(WRITE)
#else
     skip
#endif
  fi;
  running--
}

proctype Drainer(byte id) {
  mtype answer = Lost; short found = 0; byte owed[2] = 0;
  drain();
  assert(state & (CLOSED_BIT | DRAIN_BIT));
  running--
}

proctype Awaiter(byte id) {
  wait_done();
  running--
}

#define BEFORE_CLOSERS (READERS + WRITERS + REFERRERS)

init {
  byte id = 0;
  atomic {
    running = READERS + WRITERS + REFERRERS + CLOSERS + AWAITERS + DRAINERS;
    assert(running <= 6);
    do
    :: id < READERS -> run Locker(id, READ); id++
    :: id >= READERS && id < READERS + WRITERS -> run Locker(id, WRITE); id++
    :: id >= READERS + WRITERS && id < BEFORE_CLOSERS -> run Referrer(id); id++
    :: id >= BEFORE_CLOSERS && id < BEFORE_CLOSERS + CLOSERS -> run Closer(id); id++
    :: id >= BEFORE_CLOSERS + CLOSERS && id < running - DRAINERS -> run Awaiter(id); id++
    :: id >= running - DRAINERS && id < running -> run Drainer(id); id++
    :: id == running -> break
    od
  };
  timeout;
  /* Nothing more will happen. Nobody waits but for the end of a word that nobody closes. */
  assert(signals[READ] == 0 && signals[WRITE] == 0 && asleep[READ] == 0 && asleep[WRITE] == 0);
  if
  :: CLOSERS == 0 ->
     assert(running == AWAITERS && UNDRAINED(state) == 0 && home[READ] && home[WRITE]);
     assert((state == DRAIN_BIT) == (DRAINERS > 0))
  :: else -> assert(running == 0 && destroyed == 1 && done && UNDRAINED(state) == CLOSED_BIT)
  fi
}
