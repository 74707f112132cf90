/* What admin sessions ask of connections (crates/relay_shared, requests.rt), and how the loop that has them answers.

   The main thread serves SESSIONS places of sessions between two turns of its loop. A session has LINES lines, which
   come at any time: each asks to close or to drain a connection by its id; with FINISHES or STOPS also that the relay
   finishes or stops. A request goes into the inbox of the connection's loop, which carries it out between two of its
   turns, puts the answer into the session's slot, and wakes the main thread. CONNS accepted connections lie in the
   same inbox. A set-up may be refused, and a connection may end by itself. LOOP_FAILS has the loop's poller fail at
   any turn. With SESSIONS_LEAVE a session may go while its request is out, and another has its place.

   In the end nobody waits: each session has the answers to its requests, unless the relay was stopped. An answer is
   to the request that the session waits for. Of the closes of a connection one at most is told as done, once that is
   so. What is done to a connection was asked of that connection. A relay that finishes ends with its last connection,
   and not before each answer was taken. */
#ifndef SESSIONS
#define SESSIONS 2
#endif
#ifndef LINES
#define LINES 1
#endif
#ifndef CONNS
#define CONNS 1
#endif
#define LOOP 0
#define MAIN 1
#define CLOSE 1                     /* what a line asks */
#define DRAIN 2
#define FINISH 3
#define STOP 4
#define FREE 0                      /* Slot */
#define ASKED 1
#define ANSWERED 2
#define DONE 1                      /* Answer */
#define UNKNOWN 2

byte slot[SESSIONS], number[SESSIONS], answer[SESSIONS];
byte next = 1;                      /* the number of the next request */
byte lines[SESSIONS];               /* lines that are to come */
byte asked[SESSIONS];               /* the request for whose answer the session in this place waits, or 0 */
byte entry[CONNS + 1];              /* what a session finds by an id: the token of the connection's task, or 0 */
byte task[CONNS + 2];               /* the loop's tasks: the connection that a token names, or 0 */
byte vacant = 1;                    /* the token of the next task */
byte accepted = 1;                  /* the next of the accepted connections in the inbox */
byte standing = CONNS;              /* connections that are counted */
bit ends[CONNS + 1];                /* the connection's peers will end it */
byte oks[CONNS + 1];                /* sessions whose close of a connection was answered as done */
bit finishing = 0, stopped = 0, over = 0, loop_ended = 0;
bit sleeps[2], woken[2], waker[2], polls[2];

/* the requests in the inbox, and those that the loop has taken out: place, number, token, what is asked, id */
chan requests = [2 * SESSIONS] of { byte, byte, byte, byte, byte };
chan taken = [2 * SESSIONS] of { byte, byte, byte, byte, byte };

#define has_line(p) (lines[p] > 0 && asked[p] == 0)
#ifdef SESSIONS_LEAVE
#define has_event(p) (lines[p] > 0)
#else
#define has_event(p) has_line(p)
#endif
#define a_line_comes (has_event(0) || has_event(SESSIONS - 1))
#define may_end(c) (ends[c] && entry[c] != 0)

/* LoopRemote::rouse */
inline rouse(who) {
  atomic { was = sleeps[who]; sleeps[who] = 0 };
  if :: was -> waker[who] = 1 :: else -> skip fi;
  was = 0
}

/* LoopRemote::wake */
inline wake(who) {
#ifdef WOKEN_IS_SET_AFTER_THE_LOOP_IS_ROUSED
  rouse(who); woken[who] = 1
#else
  woken[who] = 1; rouse(who)
#endif
}

/* LoopRemote::may_sleep, and the wait of a turn, which an event ends too */
inline sleep(who, event) {
  sleeps[who] = 1;
  if
  :: woken[who] -> skip
  :: atomic { !woken[who] -> polls[who] = 1 };
     atomic { waker[who] || event -> polls[who] = 0 }
  fi;
  waker[who] = 0;
  sleeps[who] = 0
}

/* Shared::stop */
inline stop() {
#ifdef STOP_WAKES_BEFORE_IT_IS_SAID
  wake(MAIN); wake(LOOP); stopped = 1
#else
  stopped = 1;
#ifndef STOP_WAKES_NO_MAIN
  wake(MAIN);
#endif
#ifndef STOP_WAKES_NO_LOOP
  wake(LOOP)
#else
  skip
#endif
#endif
}

/* Slots::begin */
inline begin() { atomic { slot[p] = ASKED; number[p] = next; next++ } }

/* LoopHandle::ask */
inline ask() {
#ifdef LOOP_IS_WOKEN_BEFORE_THE_REQUEST_IS_PUT
  wake(LOOP); requests ! p, asked[p], token, asks, c
#elif defined(LOOP_ISNT_WOKEN)
  requests ! p, asked[p], token, asks, c
#else
  requests ! p, asked[p], token, asks, c; wake(LOOP)
#endif
}

/* RelayDesk::ask, of the session at place p */
inline ask_loop() {
  token = entry[c];
  if
  :: token == 0 -> skip                                 /* unknown, which is told at once */
  :: else ->
     asked[p] = next;
#ifdef SLOT_IS_BEGUN_AFTER_THE_REQUEST_IS_PUT
     ask(); begin()
#else
     begin(); ask()
#endif
  fi;
  token = 0
}

/* Slots::take: the answer is to the request that was asked. One close of a connection is answered as done, and once
   nobody finds that any more. */
inline take() {
  assert(number[p] == asked[p]);
  if
  :: closes[p] != 0 && answer[p] == DONE ->
     oks[closes[p]]++;
     assert(oks[closes[p]] == 1 && entry[closes[p]] == 0)
  :: else -> skip
  fi;
  slot[p] = FREE; answer[p] = 0; asked[p] = 0; closes[p] = 0
}

/* Sessions::may_go_on and go_on, of the session at place p */
inline serve_one() {
  if
  :: atomic { asked[p] != 0 && slot[p] == ANSWERED -> take() }
#ifdef SESSIONS_LEAVE
  :: atomic { asked[p] != 0 && slot[p] == ASKED -> slot[p] = FREE; asked[p] = 0; closes[p] = 0 }
#endif
  :: else -> skip
  fi;
  do
  :: atomic { has_line(p) ->
       lines[p]--;
       if
       :: asks = CLOSE; c = 1; closes[p] = 1
#if CONNS == 2
       :: asks = CLOSE; c = 2; closes[p] = 2
#endif
       :: asks = DRAIN; c = 1
#ifdef FINISHES
       :: asks = FINISH
#endif
#ifdef STOPS
       :: asks = STOP
#endif
       fi };
     if
     :: asks == FINISH -> finishing = 1
     :: asks == STOP -> stop()
     :: else -> ask_loop()
     fi;
     atomic { if :: asked[p] == 0 -> closes[p] = 0 :: else -> skip fi; asks = 0; c = 0 }
  :: break
  od
}

/* Sessions::serve */
inline serve() {
  do
  :: p < SESSIONS -> serve_one(); p++
  :: else -> p = 0; break
  od
}

/* sessions that wait for an answer */
inline count_held() {
  atomic {
    do
    :: p < SESSIONS -> if :: asked[p] != 0 -> held++ :: else -> skip fi; p++
    :: else -> p = 0; break
    od
  }
}

/* MainLoop::turn_until_stop */
proctype Main() {
  byte p = 0, token = 0, asks = 0, c = 0, stood = 0, held = 0, closes[SESSIONS]; bit was = 0;
  do
  :: sleep(MAIN, a_line_comes);
#ifndef WOKEN_IS_UNSET_AFTER_THE_SESSIONS_LOOK
     woken[MAIN] = 0;
#endif
#ifdef MAIN_COUNTS_BEFORE_IT_SERVES
     stood = standing;
     serve();
#else
     serve();
     stood = standing;
#endif
#ifdef WOKEN_IS_UNSET_AFTER_THE_SESSIONS_LOOK
     woken[MAIN] = 0;
#endif
     count_held();
     if
     :: stopped -> break
#ifdef MAIN_WAITS_FOR_NO_SESSION
     :: !stopped && finishing && stood == 0 -> assert(held == 0); break
#else
     :: !stopped && finishing && stood == 0 && held == 0 -> break
#endif
     :: else -> stood = 0; held = 0
     fi
  od;
  stop();
  loop_ended;
  over = 1
}

#include "requests_loop.inc"
/* run_loop */
proctype Loop() {
  byte t = 0, q = 0, r = 0, asks = 0, id = 0, c = 0; bit was = 0, is_awaited = 0;
  do
#ifdef LOOP_FAILS
  :: break
#endif
  :: sleep(LOOP, (may_end(1) || may_end(CONNS)));
#ifndef WOKEN_IS_UNSET_AFTER_THE_INBOX_IS_TAKEN
     woken[LOOP] = 0;
#endif
     if
     :: may_end(1) -> end_connection(entry[1])
#if CONNS == 2
     :: may_end(2) -> end_connection(entry[2])
#endif
     :: skip
     fi;
     if :: stopped -> break :: else -> skip fi;
     empty_inbox()
  od;
#ifndef LOOP_THAT_FAILS_STOPS_NOBODY
  stop();
#endif
  loop_ended = 1
}

init {
  byte p = 0;
  atomic {
    do :: p < SESSIONS -> lines[p] = LINES; p++ :: p == SESSIONS -> p = 0; break od;
    if :: ends[1] = 1 :: skip fi;
#if CONNS == 2
    if :: ends[2] = 1 :: skip fi;
#endif
    woken[LOOP] = 1;                                    /* by who put the accepted connections into the inbox */
    run Loop(); run Main()
  };
  timeout;
  /* nothing more can happen */
  if
  :: over -> skip
  :: else ->
     assert(polls[LOOP] && polls[MAIN] && !woken[LOOP] && !woken[MAIN] && empty(requests));
     assert(!(finishing && standing == 0));
     do
     :: p < SESSIONS -> assert(asked[p] == 0 && slot[p] == FREE && lines[p] == 0); p++
     :: else -> break
     od
  fi
}
