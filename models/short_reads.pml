/* A socket of a loop's task, and which reads the task leaves out (crates/relay_core, source_state.rt).

   The peer sends up to BYTES bytes and then ends, at any time or never. Urgent data may come after any
   byte; over a Unix socket (OVER_UNIX) a byte may carry a descriptor instead. A read gives as many bytes
   as are there, at most ROOM; it stops ahead of urgent data, behind a byte that carries a descriptor, and
   ahead of the end. The poller reports an edge for what came since its last report, with what a read stops
   at then. A task may give way after any read. In the end nobody may sleep beside what could be read. */
#ifndef BYTES
#define BYTES 4
#endif
#define ROOM 2
#define NOWHERE 15

byte sent = 0, taken = 0;           /* bytes that came, and those that were read */
byte urgent = NOWHERE;              /* how many bytes are ahead of the urgent data that isn't passed yet */
byte carrier = NOWHERE;             /* the byte that carries a descriptor, from 1 on */
bit ended = 0, edge = 0, over = 0;

#define SOMETHING (taken < sent || ended)
#define STOPS (ended || urgent != NOWHERE)

active proctype Peer() {
  do
  :: atomic { !ended && sent < BYTES -> sent++; edge = 1 }
  :: atomic { !ended && sent < BYTES && sent > 0 && urgent == NOWHERE -> urgent = sent; sent++; edge = 1 }
#ifdef OVER_UNIX
  :: atomic { !ended && sent < BYTES && carrier == NOWHERE -> sent++; carrier = sent; edge = 1 }
#endif
  :: atomic { !ended -> ended = 1; edge = 1 }
  :: sent == BYTES || ended -> break
  :: break
  od
}

/* recv: `count` bytes, of which 0 is the end, or `blocks` */
inline receive() {
  atomic {
    count = 0; blocks = 0;
    do
    :: count == ROOM || taken == sent -> break
    :: count < ROOM && taken < sent && taken == urgent && count > 0 -> break
    :: count < ROOM && taken < sent && taken == urgent && count == 0 -> urgent = NOWHERE
    :: count < ROOM && taken < sent && taken != urgent ->
       taken++; count++;
       if :: taken == carrier -> carrier = NOWHERE; break :: else -> skip fi
    od;
    if :: count == 0 && !ended -> blocks = 1 :: else -> skip fi
  }
}

/* SourceState::note_read */
inline note_read() {
#ifdef OVER_UNIX
#ifdef SHORT_READ_OVER_UNIX_IS_THE_LAST
  is_empty = !stop_ahead && count < ROOM
#else
  is_empty = 0
#endif
#elif defined(FULL_READ_IS_THE_LAST)
  is_empty = !stop_ahead
#elif defined(SHORT_READ_AT_A_STOP_IS_THE_LAST)
  is_empty = count < ROOM
#else
  is_empty = !stop_ahead && count < ROOM
#endif
}

active proctype Task() {
  byte count = 0; bit blocks = 0, is_empty = 0, stop_ahead = 0, told = 0, gave_way = 0;
  do
  :: over -> break
  :: else ->
     atomic {                                  /* the poll: at once where the task gave way */
       edge || gave_way ->
#ifdef POLLER_TELLS_NO_END
       told = edge && urgent != NOWHERE;
#elif defined(POLLER_TELLS_NO_URGENT_DATA)
       told = edge && ended;
#else
       told = edge && STOPS;
#endif
       edge = 0; gave_way = 0
     };
     atomic {                                  /* SourceState::resume */
#ifdef STOP_AHEAD_IS_FORGOTTEN
       stop_ahead = told;
#else
       stop_ahead = stop_ahead || told;
#endif
#ifndef RESUMED_SOURCE_STAYS_EMPTY
       is_empty = 0
#endif
     };
     do                                        /* TaskGate::poll_read, again and again */
     :: is_empty -> break
     :: else ->
        receive();
        if
        :: blocks -> break
        :: !blocks && count == 0 -> over = 1; break
        :: !blocks && count > 0 -> note_read()
        fi;
        if :: gave_way = 1; break :: skip fi
     od
  od
}

/* In the end: the task is over, or nothing is left to read. */
active proctype Watch() {
  timeout -> assert(over || !SOMETHING)
}
