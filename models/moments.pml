/* The moments by which a loop's tasks are resumed (crates/readiness, task_times.rt, turning.rt and loop_remote.rt):
   alarms, which the loop alone has, and timers, which another thread arms and disarms under their lock.

   A task awaits a moment or none, and awaits another once it was resumed. The loop asks it after each resume, and
   arms its alarm only where that would come too late. `first` is the least moment of the timers, for the loop's
   looks without their lock; `named` says so of the list of names. The setter arms, disarms and names its task, at
   any time or never. Some moments come after the clock has stopped. In the end none has passed that a task awaits or
   a timer is armed for, and nobody is named. */
#ifndef TASKS
#define TASKS 2
#endif
#ifndef SETTINGS                          /* of timers */
#define SETTINGS 2
#endif
#ifndef NAMINGS
#define NAMINGS 1
#endif
#ifndef RESUMES                           /* so many times a task awaits another moment */
#define RESUMES 2
#endif
#ifndef LAST_MOMENT
#define LAST_MOMENT 2
#endif
#define NEVER     0
#define PASSED(m) ((m) != NEVER && (m) <= now)
#define COMES_BY(alarm, at) ((alarm) != NEVER && (alarm) <= (at))

byte now = 1;
byte awaits[TASKS] = NEVER, alarm[TASKS] = NEVER, resumes = RESUMES;   /* what the loop alone has */
byte timer = NEVER, first = NEVER;                                     /* of the first task; a word for looks */
bit timers_held = 0, listed = 0, named = 0, sleeps = 0, waker = 0, polls = 0, over = 0;

/* LoopRemote::rouse */
inline rouse() {
  atomic { asleep = sleeps; sleeps = 0 };
  if
  :: asleep -> waker = 1; asleep = 0
  :: else -> skip
  fi
}

/* Host::resume, and then Tasks::keep_time, or renew_time for an alarm that came: the task awaits another moment, or
   none, or what it awaited; one that has come it awaits no more. */
inline resume(t, by_alarm) {
  atomic {
    if :: PASSED(awaits[t]) -> awaits[t] = NEVER :: else -> skip fi;
    if
    :: resumes > 0 -> resumes--; select(at : 0 .. LAST_MOMENT + 1); awaits[t] = at; at = 0
    :: skip
    fi;
#ifdef ALARM_THAT_CAME_STAYS_NOTED
    if
    :: awaits[t] != NEVER && !COMES_BY(noted[t], awaits[t]) -> noted[t] = awaits[t]; alarm[t] = awaits[t]
    :: else -> skip
    fi
#elif defined(TASK_IS_NOT_ASKED_AGAIN)
    if :: by_alarm -> alarm[t] = NEVER :: else -> skip fi
#elif defined(EARLIER_MOMENT_KEEPS_THE_LATER_ALARM)
    if
    :: by_alarm || alarm[t] == NEVER -> alarm[t] = awaits[t]
    :: else -> skip
    fi
#else
    if
#ifndef ALARM_THAT_CAME_IS_LEFT
    :: by_alarm -> alarm[t] = awaits[t]
    :: !by_alarm && awaits[t] != NEVER && !COMES_BY(alarm[t], awaits[t]) -> alarm[t] = awaits[t]
#else
    :: awaits[t] != NEVER && !COMES_BY(alarm[t], awaits[t]) -> alarm[t] = awaits[t]
#endif
    :: else -> skip
    fi
#endif
  }
}

/* Tasks::resume_late: each alarm that was due as the round came to its place */
inline resume_late() {
  do
  :: t < TASKS ->
     if
     :: PASSED(alarm[t]) ->
#ifdef ALARM_THAT_CAME_STAYS_NOTED
        alarm[t] = NEVER;
#endif
        resume(t, 1)
     :: else -> skip
     fi;
     t++
  :: else -> t = 0; break
  od
}

/* LoopRemote::none_due and due, and Tasks::resume_taken */
inline resume_due() {
  if
  :: !PASSED(first) -> skip
  :: else ->
     atomic { !timers_held -> timers_held = 1 };
     if :: PASSED(timer) -> timer = NEVER; due = 1 :: else -> skip fi;
#ifndef DUE_LEAVES_THE_FIRST_MOMENT
     first = timer;
#endif
     timers_held = 0;
     if :: due -> due = 0; resume(0, 0) :: else -> skip fi
  fi
}

/* EventLoop::turn */
active proctype Loop() {
  byte t = 0, at = 0, own = NEVER, next = NEVER; bit due = 0, is_told = 0;
#ifdef ALARM_THAT_CAME_STAYS_NOTED
  byte noted[TASKS] = NEVER;
#endif
  do
  :: over -> break
  :: else ->
#ifndef LATE_TASKS_ARE_LEFT_OUT
     resume_late();
#endif
     resume_due();
#ifdef LOOP_SAYS_THAT_IT_SLEEPS_AFTER_ITS_LOOKS
     is_told = named; next = first;
     sleeps = 1;
#else
     sleeps = 1;                          /* may_sleep: `named`, then `first`, then the first alarm of its own */
     is_told = named;
     next = first;
#endif
     atomic {
       own = NEVER;
       do
       :: t < TASKS ->
          if :: alarm[t] != NEVER && (own == NEVER || alarm[t] < own) -> own = alarm[t] :: else -> skip fi;
          t++
       :: else -> t = 0; break
       od;
#ifdef LOOP_SLEEPS_PAST_ITS_OWN_ALARMS
       own = NEVER;
#endif
       if :: own != NEVER && (next == NEVER || own < next) -> next = own :: else -> skip fi
     };
     if
     :: is_told -> is_told = 0; waker = 0
     :: else ->
        polls = 1;
        atomic { waker || PASSED(next) || over -> waker = 0; polls = 0 }
     fi;
     atomic { next = NEVER; own = NEVER };
     sleeps = 0;                          /* has_slept, and take_told */
     if
     :: !named -> skip
     :: else ->
#ifdef NAMED_IS_UNSET_AFTER_THE_LIST_IS_TAKEN
        atomic { due = listed; listed = 0 };
        named = 0;
#else
        named = 0;
        atomic { due = listed; listed = 0 };
#endif
        if :: due -> due = 0; resume(0, 0) :: else -> skip fi
     fi
  od
}

/* RemoteAlarms::arm and disarm: `first` is stored, and the loop woken where the moment comes first, with the lock held. */
inline set_timer() {
  atomic { !timers_held -> timers_held = 1; settings--; select(at : 0 .. LAST_MOMENT + 1) };
  comes_first = at != NEVER && (timer == NEVER || at < timer);
#ifdef LOOP_IS_WOKEN_BEFORE_THE_FIRST_MOMENT_IS_STORED
  if :: comes_first -> rouse() :: else -> skip fi;
  comes_first = 0;
#endif
  timer = at;
#ifndef FIRST_MOMENT_ISNT_STORED
  first = at;
#endif
  if :: comes_first -> rouse() :: else -> skip fi;
  atomic { comes_first = 0; at = 0; timers_held = 0 }
}

/* LoopRemote::tell */
inline name() {
  namings--;
#ifdef LOOP_IS_WOKEN_BEFORE_THE_NAME_IS_SET
  listed = 1;
  rouse();
  named = 1
#elif defined(NAME_IS_LISTED_AND_NOT_SET)
  listed = 1;
  rouse()
#else
  listed = 1;
  named = 1;
  rouse()
#endif
}

active proctype Setter() {
  byte settings = SETTINGS, namings = NAMINGS, at = 0; bit comes_first = 0, asleep = 0;
  do
  :: settings > 0 -> set_timer()
  :: namings > 0 -> name()
  :: break
  od
}

active proctype Clock() {
  do
  :: now < LAST_MOMENT -> now++
  :: else -> break
  od
}

/* In the end the loop sleeps, and nothing is late. */
active proctype Watch() {
  byte t = 0;
  timeout;
  assert(polls && !listed && !PASSED(timer));
  do
  :: t < TASKS -> assert(!PASSED(awaits[t])); t++
  :: else -> break
  od;
  over = 1
}
