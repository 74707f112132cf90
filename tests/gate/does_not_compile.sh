#!/bin/sh
# Uses of the lock word's values, of calls under way and of a relay's connections, that the compiler refuses. Each line below
# that ends in `// refused: CODE` has to be refused with that code, and no other line with any. It proves nothing and takes
# a minute.
set -eu
root=$(cd "$(dirname "$0")/../.." && pwd)
work=$(mktemp -d)
trap 'rm -rf "$work"' EXIT
mkdir -p "$work/whole" "$work/crates/misuse/src" "$work/crates/misuse/specs" "$work/crates/misuse/proofs"
touch "$work/crates/misuse/specs/Lib.antt" "$work/crates/misuse/proofs/Lib.antt"
cp "$root/HANDLES" "$work/"
below='base_types lockword_core lockword fdmutex deadline_core rwloops fd_descriptor'
below="$below stream_base conntable readiness relay_ledger relay_admin relay_core relay_log log_writer relay_metrics"
below="$below ip_text text_reading proxy_header target_pick config_values client_nets client_sources relay_config relay_settings"
below="$below relay_facts relay_shared relay_conn relay_loops relay_main metrics_server relay_server"
for crate in $below; do
    (cd "$root/crates" && tar --exclude=out --exclude=must-fail --exclude=wrong-bodies -cf - "$crate") | tar -C "$work/crates" -xf -
done
cd "$work/crates/misuse"

# begin CRATE..: this crate anew, over these and without a module
begin() {
    grep -E "^($(echo "$below" | tr ' ' '|'))[ :]" "$root/crates.txt" > "$work/crates.txt"
    echo "misuse: $*" >> "$work/crates.txt"
    rm -f src/*.rt
    printf '//! Misuse.\n#![tactic(auto)]\n' > src/lib.rt
}

# module NAME: a module of this crate, on standard input
module() {
    cat > "src/$1.rt"
    echo "mod $1;" >> src/lib.rt
    holds_mark "misuse/src/$1.rt"
}

# edited CRATE/src/FILE.rt WORDS..: a file of a crate below, as sed leaves it with these words, up to the next look
edited() {
    file=$1
    shift
    whole="$work/whole/$(echo "$file" | tr / :)"
    cp "../$file" "$whole"
    sed -i "$@" "../$file"
    if cmp -s "$whole" "../$file"; then
        echo "$file has not what is edited"
        exit 1
    fi
}

holds_mark() {
    if ! grep -q '// refused: ' "../$1"; then
        echo "no line of $1 is marked"
        exit 1
    fi
}

# refuses WHAT: all marked lines are refused, of this crate and of those below it, and no other line is
refuses() {
    (cd .. && grep -rn --include='*.rt' '// refused: ' .) | sed 's|^\./||; s|:\([0-9]*\):.*// refused: | \1 |' | sort -u > "$work/wanted"
    # (rt would go on to prove what stands below, where nothing is refused)
    rt check --only "" > "$work/said" 2>&1 || true
    # (of a crate below it tells the whole path)
    sed -n "s|^src/|misuse/src/|; s|^$work/crates/||; s|:\([0-9]*\):[0-9]*: error\[\([a-z0-9-]*\)\].*| \1 \2|p" "$work/said" | sort -u > "$work/found"
    if ! diff "$work/wanted" "$work/found"; then
        echo "$1: not refused as it must be (< wanted, > found)"
        exit 1
    fi
    echo "$1: refused at $(wc -l < "$work/wanted") lines, as it must be"
    for kept in "$work"/whole/*; do
        [ ! -f "$kept" ] || mv "$kept" "../$(basename "$kept" | tr : /)"
    done
}

# The compiler looks at what is spent twice only where nothing is let go, and at both only where all else is well: hence three looks,
# each at all crates.
begin base_types lockword rwloops fd_descriptor log_writer relay_facts relay_shared relay_conn relay_loops

# A half after the unlock, and a value spent twice.
module spent_twice << 'END'
//! A value goes into one call, and the half is lent for as long as its lock is.

use lockword::{LockWord, ReadLock, Ref, UnlockRead, UnlockWrite, WriteLock};

pub fn half_after_the_unlock(word: &LockWord<u64, u64>, mut lock: ReadLock<u64, u64>) -> UnlockRead<u64, u64> {
    let half = lock.half(word);
    let answer = word.try_unlock_read(lock); // refused: borrow-e0505
    *half = 1;
    answer
}

pub fn second_use_of_a_lock(word: &LockWord<u64, u64>, lock: WriteLock<u64, u64>) -> (UnlockWrite<u64, u64>, UnlockWrite<u64, u64>) {
    let first = word.try_unlock_write(lock);
    let second = word.try_unlock_write(lock); // refused: borrow-e0382
    (first, second)
}

pub fn half_of_a_spent_lock(word: &LockWord<u64, u64>, mut lock: WriteLock<u64, u64>) -> UnlockWrite<u64, u64> {
    let answer = word.try_unlock_write(lock);
    *lock.half(word) = 1; // refused: borrow-e0382
    answer
}

pub fn reference_copied(held: Ref<u64, u64>) -> (Ref<u64, u64>, Ref<u64, u64>) {
    (held, held) // refused: borrow-e0382
}
END

# A task's half after its end.
module half_after_end << 'END'
//! A task's half goes into its end, which gives a handle back; while there is a half its handle is gone, and a half that is in
//! use stays under its lock.

use fd_descriptor::{Fault, FdHandle, Progress, Resource, TaskReader, TaskWriter, TryRead, TryWrite};
use std::sync::Wait;

pub fn read_after_the_end<X: Resource, T: Wait + Copy>(
    mut reader: TaskReader<X, T>,
    buf: &mut [u8],
) -> (FdHandle<X>, Option<Result<usize, Fault>>)
where
    X::R: TryRead,
{
    let handle = reader.into_handle();
    let answer = reader.poll_read(buf); // refused: borrow-e0382
    (handle, answer)
}

pub fn write_after_it_was_let_go<X: Resource, T: Wait + Copy>(
    mut writer: TaskWriter<X, T>,
    bytes: &[u8],
) -> Progress
where
    X::W: TryWrite,
{
    drop(writer);
    writer.poll_write(bytes) // refused: borrow-e0382
}

pub fn ended_twice<X: Resource, T: Wait + Copy>(reader: TaskReader<X, T>) -> (FdHandle<X>, FdHandle<X>) {
    let first = reader.into_handle();
    let second = reader.into_handle(); // refused: borrow-e0382
    (first, second)
}

pub fn handle_while_a_task_has_its_half<X: Resource, T: Wait + Copy>(
    rt: T,
    mut handle: FdHandle<X>,
    buf: &mut [u8],
) -> Result<usize, Fault>
where
    X::R: TryRead,
{
    let reader = TaskReader::new(rt, handle);
    drop(reader);
    handle.read(&rt, buf) // refused: borrow-e0382
}
END

# A connection ends once, and its entry in the index goes to one holder of its id.
module ended_twice << 'END'
//! A connection goes into its end, and what was entered into the index into its id.

use log_writer::Log;
use relay_conn::connection::{Connection, EndedConnection};
use relay_facts::books::LoopBooks;
use relay_shared::index::Entered;
use relay_shared::standing::RelayIndex;
use std::sync::ledger::Ledger;
use std::sync::{Arc, Mutex, Wait};
use std::time::Clock;

pub fn connection_ended_twice<U: Ledger, D: Ledger, R: Wait + Clock + Copy>(
    connection: Connection<U, D, R>,
    rt: &R,
    index: &Mutex<RelayIndex>,
    books: &mut LoopBooks<U, D>,
    log: &Option<Arc<Log>>,
) -> (EndedConnection, EndedConnection) {
    let first = connection.end(rt, index, books, log, 1);
    let second = connection.end(rt, index, books, log, 2); // refused: borrow-e0382
    (first, second)
}

pub fn entry_kept_twice(entered: Entered) -> (u64, u64) {
    let first = entered.keep();
    let second = entered.keep(); // refused: borrow-e0382
    (first, second)
}
END

# A side of a connection that ends is closed once.
edited relay_conn/src/connection.rt 's|^            target\.close(rt);$|&\n            target.close(rt); // refused: borrow-e0382|'
holds_mark relay_conn/src/connection.rt

# A session is told what came of its request after the deed, and once.
edited relay_loops/src/requests.rt 's|^        let CarriedOut { ticket, answer } = self.fulfil(tasks, request);|        self.context.shared.answer(\&self.context.rt, request.ticket, request.question.asks.unknown());\n& // refused: borrow-e0382|'
holds_mark relay_loops/src/requests.rt
refuses 'values that are spent twice'

begin lockword relay_shared relay_conn relay_loops

# A value that must be spent, and is let go.
module let_go << 'END'
//! A reference, a lock, a place in a queue, a signal owed, the close, the drain that owes signals and the duty to destroy
//! can't be dropped.

use lockword::{Closing, Drains, Last, Owing, ReadLock, ReadWait, Ref, WriteLock, WriteWait};

pub fn reference(held: Ref<u64, u64>) {} // refused: linear-value-let-go

pub fn read_lock(lock: ReadLock<u64, u64>) {} // refused: linear-value-let-go

pub fn write_lock(lock: WriteLock<u64, u64>) {} // refused: linear-value-let-go

pub fn queued_reader(wait: ReadWait<u64, u64>) {} // refused: linear-value-let-go

pub fn queued_writer(wait: WriteWait<u64, u64>) {} // refused: linear-value-let-go

pub fn signal_owed(owing: Owing<u64, u64>) {} // refused: linear-value-let-go

pub fn close(closing: Closing<u64, u64>) {} // refused: linear-value-let-go

pub fn drain(drains: Drains<u64, u64>) {} // refused: linear-value-let-go

pub fn duty_to_destroy(last: Last<u64, u64>) {} // refused: linear-value-let-go
END

# What a relay's threads owe one another.
module owed << 'END'
//! An entry in the index, a question of a session, the answer that it is owed, the path of a bind, an end that is to be
//! told, and news of a host's addresses can't be dropped.

use relay_shared::bound_path::{BoundPath, BoundPaths};
use relay_shared::index::Entered;
use relay_shared::lookups::News;
use relay_shared::owed_end::OwedEnd;
use relay_shared::requests::{Request, Ticket};

pub fn entry(entered: Entered) {} // refused: linear-value-let-go

pub fn question(request: Request) {} // refused: linear-value-let-go

pub fn answer_that_is_owed(ticket: Ticket) {} // refused: linear-value-let-go

pub fn path(bound: BoundPath) {} // refused: linear-value-let-go

pub fn paths(bound: BoundPaths) {} // refused: linear-value-let-go

pub fn end_that_is_to_be_told(owed: OwedEnd) {} // refused: linear-value-let-go

pub fn news_of_a_host(news: News) {} // refused: linear-value-let-go
END

# A side of a connection that ends is closed.
edited relay_conn/src/connection.rt -e 's|^            target,$|            target, // refused: linear-value-let-go|' \
    -e '/^        if let Some(target) = target {$/,/^        }$/d'
holds_mark relay_conn/src/connection.rt

# A client that was delivered to its loop is counted, and why it is refused is told.
edited relay_loops/src/set_up.rt -e '/^                let owed = arrival\.refused(/d' -e '/^                owed\.tell(/d' \
    -e 's|^        match self\.connect(tasks, .*{$|& // refused: linear-value-let-go|'
holds_mark relay_loops/src/set_up.rt

# The end of a connection is told to a relay that finishes, and so is that of a client that is turned away.
edited relay_loops/src/loops.rt -e '/^        owed\.tell(/d' \
    -e 's|^        let EndedConnection { gone, owed } = task\.end($|& // refused: linear-value-let-go|'
holds_mark relay_loops/src/loops.rt
edited relay_loops/src/awaiting.rt -e '/^        owed\.tell(/d' \
    -e 's|^        let owed = arrival\.refused(.*$|& // refused: linear-value-let-go|'
holds_mark relay_loops/src/awaiting.rt
refuses 'values that are let go'

begin lockword relay_server

# A value that is taken apart, or made up.
module made_up << 'END'
//! The fields are private, so that nobody takes a half out of its lock or makes a seat of a reference.

use lockword::{ReadLock, Ref, Seat};

pub fn half_out_of_its_lock(lock: ReadLock<u64, u64>) -> u64 {
    lock.half // refused: private-field
}

pub fn seat_of_a_reference(held: Ref<u64, u64>) -> Seat<u64, u64> {
    Seat { place: held.place } // refused: private-field
}
END

# A try call that takes a lock.
module waiting_try << 'END'
//! To take a lock is to wait, and a try call has no runtime to wait with.

use std::sync::Mutex;

pub fn try_with_a_mutex_around_the_state(state: &Mutex<u64>) -> u64 {
    *state.lock() // refused: mismatched-argument-count
}
END

# The same inside the word: a `LockWord` that keeps a mutex beside its table, and a try that takes it before its step.
edited lockword/src/holders.rt 's|^    pub(crate) table: Table<.*|&\n    pub(crate) guard: std::sync::Mutex<u64>,|'
edited lockword/src/seats.rt 's|LockWord { table }|LockWord { table, guard: std::sync::Mutex::new(0) }|'
edited lockword/src/references.rt \
    's|^        match self\.try_step::<TakeReference>.*|        let held = self.guard.lock(); // refused: mismatched-argument-count\n&|'
holds_mark lockword/src/references.rt

# The totals of a relay are told once its inboxes are empty.
edited relay_server/src/server.rt '/^        let emptied = empty_inboxes/d; s|^        joined\.totals(emptied)|        joined.totals() // refused: mismatched-argument-count|'
holds_mark relay_server/src/server.rt
refuses 'values that are made up, and waits without a runtime'
