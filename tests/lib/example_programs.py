"""The examples on `net`, the first two steps of their guide, and what the benchmarks call: one program, built with nothing proved, that is
each of these by the name by which it is started."""
import fcntl
import hashlib
import os
import re
import shutil
import tempfile

from lib.joined import Joined, text_of, texts_below
from lib.places import ROOT
from lib.sockets import free_port, is_served
from lib.trial import Trial

GUIDE = f"{ROOT}/docs/net-guide.md"
STEP = re.compile(r"^`src/main.rt`:\n\n```rust\n(.*?)^```$", re.M | re.S)
CRATES = ("echo_server", "loop_echo_server", "line_server", "page_server", "bench_calls")
# (the other steps of the guide are examples)
STEPS = FIRST_STEP, SECOND_STEP = "first_step", "second_step"
MADE = f"{ROOT}/crates/net/out/examples"
# By any other name it is the second step, which needs a port alone and a time.
CHOICE = """
use net::Runs;
use std::env::Env;
use std::fs::Files;
use std::net::Net;
use std::process::ExitCode;
use std::random::RandomSource;
use std::thread::Threads;
use std::{env, io};

pub trait Host: Runs + Net + Files + Threads + Env + AllocGlobal + Print + RandomSource + Send + Sync + 'static {}

impl<R: Runs + Net + Files + Threads + Env + AllocGlobal + Print + RandomSource + Send + Sync + 'static> Host for R {}

fn main(rt: HostRuntime) -> io::Result<ExitCode> {
    let words: Vec<String> = env::args(&rt)?.collect(rt.alloc())?;
    let path = match words.as_slice() {
        [path, ..] => path.as_str(),
        [] => "",
    };
    match path.rsplit('/').next() {
        Some("bench_calls") => return bench_calls::main(rt),
        Some("echo_server") => echo_server::main(rt)?,
        Some("loop_echo_server") => loop_echo_server::main(rt)?,
        Some("line_server") => line_server::main(rt)?,
        Some("page_server") => page_server::main(rt)?,
        Some("first_step") => first_step::main(rt)?,
        _ => second_step::main(rt)?,
    }
    Ok(ExitCode::SUCCESS)
}
"""


def joined(top):
    """The folder of a crate, below a folder of its own, whose program is all of these."""
    made = Joined(top, "example_programs")
    for it in CRATES:
        made.take_crate(it)
    for name, text in zip(STEPS, STEP.findall(text_of(GUIDE))):
        made.take(name, ["net"], {"main.rt": text})
    made.begin("main.rt", CHOICE)
    return made.crate


def build(crate):
    """Has rt build and run the program until it serves, and copies it from where it runs."""
    with tempfile.TemporaryDirectory(prefix="examples-", ignore_cleanup_errors=True) as folder:
        port = free_port()
        trial = Trial(crate, [str(port), "1000"], folder)
        if not trial.comes_to(lambda: is_served(f"tcp:127.0.0.1:{port}")):
            trial.end()
            raise RuntimeError(f"{trial.text()}rt try didn't come to run the examples")
        for it in (*CRATES, *STEPS):
            shutil.copy(trial.program(), f"{MADE}/{it}.new")
            os.replace(f"{MADE}/{it}.new", f"{MADE}/{it}")
        trial.end()


def program(name):
    """The path of a program, which is built with all others where they don't stand, by one of those that ask for them at once."""
    os.makedirs(MADE, exist_ok=True)
    with open(f"{MADE}/lock", "w", encoding="ascii") as lock, tempfile.TemporaryDirectory(prefix="joined-") as top:
        fcntl.flock(lock, fcntl.LOCK_EX)
        crate = joined(top)
        now = hashlib.sha256(repr(texts_below(top)).encode()).hexdigest()
        if not os.path.isfile(f"{MADE}/stamp") or text_of(f"{MADE}/stamp") != now:
            build(crate)
            with open(f"{MADE}/stamp", "w", encoding="ascii") as file:
                file.write(now)
    return f"{MADE}/{name}"
