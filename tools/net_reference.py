#!/usr/bin/env python3
"""Makes the reference of the library `net` out of its public items: what each is, its signature, which time ends its wait, how it
fails, and what Go and tokio have in its place.

    python3 tools/net_reference.py > docs/net.md

What an item does is its doc comment, in `net` or, of an item that `net` hands on, in the crate that has it. How a call fails is read
from its contract: the call of a handle that a clause names, the faults that `fd_descriptor` lists for that call, and the kind that
`handle_io` gives to each fault. Go's and tokio's names and the times stand below; a public item without a place in the sections, or a name
below without an item, is a fault of this script.
"""
import pathlib
import re
import sys
import textwrap

ROOT = pathlib.Path(__file__).resolve().parent.parent
SRC = ROOT / "crates/net/src"
CALLS, KINDS = ROOT / "crates/fd_descriptor/specs/HandleCalls.antt", ROOT / "crates/handle_io/specs/Kinds.antt"
# The sections, each with its items in the order in which a program comes to them.
SECTIONS = {
    "A net": ("Net", "Net::start", "Net::stop"),
    "Addresses": ("Addr", "Addr::of", "address_of", "tcp", "UNIX"),
    "Listeners": (
        "Listener", "Listener::bind", "Listener::accept", "Listener::set_accept_timeout", "Listener::try_clone", "Listener::close",
        "Listener::closer", "Listener::local_addr",
    ),
    "Connections": (
        "Conn", "Conn::connect", "Conn::dial", "Conn::read", "Conn::write", "Conn::flush", "Conn::try_clone", "Conn::set_read_timeout",
        "Conn::set_write_timeout", "Conn::set_deadline", "Conn::set_nodelay", "Conn::nodelay", "Conn::set_keepalive", "Conn::keepalive",
        "Conn::close_write", "Conn::close", "Conn::close_gently", "Conn::socket_closer", "Conn::peer_addr", "Conn::local_addr", "SocketCloser", "SocketCloser::close", "SocketCloser::try_clone", "Gone", "Gone::was_open",
    ),
    "Groups of connections": (
        "ConnGroup", "ConnGroup::new", "ConnGroup::join", "Member", "ConnGroup::count", "ConnGroup::end", "ConnGroup::wait", "NoneLeft",
        "ConnGroup::try_clone",
    ),
    "Many connections on a few threads": (
        "Net::serve", "listen_and_serve", "Task", "Task::begin", "Task::step", "Next", "Waits", "Cause", "Cause::idle", "Cause::within", "Conn::poll_read",
        "Conn::poll_write", "Conn::wake", "Service", "Service::local_addr", "Service::shutdown", "Service::wait", "Service::stop",
        "Service::closer", "Conn::closer", "ServiceCloser", "ServiceCloser::shutdown", "ServiceCloser::try_clone", "Asked", "Asked::is_first",
        "Ended", "Ended::cut_off", "GentleClose", "GentleClose::new", "GentleClose::step",
    ),
    "A server of lines": (
        "LineTask", "LineTask::new", "LineHandler", "LineHandler::begin", "LineHandler::answer", "LineHandler::too_long", "AfterLine",
    ),
    "Bytes that go out": (
        "Outgoing", "Outgoing::new", "Outgoing::of", "Outgoing::push", "Outgoing::poll", "Outgoing::is_sent", "Outgoing::reuse", "PollWrite",
    ),
    "Lines": (
        "Lines", "Lines::new", "Lines::poll", "PollRead", "Lines::read", "Heard", "Lines::line", "Lines::find", "Lines::find_in",
    ),
    "What a program is generic over": ("Runs", "Unlinks", "Unlinks::unlink"),
    "For programs that look at times and errors themselves": (
        "Limits", "Limits::none", "Limits::each", "Limits::until", "Limits::with_time", "Limits::with_until", "Times", "error_with",
    ),
}
# What Go's package net has in its place.
GO = {
    "Listener": "`net.Listener`", "Listener::bind": "`net.Listen`, which at `[::]` takes IPv4 clients too", "Listener::accept": "`Listener.Accept`", "Listener::close": "`Listener.Close`",
    "Listener::local_addr": "`Listener.Addr`", "Conn": "`net.Conn`", "Conn::connect": "`net.DialTimeout`", "Conn::read": "`Conn.Read`",
    "Conn::dial": "`net.DialTimeout`, which takes names of services as ports too, and tries IPv6 and IPv4 side by side",
    "Listener::set_accept_timeout": "none: `TCPListener.SetDeadline` before each `Accept`",
    "Conn::set_nodelay": "`TCPConn.SetNoDelay`", "Conn::set_keepalive": "`TCPConn.SetKeepAlive` and `SetKeepAlivePeriod`; a `net.Dialer` and a `net.ListenConfig` turn it on, by 15 seconds",
    "Conn::write": "`Conn.Write`", "Conn::set_deadline": "`Conn.SetDeadline`, by a moment; all times here are lengths from now",
    "Conn::set_read_timeout": "none: `SetReadDeadline` before each read", "Conn::set_write_timeout": "none: `SetWriteDeadline` before each write",
    "Conn::close_write": "`TCPConn.CloseWrite`", "Conn::close": "`Conn.Close`, which also ends the calls under way and waits for them",
    "Conn::peer_addr": "`Conn.RemoteAddr`", "Conn::local_addr": "`Conn.LocalAddr`", "Conn::try_clone": "none: goroutines share one value",
    "Service::shutdown": "`http.Server.Shutdown(ctx)`; over a `net.Listener` by hand: a close, a `sync.WaitGroup`, deadlines", "Service::stop": "`http.Server.Close`", "Lines": "`bufio.Scanner`, with `Buffer(buf, LIMIT)`",
    "ServiceCloser": "a `context.CancelFunc`", "ServiceCloser::shutdown": "`http.Server.Shutdown` in a goroutine of its own",
    "Service::wait": "none: `http.Server.Serve` returns at once, and `Shutdown` waits", "Lines::read": "`Scanner.Scan`", "Lines::line": "`Scanner.Bytes`",
    "Task": "none: a goroutine a connection", "LineTask": "none: a loop over `bufio.Scanner` in a goroutine", "Outgoing": "none: a goroutine's `Write` waits", "Cause::idle": "none: `SetReadDeadline` before each read",
    "SocketCloser::close": "`Listener.Close` and `Conn.Close`, which any goroutine may call", "ConnGroup::wait": "`sync.WaitGroup.Wait`, without a time",
    "Addr": "`net.Addr`", "Net": "none: its runtime has the poller", "Net::serve": "none: a goroutine a connection", "listen_and_serve": "`http.ListenAndServe`; without HTTP a loop over `Listener.Accept`", "address_of": "`net.ResolveTCPAddr`, which looks names up",
}
# What tokio 1 has in its place, with tokio-util.
TOKIO = {
    "Addr": "`std::net::SocketAddr`, or a path", "Net": "its runtime has the driver", "Listener": "`net::TcpListener`, `net::UnixListener`", "Listener::bind": "`TcpListener::bind`, which at `[::]` takes IPv4 clients too unless `net.ipv6.bindv6only` is 1",
    "Listener::accept": "`TcpListener::accept`", "Listener::close": "none: its drop, or a `CancellationToken` in a `select!`",
    "Conn": "`net::TcpStream`, `net::UnixStream`", "Conn::connect": "`timeout(time, TcpStream::connect(addr))`",
    "Conn::dial": "`timeout(time, TcpStream::connect(text))`, in which the first address may take all of the time", "Listener::set_accept_timeout": "`timeout(time, accept)`",
    "Conn::set_nodelay": "`TcpStream::set_nodelay`; off from the start", "Conn::nodelay": "`TcpStream::nodelay`", "Conn::set_keepalive": "`socket2::SockRef::set_tcp_keepalive`", "Conn::read": "`AsyncReadExt::read`",
    "Conn::write": "`AsyncWriteExt::write_all`", "Conn::try_clone": "`into_split`, which gives an owner of reads and one of writes", "Conn::set_read_timeout": "`timeout(time, read)`",
    "Conn::set_write_timeout": "`timeout(time, write)`", "Conn::set_deadline": "`timeout_at` around each call", "Conn::close_write": "`AsyncWriteExt::shutdown`",
    "Conn::close": "none: its drop", "Conn::close_gently": "none: `shutdown`, and reads to the end under `timeout`",
    "Conn::peer_addr": "`TcpStream::peer_addr`", "Conn::poll_read": "`try_read`", "Conn::poll_write": "`try_write`", "Conn::wake": "`Notify::notify_one`",
    "SocketCloser": "a clone of a `CancellationToken`", "ConnGroup": "`TaskTracker`", "ConnGroup::count": "`TaskTracker::len`",
    "ConnGroup::end": "`CancellationToken::cancel`", "ConnGroup::wait": "`timeout(time, TaskTracker::wait())`", "Net::serve": "`tokio::spawn` a connection", "listen_and_serve": "none: a loop over `TcpListener::accept`",
    "Task": "none: a task is a future", "Cause::idle": "`timeout(time, read)`", "Cause::within": "`timeout(time, write)`",
    "Service::shutdown": "`CancellationToken::cancel`, then `TaskTracker::wait` under `timeout`", "Service::stop": "`Runtime::shutdown_background`",
    "ServiceCloser": "a clone of the `CancellationToken`", "ServiceCloser::shutdown": "`CancellationToken::cancel`",
    "Service::wait": "`TaskTracker::wait`", "GentleClose": "none: by hand, as `Conn::close_gently`", "LineTask": "a loop over `Framed` in a task",
    "Lines": "`Framed` with `LinesCodec::new_with_max_length`", "Lines::poll": "`StreamExt::next`", "Outgoing": "`AsyncWriteExt::write_buf`",
}
# What each has in place of a variant.
VARIANTS = {
    "Cause": {"Ending": "In Go `<-ctx.Done()` in a `select`, in tokio `token.cancelled()` in a `select!`."},
    "Heard": {
        "TooLong": "In Go `bufio.ErrTooLong`, in tokio `LinesCodecError::MaxLineLengthExceeded`.",
        "End": "In Go `Scan` gives `false` and `Err` `nil`, in tokio the stream ends.",
    },
}
# What a doc comment of a crate below says of its own listener, and what holds of one of `net`.
OF_NET = {
    "Addr": ("which a listener makes and nobody removes", "which a listener makes, and removes as it closes"),
}
# Which time ends a call's wait.
TIMES = {
    "Listener::accept": "the accept time-out, from when the call has the listener to itself", "Conn::dial": "`timeout`, from the call on, but for the look-up, which takes as long as the system's resolver waits; with `None` the system's, about two minutes for each address",
    "Conn::connect": "`timeout`, from the call on; with `None` the system's, about two minutes",
    "Conn::read": "the read time-out, from when the call has its direction to itself, and the deadline: the earlier",
    "Conn::write": "the write time-out, from when the call has its direction to itself, and the deadline: the earlier",
    "Conn::poll_read": "the deadline, where it has passed; a task's own time is in `Next`", "Conn::poll_write": "the deadline, where it has passed; a task's own time is in `Next`",
    "Conn::close_write": "none", "Conn::close": "none: it waits until the calls under way have ended, which it ends",
    "listen_and_serve": "as `Service::wait`", "Service::wait": "none, but the time of a shutdown that was asked for", "Service::shutdown": "`within`, from the call on",
    "Conn::close_gently": "`within`, from the call on", "ConnGroup::wait": "`within`, from the call on", "SocketCloser::close": "none: as `Conn::close`",
    "Lines::read": "the reader's own: of a connection the read time-out and the deadline",
    "Outgoing::poll": "the deadline, where it has passed; a task's own time is in `Next`",
    "Lines::poll": "the deadline, where it has passed; a task's own time is in `Next`",
}
# How calls fail whose clauses name no call of a handle, and what comes beside those that do.
FAILS = {
    "Net::start": "`OutOfMemory`, the system's error for a poller, or `WouldBlock` where the system refuses a thread",
    "Net::serve": "`OutOfMemory`, what `Task::begin` answers, the system's error for a poller, or `WouldBlock` where the system refuses a thread",
    "listen_and_serve": "as `Net::start`, `Listener::bind` and `Net::serve`",
    "Listener::bind": "`OutOfMemory`, `Other` where the net has its 4,096 sockets, or the system's error: the address is taken, isn't this machine's, or isn't allowed",
    "Listener::accept": "`OutOfMemory`, or the system's error where the poller refuses the socket",
    "Conn::connect": "`OutOfMemory`, or the system's error; `WouldBlock` where the queue at a Unix path is full",
    "Conn::dial": "`InvalidInput` for a text that names nothing, the resolver's error, `NotFound` where it has no address; else as `Conn::connect`",
    "Conn::set_nodelay": "over TCP also the system's error", "Conn::nodelay": "over TCP also the system's error",
    "Conn::set_keepalive": "over TCP also the system's error, which is `InvalidInput` beyond 32,767 seconds", "Conn::keepalive": "over TCP also the system's error",
    "Outgoing::poll": "as its sink's write", "Outgoing::push": "`AllocError`",
    "LineHandler::begin": "as the program's own does", "LineHandler::answer": "as the program's own does", "LineHandler::too_long": "as the program's own does",
    "Lines::poll": "as `Conn::poll_read`", "Lines::read": "as its reader does, or `Other` after 2^64 reads",
    "Conn::close_gently": "`TimedOut` where the peer's end didn't come in time; else as `Conn::set_deadline`, `Conn::close_write`, `Conn::read` and `Conn::close`",
    "ConnGroup::join": "`NotConnected` where the group was ended, or `OutOfMemory`",
    "Conn::flush": "never", "Task::begin": "as the program's own does",
    "address_of": "`InvalidInput`",
}
# Where a call's clause stands at a private function that it calls.
CLAUSE_OF = {"Listener::accept": "Accepts", "Conn::connect": "Connects"}
# The call that has no faults but those of a reference.
NO_OWN_FAULT = "Controls"
# What each kind of error says.
WHEN = {
    "NotConnected": "the connection or the listener was closed: by this or another clone, or with its net",
    "TimedOut": "the call's time or the deadline has passed",
    "WriteZero": "the system took no byte of a write, and gave no reason",
    "ConnectionReset": "the peer reset the connection",
    "ConnectionAborted": "the system gave the connection up",
    "BrokenPipe": "the peer takes no more bytes, or this side was shut",
    "ConnectionRefused": "nobody listens at the address",
    "Other": "the net has its 4,096 sockets (`bind`, `accept`, `connect`, `dial`), no reference or place to wait is left (16,777,215 and 262,143), or the system interrupted the call 1,025 times in a row; another error of the system keeps its own kind and number. None is `Interrupted`",
    "WouldBlock": "the queue at a Unix path is full (`Conn::connect`), or the system refuses a thread (`Net::start`, `Net::serve`, `listen_and_serve`); no other call fails so",
    "OutOfMemory": "memory was refused; the connection is as before",
}
HEAD = re.compile(
    r"((?:^ *///[^\n]*\n)+)(?:^ *(?:#\[|// )[^\n]*\n)*^( *)(?:pub )?(fn|struct|enum|trait|const|static) (\w+)([^{;]*?)(?=\n *(?:where\b|ensures|requires|ghost)|\s*\{|;)", re.M
)
OWNER = re.compile(r"^(?:impl(?:<[^>]*>)? (?:\w+(?:<[^>]*>)? for )?(\w+)|pub trait (\w+)|impl<.*> (?:\w+ for )?(\w+)<)", re.M)


def owner_of(text, at):
    found = None
    for it in OWNER.finditer(text, 0, at):
        found = it[1] or it[2] or it[3]
    return found


def handed_on():
    """The sources of the crates below that have an item which the crate hands on, each with these items."""
    found = {}
    for crate, name in re.findall(r"^pub use (\w+)::(\w+);", (SRC / "lib.rt").read_text(), re.M):
        for path in sorted((ROOT / "crates" / crate / "src").glob("*.rt")):
            if re.search(rf"^pub (?:struct|enum|trait|fn) {name}\b", path.read_text(), re.M):
                found.setdefault(path, set()).add(name)
    return found


def items():
    """Each documented item: its doc comment, its signature, its contract, and its variants."""
    found = {}
    for path in sorted(SRC.glob("*.rt")):
        found = {**items_in(path), **found}
    for path, names in handed_on().items():
        found.update({name: for_net(name, it) for name, it in items_in(path).items() if name.split("::")[0] in names})
    return found


def for_net(name, item):
    """An item of a crate below, with what holds of `net` in place of what holds there."""
    if name not in OF_NET:
        return item
    there, here = OF_NET[name]
    doc, signature, contract, variants = item
    said = [doc, *(when for _, when in variants)]
    if sum(there in it for it in said) != 1:
        raise ValueError(f"the doc comments of {name} don't say once: {there}")
    return doc.replace(there, here), signature, contract, [(it, when.replace(there, here)) for it, when in variants]


def items_in(path):
    """The documented items of a file."""
    found = {}
    text = path.read_text()
    for head in HEAD.finditer(text):
        is_public = re.search(r"\bpub (?:fn|struct|enum|trait|const|static) ", head[0]) or owner_of(text, head.start()) in ("Task", "LineHandler")
        is_read_or_write = path.name == "stream.rt" and head[4] in ("read", "write", "flush")
        is_method = bool(head[2]) and head[3] == "fn"
        if not (is_public or is_read_or_write or is_method and head[4] == "unlink"):
            continue
        name = f"{owner_of(text, head.start())}::{head[4]}" if is_method else head[4]
        doc = " ".join(it.strip().removeprefix("///").strip() for it in head[1].strip().splitlines())
        contract = text[head.end() : text.find("\n" + head[2] + "}", head.end())]
        signature = " ".join(f"{head[3]} {head[4]}{head[5]}".split()).replace("( ", "(").replace(", )", ")")
        found.setdefault(name, (doc, signature, contract, body_of(text, head)))
    return found


def body_of(text, head):
    """The variants of an enum, each with its doc comment."""
    if head[3] != "enum":
        return []
    inside = text[text.index("{", head.end()) : text.index("\n}", head.end())]
    found = re.findall(r"((?:^ *///[^\n]*\n)+) *(\w+(?:\([^)]*\))?),", inside, re.M)
    return [(name, " ".join(it.strip().removeprefix("///").strip() for it in doc.strip().splitlines())) for doc, name in found]


def kinds_of(call):
    """The kinds of error by which a handle's call fails, by the tables of the crates below."""
    kind_of = dict(re.findall(r"^kind_told \(?fault\.(\w+(?: device\.\w+)?)\)? = kind\.(\w+)$", KINDS.read_text(), re.M))
    faults = re.findall(rf"^IsOwnFault {call} \(?fault\.(\w+)", CALLS.read_text(), re.M)
    if not faults and call != NO_OWN_FAULT:
        raise ValueError(f"{CALLS} has no row of {call}")
    # (a call that takes a reference or a lock is refused where the word is closed or has none left)
    named = {"Closed", "TooMany", *faults} - {"EndOfFile"}
    found = {kind for fault, kind in kind_of.items() if fault.split(" ")[0] in named}
    return [it for it in WHEN if it in found]


def fails(name, contract):
    said = re.findall(r"\b(?:FailsAs|IsFaultOf|IsPolledFault) (\w+)", contract)
    calls = [CLAUSE_OF[name]] if name in CLAUSE_OF else said[:1]
    kinds = kinds_of(calls[0]) if calls else []
    if "IsPolledFault" in contract or "FailsForMemory" in contract:
        kinds = [*kinds, "OutOfMemory"]
    parts = [", ".join(f"`{it}`" for it in dict.fromkeys(kinds))] if kinds else []
    parts += [FAILS[name]] if name in FAILS else []
    return "; ".join(parts)


def entry(name, item):
    doc, signature, contract, variants = item
    lines = [f"### `{name}`", ""]
    if signature.startswith(("fn ", "const ")):
        lines += ["```text", *textwrap.wrap(signature, 100, subsequent_indent="    "), "```", ""]
    lines += [doc, ""]
    rows = [("Ends its wait", TIMES.get(name)), ("Fails", fails(name, contract)), ("In Go", GO.get(name)), ("In tokio", TOKIO.get(name))]
    rows = [f"| {head} | {text} |" for head, text in rows if text]
    if rows:
        lines += ["| | |", "|---|---|", *rows, ""]
    if variants:
        beside = VARIANTS.get(name, {})
        lines += ["| Variant | When |", "|---|---|", *(f"| `{it}` | {f'{when} {beside.get(it, str())}'.strip()} |" for it, when in variants), ""]
    return lines


def page():
    found = items()
    named = [it for names in SECTIONS.values() for it in names]
    lacking = {*named, *GO, *TOKIO, *VARIANTS, *TIMES, *FAILS} - set(found)
    exported = exports()
    more = {it for it in found if it.split("::")[0] in exported} - set(named)
    if lacking or more:
        raise ValueError(f"not there: {sorted(lacking)}; without a place: {sorted(more)}")
    lines = [
        "# The library net",
        "",
        "For authors of programs on sockets: the reference of each call. `tools/net_reference.py` makes this page of the doc comments and",
        "contracts in `crates/net/src`, and of those of `Addr`, which `net` hands on from the crate `readiness`. `net-guide.md` builds servers",
        "step by step; `sockets.md` says more of tasks.",
        "",
        "A connection is shared by clones, one a thread; a clone is a `Read` and a `Write`. Clones share time-outs and the deadline; the earlier",
        "one wins. A time-out starts once a call has its direction to itself. A read answers `Ok(0)` at the peer's end.",
        "",
        "A net has at most 4,096 sockets: listeners, connections, and those of its services. A service closes a connection that comes beyond.",
        "A program may have several nets.",
        "",
        "## Errors",
        "",
        "Each call below names the kinds by which it may fail. Where they are read from a clause of its own, it is proved to fail by no",
        "other; `Net::start`, `Net::serve`, `Listener::bind`, `Listener::accept`, `Conn::connect`, `Conn::dial`, `Lines::poll` and `Lines::read` have no",
        "such clause, and `Conn::set_nodelay`, `nodelay`, `set_keepalive` and `keepalive` have one for Unix sockets alone.",
        "",
        "| Kind | When |",
        "|---|---|",
        *(f"| `{kind}` | {when} |" for kind, when in WHEN.items()),
        "",
        "A write that is cut off after some bytes returns how many were taken; the next write of that clone returns the error, once, and writes nothing.",
        "",
    ]
    for head, names in SECTIONS.items():
        lines += [f"## {head}", ""]
        for name in names:
            lines += entry(name, found[name])
    return "\n".join(lines).rstrip("\n") + "\n"


def exports():
    """The names that the crate hands out."""
    text = (SRC / "lib.rt").read_text()
    groups = re.findall(r"^pub use (?:\w+)::(?:\{([^}]*)\}|(\w+));", text, re.M)
    return {it.strip() for group in groups for it in (group[0] or group[1]).split(",")}


def main():
    sys.stdout.write(page())


if __name__ == "__main__":
    main()
