#!/usr/bin/env python3
"""Has a built relay read its rules again a thousand times while bytes flow.

    python3 tests/system/reload_storm.py [--reloads 1000] [--connections 48]

Connections of one rule pass numbered blocks to an echo and back all the while: no byte of them may be lost or changed. Beside them
rules come and go, over TCP and Unix sockets, change their targets, their names and idle times, are bad, can't be read, or have an
address that is taken. Each reload is answered as `check` and a start would, a refused one changes nothing, and after all of them no
descriptor, no path and no memory is left over.
"""
import os
import random
import sys
import threading

sys.path.insert(1, f"{sys.path[0]}/..")
from lib.checks import Checks
from lib.echoes import comes_back, ended, flowing, target
from lib.relay import Relay, allow_descriptors
from lib.sockets import free_port, is_served, listener
from lib.stages import options
from lib.waiting import wait_until


class Storm:
    def __init__(self, checks, relay, rng, kept, targets, taken):
        self.checks, self.relay, self.rng, self.kept, self.targets, self.taken = checks, relay, rng, kept, targets, taken
        self.ports = [free_port() for _ in range(4)]
        self.rules = [("kept", self.kept, targets[0], "never")]

    def write(self, text):
        with open(f"{self.relay.folder}/rules", "w", encoding="ascii") as file:
            file.write(text)

    def text(self, rules):
        return "".join(f"relay {name} {listen} {to} {idle}\n" for name, listen, to, idle in rules)

    def others(self):
        """Some more rules: ports and a Unix path, with targets and idle times that change."""
        all_ = [f"tcp:127.0.0.1:{it}" for it in self.ports] + [f"unix:{self.relay.folder}/in.sock"]
        return [(f"r{all_.index(it)}", it, self.rng.choice(self.targets), self.rng.choice(["never", "60000"]))
                for it in all_ if self.rng.random() < 0.5]

    def good(self):
        """Rules that differ from those before. The kept one has its listener, and may have another name and target."""
        before = {it[1] for it in self.rules}
        kept = (self.rng.choice(["kept", "kept-too"]), self.kept, self.rng.choice(self.targets), self.rng.choice(["never", "60000"]))
        rules = [kept, *self.others()]
        self.rng.shuffle(rules)
        self.write(self.text(rules))
        self.checks.expect("reload: a good file", f"rules {len(rules)}", self.relay.ask("reload"))
        self.rules = rules
        for _, listen, _, _ in self.rng.sample(rules, 1):
            self.checks.holds("reload: a rule serves", comes_back(listen), listen)
        gone = before - {it[1] for it in rules}
        for listen in gone:
            self.checks.holds("reload: a rule that has gone is refused", wait_until(lambda: not is_served(listen), 5), listen)
        if f"unix:{self.relay.folder}/in.sock" in gone:
            self.checks.holds("reload: its path has gone", not os.path.exists(f"{self.relay.folder}/in.sock"), "it is there")

    def listeners(self):
        return [it for it in self.relay.ids() if self.relay.ask(f"show {it}").split()[5:6] == ["listener"]]

    def bad(self):
        """A file that is refused, after which the listeners are the same."""
        before, good = self.listeners(), self.text(self.rules)
        path = f"{self.relay.folder}/rules"
        kind = self.rng.choice(["line", "name", "taken", "none"])
        if kind == "line":
            self.write(good + "relay x\n")
            wanted = f"bad rules: line {len(self.rules) + 1}"
        elif kind == "name":
            self.write(good + self.text([("kept2", f"tcp:127.0.0.1:{free_port()}", self.targets[0], "never")] * 2))
            wanted = f"bad rules: same name at line {len(self.rules) + 2}"
        elif kind == "taken":
            new = ("new", f"tcp:127.0.0.1:{free_port()}", self.targets[0], "never")
            self.write(good + self.text([new, ("taken", self.taken, self.targets[0], "never")]))
            wanted = "cannot listen taken"
        else:
            os.rename(path, f"{path}.away")
            wanted = "cannot read rules"
        self.checks.expect(f"reload: refused, {kind}", wanted, self.relay.ask("reload"))
        if kind == "none":
            os.rename(f"{path}.away", path)
        if kind == "taken":
            self.checks.holds("reload: what was bound for a refused one is let go", wait_until(lambda: not is_served(new[1]), 5), new[1])
        self.checks.expect(f"reload: nothing changed, {kind}", before, self.listeners())


def main():
    chosen = options(__doc__, reloads=1_000, connections=48, seed=None)
    allow_descriptors()
    checks, rng, until = Checks(), random.Random(chosen.seed), threading.Event()
    first, second, taken = target(), target(), listener()
    kept = f"tcp:127.0.0.1:{free_port()}"
    with Relay(f"relay kept {kept} {first[1]} never\n") as relay:
        storm = Storm(checks, relay, rng, kept, [first[1], second[1]], taken[1])
        descriptors = relay.descriptors()
        flows = flowing(kept, chosen.connections, until)
        wait_until(lambda: all(it.blocks for it in flows), 10)
        for number in range(chosen.reloads):
            storm.bad() if number % 5 == 4 else storm.good()
            # Before that the allocator's arenas still grow.
            if number == chosen.reloads // 2:
                memory = relay.resident_kib()
        storm.write(f"relay kept {kept} {first[1]} never\n")
        checks.expect("reload: one rule at last", "rules 1", relay.ask("reload"))
        wait_until(lambda: len(relay.ids()) == 1 + 2 * chosen.connections, 10)
        grown = relay.resident_kib() - memory
        checks.expect("reload: connections that stay", 1 + 2 * chosen.connections, len(relay.ids()))
        checks.expect("reload: bytes of those that stay", [], ended(flows, until))
        wait_until(lambda: relay.descriptors() == descriptors, 10)
        checks.expect("reload: descriptors", descriptors, relay.descriptors())
        checks.holds("reload: memory", grown < 1024, f"grew by {grown} KiB")
        print(f"{chosen.reloads} reloads beside {sum(it.blocks for it in flows)} blocks; memory grew by {grown} KiB")
        status, _, _ = relay.stop()
        checks.expect("reload: status", 0, status)
        checks.expect("reload: paths left", [], relay.sockets())
    return checks.end()


if __name__ == "__main__":
    sys.exit(main())
