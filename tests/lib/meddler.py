"""An admin client beside the traffic of a relay."""
import threading
import time

# What a command on an id that may have gone is answered.
MEDDLED = ("ok", "error 404 no such connection", "error 409 closed", "error 409 draining")


class Meddler(threading.Thread):
    """Asks `list` and `totals`, and gives random ids above those of the listeners a command now and then, until it is told to end."""

    def __init__(self, relay, rng=None, commands=(), listeners=0, pause=0.02):
        super().__init__(daemon=True)
        self.relay, self.rng, self.commands, self.listeners, self.pause = relay, rng, commands, listeners, pause
        self.is_over, self.faults, self.asked, self.slowest = threading.Event(), [], 0, 0.0

    def run(self):
        before = (0, 0)
        while not self.is_over.wait(self.pause):
            began = time.monotonic()
            try:
                before = self.look(before)
            except (OSError, EOFError, ValueError) as fault:
                self.faults.append(f"the admin socket failed: {fault!r}")
                return
            self.slowest = max(self.slowest, time.monotonic() - began)

    def look(self, before):
        ids, totals = self.relay.ids(), self.relay.totals()
        if ids != sorted(set(ids)):
            self.faults.append(f"ids that don't rise: {ids}")
        if totals[0] < before[0] or totals[1] < before[1]:
            self.faults.append(f"totals went from {before} to {totals}")
        others = [id for id in ids if id > self.listeners]
        if others and self.commands:
            reply = self.relay.ask(self.rng.choice(self.commands).format(id=self.rng.choice(others)))
            if reply not in MEDDLED:
                self.faults.append(f"a command was answered {reply!r}")
        self.asked += 1
        return totals

    def end(self, checks, name):
        self.is_over.set()
        self.join()
        if not self.asked:
            self.faults.append("no answer at all")
        checks.expect(f"{name}: what the admin session saw", [], self.faults[:3])
