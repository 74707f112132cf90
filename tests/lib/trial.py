"""A server that `rt try` builds, with checks in place of proofs, and runs: until it listens, and to its end."""
import contextlib
import glob
import os
import shutil
import signal
import subprocess
import time

# How long rt lets the server run. Until it runs rt takes as long as the machine lets it, and ends by itself where it can't come to that.
RUN_SECONDS = 60


class Trial:
    """`rt try` of the crate in a folder, with these words. All that it makes stands below another folder."""

    def __init__(self, crate, words, made):
        self.made, self.said = made, open(f"{made}/said", "w+", encoding="utf-8", errors="replace")
        self.process = subprocess.Popen(
            [shutil.which("rt"), "try", "--", *words], cwd=crate,
            env={**os.environ, "TMPDIR": made, "RT_SECONDS": str(RUN_SECONDS)},
            stdin=subprocess.DEVNULL, stdout=self.said, stderr=subprocess.STDOUT,
        )

    def comes_to(self, is_so):
        """Whether this comes to hold while rt builds and runs."""
        holds = False
        while self.process.poll() is None and not holds:
            time.sleep(0.2)
            holds = is_so()
        return holds

    def program(self):
        """The file that rt runs."""
        found = glob.glob(f"{self.made}/**/program", recursive=True)
        if len(found) != 1:
            raise RuntimeError(f"rt try ran {len(found)} programs below {self.made}")
        return found[0]

    def text(self):
        """What rt and the server have said."""
        with open(f"{self.made}/said", encoding="utf-8", errors="replace") as file:
            return file.read()

    def end(self):
        """Ends rt and what it has started: that is in a session of its own, and goes on without rt."""
        self.process.kill()
        self.process.wait()
        self.said.close()
        for path in glob.glob("/proc/[0-9]*"):
            with contextlib.suppress(OSError):
                if self.is_of(path):
                    os.kill(int(os.path.basename(path)), signal.SIGKILL)

    def is_of(self, path):
        """Whether rt has started this process: its words name the folder, or, of a check that rt makes beside the build, its environment does."""
        for name in ("cmdline", "environ"):
            with open(f"{path}/{name}", "rb") as file:
                if self.made.encode() in file.read():
                    return True
        return False
