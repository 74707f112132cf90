"""The load generator of the benchmarks, load.c: clients and target in one process, and one answer to each command."""
import contextlib
import os
import subprocess

HERE = os.path.dirname(os.path.abspath(__file__))


def build_load(folder):
    subprocess.run(["cc", "-O2", "-Wall", "-Wextra", "-o", f"{folder}/load", f"{HERE}/load.c", "-pthread"], check=True)


class Load:
    """One that runs: one command, one answer."""

    def __init__(self, folder):
        pipes = {"stdin": subprocess.PIPE, "stdout": subprocess.PIPE, "text": True, "bufsize": 1}
        self.process = subprocess.Popen([f"{folder}/load"], **pipes)
        self.target = int(self.process.stdout.readline().split()[1])

    def ask(self, command):
        self.process.stdin.write(f"{command}\n")
        answer = self.process.stdout.readline().split()
        if not answer or answer[0] != command.split()[0]:
            raise RuntimeError(f"{command}: {' '.join(answer) or 'the load generator ended'}")
        return [float(word) for word in answer[1:]]

    def stop(self):
        """Ends it by the end of its input; after a fault it has ended already."""
        with contextlib.suppress(BrokenPipeError):
            self.process.stdin.close()
        self.process.wait(10)
