"""The relays that are measured, as processes: how each is configured and started, and what it takes."""
import os
import subprocess
import sys
import time

HERE = os.path.dirname(os.path.abspath(__file__))
sys.path.insert(0, f"{HERE}/../../tests")
from lib.packages import install  # noqa: E402
from lib.places import PROGRAM  # noqa: E402
from lib.relay import Relay  # noqa: E402
from lib.sockets import free_port, is_served  # noqa: E402
from lib.waiting import wait_until  # noqa: E402

# Those that copy through user space, as pollrelay does; the best of them is what each ratio is to.
PEERS = ["haproxy", "nginx", "socat", "go-copy"]
OTHERS = ["go-splice", "direct"]
# Of these there is no form with an idle time: a copy by splice is one call, which renews no deadline, and `direct` is no relay.
NEVER_IDLE = OTHERS
TICK_NS = 1_000_000_000 // os.sysconf("SC_CLK_TCK")

STREAM_MODULE = "/usr/lib/nginx/modules/ngx_stream_module.so"

HAPROXY = """global
  nbthread {processors}
  maxconn 4096
defaults
  mode tcp
  timeout connect 5s
  timeout client {idle}
  timeout server {idle}
listen relay
  bind 127.0.0.1:{port}
  server target 127.0.0.1:{target}
"""

NGINX = """daemon off;
pid {folder}/nginx.pid;
error_log {folder}/error.log;
worker_processes {processors};
load_module {module};
events {{ worker_connections 4096; }}
stream {{ server {{ listen 127.0.0.1:{port}; proxy_pass 127.0.0.1:{target}; proxy_timeout {idle}; proxy_half_close on; }} }}
"""


class Started:
    """A relay that runs, with the processes that belong to it. `idle` is its idle time in seconds, or None for none."""

    def __init__(self, name, folder, target, idle=None):
        self.name, self.port, self.relay, self.process = name, free_port(), None, None
        if name == "direct":
            self.port = target
        elif name == "pollrelay" or "/" in name:
            rules = f"relay bench tcp:127.0.0.1:{self.port} tcp:127.0.0.1:{target} {1000 * idle if idle else 'never'}\n"
            self.relay = Relay(rules, program=PROGRAM if name == "pollrelay" else name)
            self.process = self.relay.process
        else:
            quiet = {"stdin": subprocess.DEVNULL, "stdout": subprocess.DEVNULL, "stderr": subprocess.DEVNULL}
            self.process = subprocess.Popen(words_of(name, folder, self.port, target, idle), **quiet)
        if not wait_until(lambda: is_served(f"tcp:127.0.0.1:{self.port}"), 10):
            self.stop()
            raise RuntimeError(f"{name} doesn't accept connections")

    def pids(self):
        """The process and all below it."""
        found = [self.process.pid] if self.process else []
        for pid in found:
            try:
                for task in os.listdir(f"/proc/{pid}/task"):
                    found += map(int, text_of(f"/proc/{pid}/task/{task}/children").split())
            except OSError:
                pass  # it ended
        return found

    def processor_ns(self):
        """Processor time of all its processes, and of those that it has waited for."""
        total = 0
        for pid in self.pids():
            try:
                total += time.clock_gettime_ns((~pid << 3) | 2)
                after_name = text_of(f"/proc/{pid}/stat").rpartition(")")[2].split()
                total += (int(after_name[13]) + int(after_name[14])) * TICK_NS
            except OSError:
                pass
        return total

    def resident_mib(self):
        """Resident memory; a page that several of its processes have counts once."""
        kib = 0
        for pid in self.pids():
            lines = text_of(f"/proc/{pid}/smaps_rollup").splitlines()
            kib += next(int(line.split()[1]) for line in lines if line.startswith("Pss:"))
        return kib / 1024

    def stop(self):
        if self.relay:
            status, totals, _ = self.relay.stop()
            self.relay.close()
            if status != 0 or totals is None:
                raise RuntimeError(f"pollrelay ended with {status}, totals {totals}")
        elif self.process:
            # Those of nginx and socat are told by their first.
            below = self.pids()[1:]
            self.process.terminate()
            self.process.wait(10)
            wait_until(lambda: not any(os.path.exists(f"/proc/{pid}") for pid in below), 5)


def words_of(name, folder, port, target, idle=None):
    """The command that runs a peer in the foreground. HAProxy and nginx always have an idle time: where none is wanted, it is an hour."""
    values = {"module": STREAM_MODULE, "port": port, "target": target, "folder": folder, "processors": len(os.sched_getaffinity(0))}
    values["idle"] = f"{idle}s" if idle else "1h"
    if name == "haproxy":
        return ["haproxy", "-q", "-db", "-f", written(f"{folder}/haproxy.cfg", HAPROXY.format(**values))]
    if name == "nginx":
        return ["nginx", "-p", folder, "-c", written(f"{folder}/nginx.conf", NGINX.format(**values))]
    if name == "socat":
        listen = f"TCP-LISTEN:{port},bind=127.0.0.1,fork,reuseaddr,nodelay,backlog=1024"
        return ["socat", "-b16384", *([f"-T{idle}"] if idle else []), listen, f"TCP:127.0.0.1:{target},nodelay"]
    return [f"{folder}/go_relay", f"127.0.0.1:{port}", f"127.0.0.1:{target}", name.removeprefix("go-"), str(idle or 0)]


def text_of(path):
    with open(path, encoding="utf-8", errors="replace") as file:
        return file.read()


def written(path, text):
    with open(path, "w", encoding="ascii") as file:
        file.write(text)
    return path


def build_go_relay(folder):
    env = {**os.environ, "GOCACHE": f"{folder}/go-cache", "GOFLAGS": "-mod=mod", "GO111MODULE": "off"}
    subprocess.run(["go", "build", "-o", f"{folder}/go_relay", f"{HERE}/go_relay.go"], check=True, env=env)


def install_missing():
    """Installs the peers by name, where one isn't there."""
    module = f"{STREAM_MODULE}:libnginx-mod-stream"
    install("cc:gcc libc6-dev", "haproxy:haproxy", "nginx:nginx-light", module, "socat:socat", "go:golang-go")
    if not os.path.exists(PROGRAM):
        sys.exit(f"not there: {PROGRAM}")


def versions():
    """What runs here, in two lines: the machine, and each peer's version."""
    model = next((line.split(": ")[1] for line in text_of("/proc/cpuinfo").splitlines() if line.startswith("model name")), "unknown")
    out = lambda *words: subprocess.run(words, capture_output=True, text=True, check=False)
    said = [out("haproxy", "-v").stdout, out("nginx", "-v").stderr, "\n".join(out("socat", "-V").stdout.splitlines()[1:]), out("go", "version").stdout]
    yield f"{len(os.sched_getaffinity(0))} processors of {model}, Linux {os.uname().release}, load {os.getloadavg()[0]:.1f}"
    yield "; ".join(text.splitlines()[0] for text in said if text)
