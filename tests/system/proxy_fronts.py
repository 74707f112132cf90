#!/usr/bin/env python3
"""HAProxy and nginx in front of the relay: it reads the header that they write, of each version and family, and hands it on, byte for byte.

    python3 tests/system/proxy_fronts.py

HAProxy writes version 1 (`send-proxy`) and 2 (`send-proxy-v2`, with fields too), and LOCAL in its checks; nginx writes version 1
(`proxy_protocol on`). It installs Debian's haproxy, nginx-light and libnginx-mod-stream where they are missing.
"""
import contextlib
import os
import signal
import socket
import struct
import subprocess
import sys
import tempfile

sys.path.insert(1, f"{sys.path[0]}/..")
from lib.checks import Checks
from lib.log_text import logged
from lib.packages import install
from lib.relay import Relay
from lib.sockets import free_port, has_ipv6, listener, some_address
from lib.waiting import comes, wait_until

SECONDS = 20
SIGNATURE = b"\r\n\r\n\0\r\nQUIT\n"
# Of each family where a client is, and to which address of the front it connects. (a loopback has but one address of IPv6)
CLIENTS = {"IPv4": ("127.0.0.77", "127.0.0.9"), "IPv6": ("::1", "::1")}
LISTENS = {"IPv4": "127.0.0.9:{}", "IPv6": "[::1]:{}"}
HAPROXY = """
global
    log stdout format raw local0
defaults
    mode tcp
    timeout connect 5s
    timeout client 10s
    timeout server 10s
listen front
{listens}
    server relay {relay} {sends}
"""
# Debian's nginx has the streams in a module of its own.
NGINX = """
load_module /usr/lib/nginx/modules/ngx_stream_module.so;
daemon off;
pid {folder}/nginx.pid;
error_log {folder}/log error;
events {{ }}
stream {{
    server {{
{listens}
        proxy_pass {relay};
        proxy_protocol on;
    }}
}}
"""
FRONTS = {
    "HAProxy, version 1": (HAPROXY, "    bind {}", "send-proxy"), "HAProxy, version 2": (HAPROXY, "    bind {}", "send-proxy-v2"),
    "HAProxy, version 2 with fields": (HAPROXY, "    bind {}", "send-proxy-v2 proxy-v2-options crc32c,unique-id"),
    "nginx": (NGINX, "        listen {};", ""),
}
CHECKING = (HAPROXY, "    bind {}", "send-proxy-v2 check inter 50ms")


class Front:
    """HAProxy or nginx at an address of each of these families, which writes a header to the relay."""

    def __init__(self, kind, folder, families, relay):
        text, listens, sends = kind
        self.port, self.log, path = free_port(), f"{folder}/log", f"{folder}/config"
        with open(path, "w", encoding="ascii") as file:
            at = "\n".join(listens.format(LISTENS[it].format(self.port)) for it in families)
            file.write(text.format(listens=at, folder=folder, relay=relay, sends=sends))
        words = ["haproxy", "-db", "-f", path] if text == HAPROXY else ["nginx", "-p", folder, "-c", path]
        with open(self.log, "ab") as log:
            self.process = subprocess.Popen(words, stdin=subprocess.DEVNULL, stdout=log, stderr=log, start_new_session=True)

    def is_there(self, families):
        """Whether it listens; a connection would be one to the relay."""
        with open("/proc/net/tcp", encoding="ascii") as file, open("/proc/net/tcp6", encoding="ascii") as other:
            lines = [line.split() for line in (*file, *other)]
        return sum(len(it) > 3 and it[3] == "0A" and it[1].endswith(f":{self.port:04X}") for it in lines) == len(families)

    def text(self):
        with open(self.log, encoding="utf-8", errors="replace") as file:
            return file.read()[-500:]

    def __enter__(self):
        return self

    def __exit__(self, *_):
        os.killpg(self.process.pid, signal.SIGTERM)
        self.process.wait()


def config(listen, target, sends):
    to_target = f', to_target = "{sends}"' if sends else ""
    return (
        f'admin = "{{folder}}/admin.sock"\nlog = "{{folder}}/log"\n[[rule]]\nname = "web"\nlisten = ["{listen}"]\n'
        f'proxy_protocol = {{ from_client = ["127.0.0.1/32"]{to_target} }}\ntarget = [{{ at = "{target}" }}]\n'
    )


def version2(client):
    """The header of such a client in version 2, without fields, by the public text."""
    (source, one), (destination, other) = client.getsockname()[:2], client.getpeername()[:2]
    family = b"\x21\x11\x00\x0c" if client.family == socket.AF_INET else b"\x21\x21\x00\x24"
    ends = b"".join(socket.inet_pton(client.family, host) for host in (source, destination))
    return SIGNATURE + family + ends + struct.pack(">HH", one, other)


def name_of(client):
    host, port = client.getsockname()[:2]
    return f"tcp:[{host}]:{port}" if ":" in host else f"tcp:{host}:{port}"


def taken(sock, count):
    came = b""
    with contextlib.suppress(OSError):
        while len(came) < count and (part := sock.recv(count - len(came))):
            came += part
    return came


def served(checks, name, front, relay, sock, family, sends):
    """A client of the front is served by the relay as itself: its header goes on, its bytes come whole, and the log has its address."""
    own, host = CLIENTS[family]
    with socket.create_connection((host, front.port), SECONDS, source_address=(own, 0)) as client:
        client.settimeout(SECONDS)
        client.sendall(b"hello")
        peer = sock.accept()[0]
        peer.settimeout(SECONDS)
        wanted, body, who = (version2(client) if sends else b"") + b"hello", bytes(range(256)) * 2_000, name_of(client)
        checks.expect(f"{name}: the target", wanted, taken(peer, len(wanted)))
        checks.holds(f"{name}: show", comes(lambda: f" peer {who} " in relay.ask("show")), relay.ask("show"))
        client.sendall(body)
        checks.holds(f"{name}: what follows", taken(peer, len(body)) == body, "other bytes")
        peer.sendall(b"answer")
        checks.expect(f"{name}: the answer", b"answer", taken(client, 6))
        peer.close()
    lines = lambda: [(it["client"], it["up"], it["down"]) for it in logged(f"{relay.folder}/log", 1) if "client" in it]
    line = (who, str(5 + len(body)), "6")
    checks.holds(f"{name}: the log", comes(lambda: line in lines()), lines())


def behind(checks, name, kind, families):
    for sends in ("v2", None):
        sock, target = listener()
        sock.settimeout(SECONDS)
        listen = some_address()
        with tempfile.TemporaryDirectory(prefix="proxy-fronts-") as folder, contextlib.closing(sock):
            os.chmod(folder, 0o755)
            with Relay(config(listen, target, sends), form="config") as relay, Front(kind, folder, families, listen.removeprefix("tcp:")) as front:
                begun = wait_until(lambda: front.is_there(families), SECONDS)
                checks.holds(f"{name} begins", begun, front.text())
                for family in families if begun else ():
                    served(checks, f"{name}, {sends} out, {family}", front, relay, sock, family, sends)


def checked(checks):
    """HAProxy's checks say LOCAL: each is a connection of HAProxy's own address, and none is refused."""
    sock, target = listener()
    listen = some_address()
    with tempfile.TemporaryDirectory(prefix="proxy-fronts-") as folder, contextlib.closing(sock):
        with Relay(config(listen, target, None), form="config") as relay, Front(CHECKING, folder, ["IPv4"], listen.removeprefix("tcp:")):
            lines = lambda: logged(f"{relay.folder}/log", 0)
            checks.holds("checks of HAProxy: they come", wait_until(lambda: len(lines()) > 5, SECONDS), lines())
            wrong = [it for it in lines() if not it["client"].startswith("tcp:127.0.0.1:") or it["how"] in ("bad header", "no header")]
            checks.expect("checks of HAProxy: each is of its own address", [], wrong)


def main():
    checks = Checks()
    install("haproxy:haproxy", "nginx:nginx-light", "/usr/lib/nginx/modules/ngx_stream_module.so:libnginx-mod-stream")
    families = list(CLIENTS) if has_ipv6() else ["IPv4"]
    if families == ["IPv4"]:
        print("NOT TRIED: this machine has no ::1, so that no client of IPv6 is tried", flush=True)
    for name, kind in FRONTS.items():
        behind(checks, name, kind, families)
    checked(checks)
    return checks.end()


if __name__ == "__main__":
    sys.exit(main())
