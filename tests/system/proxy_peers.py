#!/usr/bin/env python3
"""HAProxy and nginx as targets that await a header of the PROXY protocol: they take the relay's, and log the client's address by it.

    python3 tests/system/proxy_peers.py

Clients are of IPv4 and of IPv6, and each peer is reached by both; where the machine has no ::1, by IPv4 alone. It installs Debian's
haproxy, nginx-light and libnginx-mod-stream where they are missing.
"""
import contextlib
import os
import signal
import socket
import subprocess
import sys
import tempfile

sys.path.insert(1, f"{sys.path[0]}/..")
from lib.checks import Checks
from lib.echoes import target
from lib.packages import install
from lib.relay import Relay
from lib.sockets import free_port, has_ipv6
from lib.waiting import wait_until

SECONDS = 20
# Of each family a client's own address, the one that it connects to, and the rule's. (a loopback has but one address of IPv6)
CLIENTS = {"IPv4": ("127.0.0.77", "127.0.0.9", "tcp:0.0.0.0:{}"), "IPv6": ("::1", "::1", "tcp:[::]:{}")}
# Where a peer listens.
PEERS = {"IPv4": "127.0.0.1:{}", "IPv6": "[::1]:{}"}
HAPROXY = """
global
    log stdout format raw local0
defaults
    mode tcp
    log global
    timeout connect 5s
    timeout client 10s
    timeout server 10s
listen behind
{listens}
    log-format "from %ci:%cp to %[dst]:%[dst_port] bytes %B"
    server echo {target}
"""
# Debian's nginx has the streams in a module of its own.
NGINX = """
load_module /usr/lib/nginx/modules/ngx_stream_module.so;
daemon off;
pid {folder}/nginx.pid;
error_log {folder}/log error;
events {{ }}
stream {{
    log_format told 'from $proxy_protocol_addr:$proxy_protocol_port to $proxy_protocol_server_addr:$proxy_protocol_server_port bytes $bytes_sent';
    access_log {folder}/log told;
    server {{
{listens}
        proxy_pass {target};
    }}
}}
"""
LISTENS = {"haproxy": "    bind {} accept-proxy", "nginx": "        listen {} proxy_protocol;"}
# Each peer's words for a connection that ended without a header.
WITHOUT = {"haproxy": "Connection closed while waiting for PROXY protocol header", "nginx": "while reading PROXY protocol"}


class Peer:
    """HAProxy or nginx before an echo target, at an address of each of these families, and its log."""

    def __init__(self, kind, folder, families):
        self.port, self.log = free_port(), f"{folder}/log"
        self.at = {family: PEERS[family].format(self.port) for family in families}
        with open(f"{folder}/config", "w", encoding="ascii") as file:
            text, listens = HAPROXY if kind == "haproxy" else NGINX, "\n".join(LISTENS[kind].format(at) for at in self.at.values())
            file.write(text.format(listens=listens, folder=folder, target=target()[1].removeprefix("tcp:")))
        words = ["haproxy", "-db", "-f", f"{folder}/config"] if kind == "haproxy" else ["nginx", "-p", folder, "-c", f"{folder}/config"]
        with open(self.log, "ab") as log:
            self.process = subprocess.Popen(words, stdin=subprocess.DEVNULL, stdout=log, stderr=log, start_new_session=True)

    def is_there(self):
        with contextlib.suppress(OSError):
            socket.create_connection(("127.0.0.1", self.port), SECONDS).close()
            return True
        return False

    def text(self):
        with open(self.log, encoding="utf-8", errors="replace") as file:
            return file.read()

    def lines(self):
        return [line for line in self.text().splitlines() if line.startswith("from ")]

    def served(self):
        """The lines of connections that had a line back."""
        return [line for line in self.lines() if line.endswith(" bytes 6")]

    def __enter__(self):
        return self

    def __exit__(self, *_):
        os.killpg(self.process.pid, signal.SIGTERM)
        self.process.wait()


def config(listen, at, header, more=""):
    sends = f'proxy_protocol = {{ to_target = "{header}" }}\n' if header else ""
    return (
        f'admin = "{{folder}}/admin.sock"\n[[rule]]\nname = "web"\nlisten = ["{listen}"]\n{sends}{more}'
        f'target = [{{ at = "tcp:{at}" }}]\n'
    )


def comes_back(client):
    """Whether a line comes back. (nginx ends a connection of which a client has closed its way)"""
    client.settimeout(SECONDS)
    client.sendall(b"hello\n")
    came = b""
    with contextlib.suppress(OSError):
        while not came.endswith(b"\n") and (part := client.recv(4_096)):
            came += part
    return came == b"hello\n"


def told(checks, name, peer, at, header, family):
    """The peer's line of a TCP client has both addresses."""
    (own, host, listen), port = CLIENTS[family], free_port()
    with Relay(config(listen.format(port), at, header), form="config") as relay:
        with socket.create_connection((host, port), SECONDS, source_address=(own, 0)) as client:
            ends = f"from {own}:{client.getsockname()[1]} to {host}:{port} bytes 6"
            checks.holds(f"{name}: a line comes back", comes_back(client), peer.text()[-500:])
        checks.holds(f"{name}: its line has both addresses", wait_until(lambda: ends in peer.lines(), SECONDS), peer.text()[-500:])
        checks.expect(f"{name}: totals", (6, 6), relay.totals())


def served_unix(checks, name, peer, at, header):
    """One of a Unix client, whose header has no address, is served."""
    before = len(peer.served())
    with tempfile.TemporaryDirectory(prefix="proxy-") as folder:
        with Relay(config(f"unix:{folder}/sock", at, header), form="config"), socket.socket(socket.AF_UNIX) as client:
            client.connect(f"{folder}/sock")
            checks.holds(f"{name}: a line comes back", comes_back(client), peer.text()[-500:])
    checks.holds(f"{name}: its line", wait_until(lambda: len(peer.served()) == before + 1, SECONDS), peer.lines())


def checked(checks, name, peer, kind, at):
    """By their checks alone: without a header each is an error in the peer's log, and with one none is."""
    often = 'health = { every = "20ms" }\n'
    for header in ("v1", "v2", None):
        before, lines = peer.text().count(WITHOUT[kind]), len(peer.lines())
        with Relay(config(f"tcp:127.0.0.1:{free_port()}", at, header, often), form="config"):
            count = lambda: peer.text().count(WITHOUT[kind]) - before
            if header is None:
                checks.holds(f"{name}: checks without a header are errors", wait_until(lambda: count() > 3, SECONDS), count())
            else:
                came = wait_until(lambda: len(peer.lines()) > lines + 10, SECONDS)
                checks.holds(f"{name}, {header}: checks come", came, peer.text()[-500:])
                checks.expect(f"{name}, {header}: none is an error", 0, count())


def of_kind(checks, kind, families):
    with tempfile.TemporaryDirectory(prefix="proxy-peers-") as folder:
        os.chmod(folder, 0o755)
        with Peer(kind, folder, families) as peer:
            begun = wait_until(peer.is_there, SECONDS)
            checks.holds(f"{kind} begins", begun, peer.text())
            for target_family, at in peer.at.items() if begun else ():
                for header in ("v1", "v2"):
                    name = f"{kind} by {target_family}, {header}"
                    for family in families:
                        told(checks, f"{name}, a client of {family}", peer, at, header, family)
                    served_unix(checks, f"{name}, a Unix client", peer, at, header)
                checked(checks, f"{kind} by {target_family}", peer, kind, at)


def main():
    checks = Checks()
    install("haproxy:haproxy", "nginx:nginx-light", "/usr/lib/nginx/modules/ngx_stream_module.so:libnginx-mod-stream")
    families = list(CLIENTS) if has_ipv6() else ["IPv4"]
    if families == ["IPv4"]:
        print("NOT TRIED: this machine has no ::1, so that no client and no peer of IPv6 is tried", flush=True)
    for kind in ("haproxy", "nginx"):
        of_kind(checks, kind, families)
    return checks.end()


if __name__ == "__main__":
    sys.exit(main())
