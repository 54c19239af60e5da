#!/usr/bin/env python3
"""Takes the captures of the deployments: `left.pcap` and `right.pcap` of siit_dc, 464xlat and hairpin.

Real programs (ping, curl, traceroute, Python's web server and sockets) talk over a network of namespaces, and tcpdump keeps what arrives at
the place of each translator. Plain routers stand in that place: one for each translator, so that hop counts fall as they do across the chain,
with an IPv4 MTU of 1480 between two of them where the IPv6 link would have 1500. Where a deployment changes addresses, the kernel's NAT stands
in for that. So both captures hold what real ends send to each other across such a chain, and nothing in them was computed by a translator.

Needs root, and iproute2, ethtool, nftables, tcpdump, iputils-ping, traceroute and curl. Usage: take_deployments.py [DEPLOYMENT..]
"""
import subprocess
import sys
import tempfile
import time
from pathlib import Path

HERE = Path(__file__).resolve().parent

# The web server, which asks for no name: it would ask a resolver of the machine.
WEB = """
import http.server, socket, socketserver, sys
class Server(http.server.HTTPServer):
    address_family = socket.AF_INET6 if ':' in sys.argv[1] else socket.AF_INET
    server_name, server_port, server_bind = 'siit', 80, socketserver.TCPServer.server_bind
class Handler(http.server.SimpleHTTPRequestHandler):
    directory = sys.argv[2]
    def __init__(self, *words):
        super().__init__(*words, directory=self.directory)
Server((sys.argv[1], 80), Handler).serve_forever()
"""

# The server of UDP: sends each datagram back.
ECHO = """
import socket, sys
family = socket.AF_INET6 if ':' in sys.argv[1] else socket.AF_INET
talk = socket.socket(family, socket.SOCK_DGRAM)
talk.bind((sys.argv[1], 7))
while True:
    data, peer = talk.recvfrom(65535)
    talk.sendto(data, peer)
"""

# Sends one datagram of so many bytes from port 40007, and waits for it to come back. `bare` is without checksum (SO_NO_CHECK).
ASK = """
import socket, sys
address, port, size, kind = sys.argv[1], int(sys.argv[2]), int(sys.argv[3]), sys.argv[4]
family = socket.AF_INET6 if ':' in address else socket.AF_INET
talk = socket.socket(family, socket.SOCK_DGRAM)
talk.bind(('', 40007))
talk.settimeout(1)
if kind == 'bare':
    talk.setsockopt(socket.SOL_SOCKET, 11, 1)
talk.sendto(bytes(place % 251 for place in range(size)), (address, port))
try:
    talk.recv(65535)
except socket.timeout:
    pass
"""


def run(*words, **more):
    return subprocess.run(words, check=True, stdout=subprocess.DEVNULL, **more)


class Network:
    """Namespaces, joined by links. Everything in it ends with it."""

    def __init__(self, *names):
        self.names, self.children = names, []
        for name in names:
            run("ip", "netns", "add", "siit_" + name)
            self.within(name, "ip", "link", "set", "lo", "up")
            for setting in ("ipv4.ip_forward=1", "ipv4.icmp_ratelimit=0", "ipv4.icmp_ratemask=0", "ipv6.conf.all.forwarding=1",
                            "ipv6.icmp.ratelimit=0", "ipv6.conf.default.accept_dad=0"):
                self.within(name, "sysctl", "-q", "-w", "net." + setting)

    def within(self, name, *words, may_fail=False):
        """Runs a program in a namespace to its end."""
        return subprocess.run(["ip", "netns", "exec", "siit_" + name, *words], check=not may_fail, stdout=subprocess.DEVNULL)

    def start(self, name, *words):
        """Starts a program in a namespace."""
        child = subprocess.Popen(["ip", "netns", "exec", "siit_" + name, *words], stdout=subprocess.DEVNULL, stderr=subprocess.DEVNULL)
        self.children.append(child)

    def link(self, one, one_address, other, other_address, mtu=1500):
        """A link, with an interface at each end that has the name of the other end. The programs see whole packets with right checksums."""
        run("ip", "link", "add", other, "netns", "siit_" + one, "type", "veth", "peer", "name", one, "netns", "siit_" + other)
        for name, interface, address in (one, other, one_address), (other, one, other_address):
            self.within(name, "ethtool", "-K", interface, "tx", "off", "rx", "off", "gso", "off", "tso", "off", "gro", "off")
            family = "-6" if ":" in address else "-4"
            if family == "-4":
                self.within(name, "sysctl", "-q", "-w", f"net.ipv6.conf.{interface}.disable_ipv6=1")
            self.within(name, "ip", family, "address", "add", address, "dev", interface)
            self.within(name, "ip", "link", "set", interface, "mtu", str(mtu), "up")

    def route(self, name, *words):
        self.within(name, "ip", "-6" if ":" in "".join(words) else "-4", "route", "add", *words)

    def translate(self, name, family, *rules):
        """Rules of NAT: `prerouting` or `postrouting` and the rest of an nftables rule."""
        lines = [f"add table {family} siit"]
        for hook, priority in ("prerouting", -100), ("postrouting", 100):
            lines.append(f"add chain {family} siit {hook} {{ type nat hook {hook} priority {priority}; }}")
        lines += [f"add rule {family} siit {rule}" for rule in rules]
        self.within(name, "nft", "; ".join(lines))

    def capture(self, name, interface, path):
        """Keeps what arrives at a namespace over a link."""
        self.start(name, "tcpdump", "-U", "-Q", "in", "-i", interface, "-w", str(path))

    def end(self):
        for child in self.children:
            child.terminate()
            child.wait()
        for name in self.names:
            run("ip", "netns", "del", "siit_" + name)


def serve(network, name, address, folder):
    """A web server with one page of 2,900 bytes, and the server of UDP."""
    (folder / "index.html").write_text("<!doctype html><title>siit</title><p>" + "A line of the page. " * 142 + "</p>" + "\n" * 19)
    network.start(name, sys.executable, "-c", WEB, address, str(folder))
    network.start(name, sys.executable, "-c", ECHO, address)


def ask(network, name, address, size, kind="plain", port=7):
    network.within(name, sys.executable, "-c", ASK, address, str(port), str(size), kind)


def ping(network, name, address, *words):
    network.within(name, "ping", "-n", "-c", "1", "-W", "1", *words, address, may_fail=True)


def trace(network, name, address, first, last):
    network.within(name, "traceroute", "-n", "-q", "1", "-N", "1", "-w", "1", "-f", str(first), "-m", str(last), address)


def fetch(network, name, address):
    url = f"http://[{address}]/" if ":" in address else f"http://{address}/"
    network.within(name, "curl", "-s", "-o", "/dev/null", "--max-time", "20", url)


def siit_dc(folder, work):
    """client - home - access - BORDER - EDGE - rack - server. Between home and access the MTU is 1400."""
    network = Network("client", "home", "access", "border", "edge", "rack", "server")
    try:
        network.link("client", "203.0.113.50/28", "home", "203.0.113.49/28")
        network.link("home", "198.18.0.2/30", "access", "198.18.0.1/30", mtu=1400)
        network.link("access", "198.51.100.1/30", "border", "198.51.100.2/30")
        network.link("border", "10.0.0.1/30", "edge", "10.0.0.2/30", mtu=1480)
        network.link("edge", "192.0.2.5/30", "rack", "192.0.2.6/30")
        network.link("rack", "192.0.2.2/30", "server", "192.0.2.1/30")
        for name, via in ("client", "203.0.113.49"), ("home", "198.18.0.1"), ("edge", "10.0.0.1"), ("rack", "192.0.2.5"), ("server", "192.0.2.2"):
            network.route(name, "default", "via", via)
        for name, client_via in ("access", "198.18.0.2"), ("border", "198.51.100.1"):
            network.route(name, "203.0.113.48/28", "via", client_via)
        for name, server_via in ("access", "198.51.100.2"), ("border", "10.0.0.2"):
            network.route(name, "192.0.2.0/24", "via", server_via)
        network.route("edge", "192.0.2.0/30", "via", "192.0.2.6")
        network.route("edge", "unreachable", "192.0.2.0/24")
        serve(network, "server", "192.0.2.1", work)
        network.capture("border", "access", folder / "left.pcap")
        network.capture("edge", "rack", folder / "right.pcap")
        time.sleep(2)
        ping(network, "client", "192.0.2.1")
        ping(network, "client", "192.0.2.1", "-R")
        ping(network, "client", "192.0.2.9")
        fetch(network, "client", "192.0.2.1")
        ask(network, "client", "192.0.2.1", 3000)
        ask(network, "client", "192.0.2.1", 20, "bare")
        trace(network, "client", "192.0.2.1", 3, 6)
        time.sleep(2)
    finally:
        network.end()


def xlat(folder, work):
    """host - CUSTOMER - PROVIDER - exchange - server. The provider's translator changes 192.168.1.8/29 to 198.51.100.8/29."""
    network = Network("host", "customer", "provider", "exchange", "server")
    try:
        network.link("host", "192.168.1.10/24", "customer", "192.168.1.1/24")
        network.link("customer", "10.0.0.1/30", "provider", "10.0.0.2/30", mtu=1480)
        network.link("provider", "203.0.113.2/30", "exchange", "203.0.113.1/30")
        network.link("exchange", "203.0.113.129/28", "server", "203.0.113.130/28", mtu=1300)
        for name, via in ("host", "192.168.1.1"), ("customer", "10.0.0.2"), ("provider", "203.0.113.1"), ("server", "203.0.113.129"):
            network.route(name, "default", "via", via)
        network.route("provider", "192.168.1.0/24", "via", "10.0.0.1")
        network.route("provider", "unreachable", "198.51.100.0/24")
        network.route("exchange", "198.51.100.0/24", "via", "203.0.113.2")
        network.translate(
            "provider", "ip",
            "postrouting ip saddr 192.168.1.10 snat to 198.51.100.10",
            "prerouting ip daddr 198.51.100.10 dnat to 192.168.1.10",
        )
        serve(network, "server", "203.0.113.130", work)
        network.capture("customer", "host", folder / "left.pcap")
        network.capture("provider", "exchange", folder / "right.pcap")
        time.sleep(2)
        ping(network, "host", "203.0.113.130")
        ping(network, "server", "198.51.100.10")
        ping(network, "server", "198.51.100.77")
        ask(network, "host", "224.0.0.251", 30, port=5353)
        fetch(network, "host", "203.0.113.130")
        ask(network, "host", "203.0.113.130", 1472)
        ask(network, "host", "203.0.113.130", 1400)
        ask(network, "host", "203.0.113.130", 3000)
        trace(network, "host", "203.0.113.130", 1, 4)
        time.sleep(2)
    finally:
        network.end()


def hairpin(folder, work):
    """one - rack - BORDER and other - rack, with IPv6 alone. Between rack and other the MTU is 1400."""
    network = Network("one", "other", "rack", "border")
    try:
        network.link("one", "2001:db8:a::1/64", "rack", "2001:db8:a::ff/64")
        network.link("other", "2001:db8:b::2/64", "rack", "2001:db8:b::ff/64", mtu=1400)
        network.link("rack", "2001:db8:c::1/64", "border", "2001:db8:c::2/64")
        network.route("one", "default", "via", "2001:db8:a::ff")
        network.route("other", "default", "via", "2001:db8:b::ff")
        network.route("rack", "default", "via", "2001:db8:c::2")
        network.route("border", "default", "via", "2001:db8:c::1")
        network.route("border", "blackhole", "2001:db8:46::/96")
        network.translate(
            "border", "ip6",
            "prerouting ip6 daddr 2001:db8:46::c000:201 dnat to 2001:db8:a::1",
            "prerouting ip6 daddr 2001:db8:46::c000:202 dnat to 2001:db8:b::2",
            "postrouting ip6 saddr 2001:db8:a::1 snat to 2001:db8:46::c000:201",
            "postrouting ip6 saddr 2001:db8:b::2 snat to 2001:db8:46::c000:202",
        )
        serve(network, "other", "2001:db8:b::2", work)
        network.capture("border", "rack", folder / "right.pcap")
        time.sleep(2)
        ping(network, "one", "2001:db8:46::c000:202")
        ping(network, "one", "2001:db8:46::c000:201")
        fetch(network, "one", "2001:db8:46::c000:202")
        ask(network, "one", "2001:db8:46::c000:202", 1452)
        ask(network, "one", "2001:db8:46::c000:202", 3000)
        trace(network, "one", "2001:db8:46::c000:202", 2, 4)
        ping(network, "one", "2001:db8:46::cb00:7132")
        time.sleep(2)
    finally:
        network.end()


DEPLOYMENTS = {"siit_dc": siit_dc, "464xlat": xlat, "hairpin": hairpin}


def main(names):
    for name in names or DEPLOYMENTS:
        (HERE / name).mkdir(exist_ok=True)
        with tempfile.TemporaryDirectory() as work:
            DEPLOYMENTS[name](HERE / name, Path(work))


if __name__ == "__main__":
    main(sys.argv[1:])
