#!/usr/bin/env python3
"""Runs the carrier against real DHCP servers, and replays each transcript.

usage: real_servers.py PROGRAM CARRIER [--only WORD]... [--jobs N] [--work FOLDER] [--table FILE]

PROGRAM is dhcp_main, CARRIER the built carrier. Each server that is installed of dnsmasq, Kea, ISC
dhcpd, udhcpd and systemd-networkd is tried in network namespaces of its own, which are removed at
the end: nothing of the machine's network is touched. WORD chooses the tries whose name has it, as
`4-kea` or `loss`. Needs root, `ip` and `ethtool`. The table goes to standard output, or to a file.
"""

import argparse
import concurrent.futures
import glob
import ipaddress
import itertools
import json
import os
import random
import re
import select
import shutil
import signal
import socket
import subprocess
import sys
import tempfile
import time
import traceback

from script_of_transcript import script_of

PATHS = "/usr/sbin:/sbin:/usr/bin:/bin:/lib/systemd"
os.environ["PATH"] += ":" + PATHS

# What every server is given to serve: pools of the network, by what a try needs.
POOLS = {
    4: {
        "plain": ("198.51.100.50", "198.51.100.99"),
        "other": ("198.51.100.150", "198.51.100.199"),
        "one": ("198.51.100.50", "198.51.100.50"),
        "second": ("203.0.113.50", "203.0.113.99"),
    },
    6: {
        "plain": ("2001:db8:1::1000", "2001:db8:1::1fff"),
        "other": ("2001:db8:1::2000", "2001:db8:1::2fff"),
        "one": ("2001:db8:1::1000", "2001:db8:1::1000"),
    },
}
# The server's address, and that of the server that comes in its place.
ADDRESSES = {4: ("198.51.100.1", "198.51.100.2"), 6: ("2001:db8:1::1", "2001:db8:1::2")}
LENGTHS = {4: 24, 6: 64}
SECOND = "203.0.113.1"

# The text of the box in which a server runs: a /run of its own, so that no file of the machine is
# touched; for systemd-networkd a /sys that is read-only, or it waits for udev.
BOX = """mount -t tmpfs tmpfs /run && mkdir -p /run/systemd/network
cp "$0"/*.network /run/systemd/network/ 2>/dev/null && mount -o remount,ro /sys
exec "$@"
"""


# The servers

def dnsmasq(lab, family, pool, address, device):
    low, high = POOLS[family][pool]
    leases = f"leases-{device}"
    words = ["dnsmasq", "--keep-in-foreground", "--conf-file=/dev/null", "--port=0"]
    words += [f"--interface={device}", "--bind-interfaces", "--no-ping", "--no-hosts"]
    words += ["--no-resolv", "--log-dhcp", "--log-facility=-", "--user=root", "--pid-file="]
    words += ["--dhcp-authoritative", f"--dhcp-leasefile={lab.path(leases)}"]
    if family == 6:
        if address == ADDRESSES[6][1]:
            # its identifier stands in the file of leases
            lab.edit(leases, r"(?m)^duid .*", "duid 00:03:00:01:02:00:00:00:01:99")
        words += [f"--dhcp-range={low},{high},64,2m"]
        return words + ["--dhcp-option=option6:dns-server,[2001:db8:1::53]"]
    words += [f"--dhcp-range={low},{high},255.255.255.0,2m", "--dhcp-option=option:T1,8s"]
    return words + ["--dhcp-option=option:T2,16s", f"--dhcp-option=option:dns-server,{address}"]


def kea(lab, family, pool, address, device):
    low, high = POOLS[family][pool]
    subnet = {
        "id": 1,
        "interface": device,
        "subnet": f"{network(family, low)}/{LENGTHS[family]}",
        "pools": [{"pool": f"{low} - {high}"}],
    }
    output = {"output_options": [{"output": "stdout"}]}
    conf = {
        "interfaces-config": {"interfaces": [device]},
        "lease-database": {"type": "memfile", "persist": False},
        "renew-timer": 8,
        "rebind-timer": 16,
        "loggers": [{"name": f"kea-dhcp{family}", "severity": "INFO", **output}],
        f"subnet{family}": [subnet],
    }
    if family == 4:
        conf["interfaces-config"]["dhcp-socket-type"] = "raw"
        conf |= {"authoritative": True, "valid-lifetime": 24}
        names = ("routers", "domain-name-servers")
        subnet["option-data"] = [{"name": name, "data": address} for name in names]
    else:
        number = "0102" if address == ADDRESSES[6][0] else "0304"
        identity = {"type": "EN", "enterprise-id": 32473, "identifier": number, "persist": False}
        conf |= {"preferred-lifetime": 30, "valid-lifetime": 40, "server-id": identity}
        prefixes = {"prefix": "2001:db8:f000::", "prefix-len": 48, "delegated-len": 56}
        subnet["pd-pools"] = [prefixes]
    path = lab.write(f"kea{family}.json", json.dumps({f"Dhcp{family}": conf}))
    return [f"kea-dhcp{family}", "-c", path]


def isc(lab, family, pool, address, device):
    low, high = POOLS[family][pool]
    common = "authoritative; ddns-update-style none;\n"
    if family == 4:
        text = common + f"""ping-check false;
default-lease-time 24; max-lease-time 24; min-lease-time 24;
option dhcp-renewal-time 8; option dhcp-rebinding-time 16;
subnet {network(4, low)} netmask 255.255.255.0 {{
  range {low} {high}; option routers {address}; option domain-name-servers {address};
}}
"""
    else:
        number = "01" if address == ADDRESSES[6][0] else "99"
        # the identifier stands in the file of leases too
        lab.edit(f"leases-{device}", r"(?m)^server-duid .*\n", "")
        text = common + f"""default-lease-time 40; preferred-lifetime 30;
option dhcp-renewal-time 8; option dhcp-rebinding-time 16;
server-duid LL ethernet 02:00:00:00:01:{number};
subnet6 {network(6, low)}/64 {{
  range6 {low} {high};
  prefix6 2001:db8:f000:: 2001:db8:f000:ff00:: /56;
}}
"""
    leases = lab.path(f"leases-{device}")
    open(leases, "a").close()
    words = ["dhcpd", f"-{family}", "-d", "-f", "-cf", lab.write(f"dhcpd-{device}.conf", text)]
    return words + ["-lf", leases, "-pf", lab.path(f"dhcpd-{device}.pid"), device]


def udhcpd(lab, family, pool, address, device):
    low, high = POOLS[family][pool]
    leases = lab.path(f"leases-{device}")
    open(leases, "a").close()
    conf = lab.write("udhcpd.conf", f"""start {low}
end {high}
interface {device}
lease_file {leases}
pidfile {lab.path('udhcpd.pid')}
auto_time 0
min_lease 5
opt lease 24
opt subnet 255.255.255.0
opt router {address}
opt dns {address}
""")
    return ["udhcpd", "-f", conf]


def networkd(lab, family, pool, address, device):
    first, last = (int(end.rsplit(".")[-1]) for end in POOLS[family][pool])
    lab.write("server.network", f"""[Match]
Name={device}
[Network]
Address={address}/24
DHCPServer=yes
LinkLocalAddressing=no
IPv6AcceptRA=no
[DHCPServer]
PoolOffset={first}
PoolSize={last - first + 1}
DefaultLeaseTimeSec=24
MaxLeaseTimeSec=24
EmitRouter=yes
DNS={address}
""")
    return ["systemd-networkd"]


def network(family, address):
    """The network in which an address is."""
    return str(ipaddress.ip_network(f"{address}/{LENGTHS[family]}", strict=False).network_address)


class Kind:
    """A kind of server: its program, what shows its version, and for each family that it serves how
    long its leases last, and their T1, in seconds."""

    def __init__(self, name, words, program, version, leases):
        self.name, self.words, self.program = name, words, program
        self.version, self.leases = [program, version], leases


KINDS = [
    Kind("dnsmasq", dnsmasq, "dnsmasq", "--version", {4: (120, 8), 6: (120, 60)}),
    Kind("kea", kea, "kea-dhcp4", "-V", {4: (24, 8), 6: (40, 8)}),
    Kind("isc", isc, "dhcpd", "--version", {4: (24, 8), 6: (40, 8)}),
    Kind("udhcpd", udhcpd, "udhcpd", "--help", {4: (24, 12)}),
    Kind("networkd", networkd, "systemd-networkd", "--version", {4: (24, 12)}),
]


# The laboratory

class Lab:
    """Namespaces for a server, a client and, if asked for, what is between them; and a folder."""

    def __init__(self, name, number, folder, middle):
        self.name, self.folder = name, os.path.join(folder, name)
        tag = f"jig{os.getpid()}x{number}"
        sides = ("server", "client", "middle") if middle else ("server", "client")
        self.spaces = {side: tag + side[0] for side in sides}
        self.processes = []

    def __enter__(self):
        shutil.rmtree(self.folder, ignore_errors=True)
        os.makedirs(self.folder)
        for space in self.spaces.values():
            run("ip", "netns", "add", space)
            self.inside(space, "ip link set lo up")
            for name in ("accept_dad", "dad_transmits", "accept_ra", "router_solicitations"):
                for part in ("all", "default"):
                    self.inside(space, f"sysctl -qw net.ipv6.conf.{part}.{name}=0")
        if "middle" in self.spaces:
            self.link("server", "srv0", "02:00:00:00:01:01", "middle", "up0", "02:00:00:00:03:01")
            self.link("middle", "down0", "02:00:00:00:03:02", "client", "cli0", "02:00:00:00:02:01")
        else:
            self.link("server", "srv0", "02:00:00:00:01:01", "client", "cli0", "02:00:00:00:02:01")
        time.sleep(0.5)
        return self

    def __exit__(self, *_):
        for process in reversed(self.processes):
            stop(process)
        for space in self.spaces.values():
            subprocess.run(["ip", "netns", "del", space], check=False)

    def inside(self, space, words):
        run("ip", "netns", "exec", self.spaces.get(space, space), *words.split())

    def link(self, side, name, mac, other, other_name, other_mac):
        peer = ("peer", "name", other_name, "address", other_mac, "netns", self.spaces[other])
        device = ("link", "add", name, "address", mac, "type", "veth")
        run("ip", "-n", self.spaces[side], *device, *peer)
        for space, device in ((side, name), (other, other_name)):
            # a checksum that is left to the hardware would never be made
            self.inside(space, f"ethtool -K {device} tx off")
            self.inside(space, f"ip link set {device} up")

    def path(self, name):
        return os.path.join(self.folder, name)

    def write(self, name, text):
        with open(self.path(name), "w") as file:
            file.write(text)
        return self.path(name)

    def edit(self, name, pattern, text):
        if os.path.exists(self.path(name)):
            with open(self.path(name)) as file:
                before = file.read()
            self.write(name, re.sub(pattern, text, before))

    def begin(self, side, words, log, box=False):
        boxed = ["sh", "-c", BOX, self.folder] if box else []
        inside = ["ip", "netns", "exec", self.spaces[side], *boxed, *words]
        variables = {"KEA_LOCKFILE_DIR": self.folder, "KEA_PIDFILE_DIR": self.folder, "LC_ALL": "C"}
        with open(self.path(log), "ab") as file:
            streams = {"stdin": subprocess.DEVNULL, "stdout": file, "stderr": file}
            variables = {**os.environ, **variables}
            process = subprocess.Popen(inside, **streams, env=variables, cwd=self.folder)
        self.processes.append(process)
        return process


def run(*words):
    subprocess.run(words, check=True, stdout=subprocess.DEVNULL)


def output_of(*words):
    """The lines that a command writes."""
    pipes = {"stdout": subprocess.PIPE, "stderr": subprocess.STDOUT}
    return subprocess.run(words, text=True, check=False, **pipes).stdout.splitlines()


def stop(process, how=signal.SIGTERM, seconds=10):
    """Ends a process, and returns its exit status."""
    if process.poll() is None:
        process.send_signal(how)
        try:
            process.wait(seconds)
        except subprocess.TimeoutExpired:
            process.kill()
            process.wait()
    return process.returncode


class Server:
    """A server of a kind in a laboratory."""

    def __init__(self, lab, kind, family):
        self.lab, self.kind, self.family = lab, kind, family
        self.lease, self.t1 = kind.leases[family]
        self.process, self.address = None, None

    def up(self, pool="plain", elsewhere=False):
        """Starts it, with a pool, and maybe under another address and identity."""
        address = ADDRESSES[self.family][elsewhere]
        if address != self.address:
            self.lab.inside("server", "ip addr flush dev srv0 scope global")
            if self.kind.name != "networkd":  # which sets it itself
                self.lab.inside("server", f"ip addr add {address}/{LENGTHS[self.family]} dev srv0")
        self.address = address
        words = self.kind.words(self.lab, self.family, pool, address, "srv0")
        self.process = self.lab.begin("server", words, "server.log", box=True)
        time.sleep(2)

    def down(self, forget=False):
        stop(self.process)
        for path in glob.glob(self.lab.path("leases-srv0*")) if forget else []:
            os.remove(path)

    def log(self):
        with open(self.lab.path("server.log"), errors="replace") as file:
            return file.read()


class Client:
    """A carrier on an interface, with the log of all that it wrote since its last start."""

    numbers = itertools.count(1)

    def __init__(self, lab, family, words=(), device="cli0"):
        self.lab, self.device, self.family, self.words = lab, device, family, list(words)
        self.lease, self.parts = lab.path(f"lease-{device}"), []
        self.start()

    def start(self):
        number = next(self.numbers)
        transcript, answers = f"transcript-{number}", f"answers-{number}"
        self.parts.append((transcript, answers))
        self.log_name = f"carrier-{number}"
        program = self.lab.write(f"program-{number}", f"""#!/bin/bash
set -o pipefail
{PROGRAM} "$@" | tee {self.lab.path(answers)}
""")
        os.chmod(program, 0o755)
        words = [CARRIER, f"-{self.family}", "--foreground", "--program", program, *self.words]
        words += ["--lease", self.lease, "--transcript", self.lab.path(transcript), self.device]
        self.process = self.lab.begin("client", words, self.log_name)

    def lines(self, pattern):
        with open(self.lab.path(self.log_name), errors="replace") as file:
            return [line.split(": ", 1)[1].strip() for line in file if re.search(pattern, line)]

    def states(self):
        """The states since the start, each a word, and the address with it if there is one."""
        return self.lines(r": [a-z_]+ ?([0-9a-f.:]+/\d+)?$")

    def leases(self):
        return [state.split()[1] for state in self.states() if state.startswith("done")]

    def wait(self, test, seconds):
        """Waits until a test is met, or so many seconds; returns after how many, or None."""
        begun = time.time()
        while time.time() < begun + seconds:
            if test():
                return round(time.time() - begun, 1)
            if self.process.poll() is not None:
                return None
            time.sleep(0.05)
        return None

    def wait_for_lease(self, number, seconds):
        """The address of lease number `number` since the start."""
        self.wait(lambda: len(self.leases()) >= number, seconds)
        return (self.leases() + [None] * number)[number - 1]

    def way(self, number):
        """The states between one lease, or the start, and lease number `number`."""
        done = [at for at, state in enumerate(self.states()) if state.startswith("done")]
        if len(done) < number:
            return self.states()
        return self.states()[done[number - 2] + 1 if number > 1 else 0:done[number - 1]]

    def has_nack(self):
        """Whether a Nack of DHCPv4 came: option 53, the first after the cookie, is 6."""
        with open(self.lab.path(self.parts[-1][0])) as file:
            return "63825363350106" in file.read()

    def took(self):
        """How many seconds passed from the first event to the first lease, once that is told of."""
        with open(self.lab.path(self.parts[-1][0])) as file:
            moments = [int(line.split()[1]) for line in file if line.startswith("at ")]
        events = []
        while not events:
            with open(self.lab.path(self.parts[-1][1])) as file:
                events = [int(line.split()[0]) for line in file if " state done " in line]
        return (moments[events[0] - 1] - moments[0]) / 1000

    def addresses(self):
        words = ["ip", "-n", self.lab.spaces["client"], "-o", f"-{self.family}", "addr", "show"]
        lines = output_of(*words, "dev", self.device, "scope", "global")
        return [line.split()[3] for line in lines]

    def sent(self):
        """How many messages went out since the start, and how many the link did not take."""
        with open(self.lab.path(self.parts[-1][1]), errors="replace") as file:
            kinds = [line.split()[1] for line in file if re.match(r"\d+ (handed|refused)", line)]
        return kinds.count("handed"), kinds.count("refused")


# What is tried. Each function gets the laboratory, a server that is down, the client's words and
# rows, to which it adds what each phase came to: (phase, verdict, what was seen).

SEARCHES = ("init_reboot", "solicit")


def obtained(client, rows, phase="obtain", seconds=40):
    """The first lease, which must be on the interface."""
    address = client.wait_for_lease(1, seconds)
    bound = client.wait(lambda: address in client.addresses(), 10) is not None
    if not address:
        rows.append((phase, "fails", f"no lease in {seconds} s"))
        return None
    rows.append((phase, "works" if bound else "fails", f"{address} after {client.took():.1f} s"))
    return address


def kept(client, server, rows, phase, number, way):
    """Lease number `number`, which is to be the same address and to come by these states."""
    before = client.leases()[-1]
    address = client.wait_for_lease(number, server.lease + 30)
    went = client.way(number)
    works = went == way and address == before
    rows.append((phase, verdict_of(address, works), f"{address}, by {', '.join(went)}"))
    return address


def verdict_of(address, works):
    """What a phase that ends with a lease came to."""
    return "fails" if not address else "works" if works else "otherwise"


def renewing(server):
    return ["renewing"] if server.family == 4 else ["renew"]


def try_life(lab, server, words, rows):
    """Obtain, renew twice, a second client on the same link, release."""
    server.up()
    client = Client(lab, server.family, words)
    first = obtained(client, rows)
    if not first:
        return
    kept(client, server, rows, "renew", 2, renewing(server))
    kept(client, server, rows, "renew again", 3, renewing(server))
    add_second_interface(lab)
    other = Client(lab, server.family, words, "cli1")
    second = obtained(other, [], seconds=30)
    verdict = "works" if second not in (None, first) else "fails"
    rows.append(("two clients", verdict, f"{first} and {second}"))
    kept(client, server, rows, "renew beside the other", len(client.leases()) + 1, renewing(server))
    begun = len(server.log())
    status = stop(client.process)
    time.sleep(1)
    said = [line for line in server.log()[begun:].splitlines() if re.search("(?i)releas", line)]
    left = len(client.addresses())
    noticed = "the server logs it" if said else "the server logs nothing"
    verdict = "works" if status == 0 and not left else "fails"
    rows.append(("release", verdict, f"exit status {status}, addresses left: {left}; {noticed}"))


def add_second_interface(lab):
    lab.inside("client", "ip link add cli1 link cli0 type macvlan mode bridge")
    lab.inside("client", "ip link set cli1 address 02:00:00:00:02:02")
    lab.inside("client", "ip link set cli1 up")
    time.sleep(1)


def try_free(lab, server, words, rows):
    """A pool of one address: does a release free it for another client, before the lease's end?"""
    server.up("one")
    client = Client(lab, server.family, words)
    first = obtained(client, [])
    add_second_interface(lab)
    stop(client.process)
    other = Client(lab, server.family, words, "cli1")
    second = obtained(other, [], seconds=40)
    took = other.took() if second else 0
    freed = first and second == first and took < server.lease / 2
    seen = f"another client has {second} after {took:.1f} s" if second else "none for another"
    rows.append(("release, a pool of one address", "works" if freed else "fails", seen))


def try_rebind(lab, server, words, rows):
    """The server is gone, and another is there with other addresses of its own."""
    server.up()
    client = Client(lab, server.family, words)
    first = obtained(client, [])
    server.down()
    server.up(elsewhere=True)
    second = client.wait_for_lease(2, server.lease + 60)
    way = ["renewing", "rebinding"] if server.family == 4 else ["renew", "rebind"]
    verdict = verdict_of(second, client.way(2) == way and second == first)
    rows.append(("rebind at another server", verdict, f"{second}, by {', '.join(client.way(2))}"))


def try_refusal(lab, server, words, rows):
    """The server comes back without its leases, and with another pool."""
    server.up()
    client = Client(lab, server.family, words)
    first = obtained(client, [])
    server.down(forget=True)
    server.up("other")
    begun = time.time()
    new = []
    while not new and time.time() < begun + server.lease + 90:
        client.wait(lambda: False, 0.2)
        new = [address for address in client.leases() if address != first]
    phase, took = "server that has forgotten", time.time() - begun
    if not new:
        again = len(client.leases()) - 1
        verdict = verdict_of(again, False)
        rows.append((phase, verdict, f"the server grants {first} again, {again} times"))
        return
    gone = client.wait(lambda: first not in client.addresses(), 10) is not None
    way = ", ".join(client.way(client.leases().index(new[0]) + 1))
    nack = "a Nack came" if client.has_nack() else "no Nack came"
    seen = f"{new[0]} after {took:.0f} s, by {way}; {nack}; the old address is off: {gone}"
    rows.append((phase, "works" if gone else "fails", seen))


def try_restart(lab, server, words, rows):
    """The carrier is killed, and begins with the lease that it kept: accepted, then refused."""
    server.up()
    client = Client(lab, server.family, words)
    first = obtained(client, [])
    for pool in ("plain", "other"):
        stop(client.process, signal.SIGKILL)
        if pool == "other":
            server.down(forget=True)
            server.up(pool)
        client.start()
        address = client.wait_for_lease(1, 100)
        way = client.way(1)
        if pool == "plain":
            phase, works = "restart with the held lease", address == first and not way
        else:
            phase, works = "restart, the held lease refused", address != first
            gone = client.wait(lambda: client.addresses() == [address], 10)
            works = works and gone is not None
        took = f" after {client.took():.1f} s" if address else ""
        seen = f"{address}{took}, by {', '.join(way) or 'no other state'}"
        rows.append((phase, verdict_of(address, works), seen))


def try_end(lab, server, words, rows):
    """No server any more: the address goes when the lease ends; then a server is there again."""
    server.up()
    client = Client(lab, server.family, words)
    obtained(client, [])
    begun = time.time()
    server.down()
    client.wait(lambda: set(client.states()) & set(SEARCHES), server.lease + 60)
    lasted = time.time() - begun
    gone = client.wait(lambda: not client.addresses(), 10) is not None
    works = gone and abs(lasted - server.lease) < 5
    seen = f"after {lasted:.0f} s of {server.lease} the address is off: {gone}"
    rows.append(("end of the lease", "works" if works else "fails", seen))
    count = len(client.leases())
    server.up()
    begun = time.time()
    again = client.wait_for_lease(count + 1, 90)
    seen = f"{again} after {time.time() - begun:.0f} s"
    rows.append(("server back", "works" if again else "fails", seen))


def try_link(lab, server, words, rows):
    """The link is down at the start, and later over T1."""
    server.up()
    if server.family == 4:
        lab.inside("server", "ip link set srv0 down")
        client = Client(lab, 4, words)
        time.sleep(10)
        refused = client.sent()[1]
        lab.inside("server", "ip link set srv0 up")
        begun = time.time()
        address = client.wait_for_lease(1, 90)
        seen = f"{address} {time.time() - begun:.0f} s after the link is up, {refused} not sent"
        rows.append(("link down at the start", "works" if address else "fails", seen))
    else:
        client = Client(lab, 6, words)
        client.wait_for_lease(1, 40)
    count, before = len(client.leases()), client.sent()[1]
    lab.inside("server", "ip link set srv0 down")
    time.sleep(server.t1 + 3)
    refused = client.sent()[1] - before
    lab.inside("server", "ip link set srv0 up")
    if server.family == 6:
        lab.inside("server", f"ip addr replace {server.address}/64 dev srv0")
    address = client.wait_for_lease(count + 1, server.lease + 60)
    lost = any(state in SEARCHES for state in client.way(count + 1))
    seen = f"{address}, by {', '.join(client.way(count + 1))}, {refused} not sent"
    rows.append(("link down over T1", verdict_of(address, not lost), seen))


def try_loss(lab, server, words, rows):
    """A program between server and client loses 30 % of the messages, each way."""
    server.up()
    words_of_loss = [sys.executable, os.path.abspath(__file__), "--lossy", "up0", "down0", "0.3"]
    lab.begin("middle", [*words_of_loss, lab.name], "lossy.log")
    time.sleep(1)
    client = Client(lab, server.family, words)
    address = obtained(client, rows, "obtain, 30 % lost", 300)
    if not address:
        return
    seconds = 4 * server.lease if server.lease < 60 else 150
    client.wait(lambda: False, seconds)
    ends = sum(state in SEARCHES for state in client.states())
    seen = f"{len(client.leases())} leases, {ends} ended; {client.sent()[0]} messages"
    rows.append((f"hold for {seconds} s, 30 % lost", verdict_of(address, not ends), seen))


def try_two_servers(lab, server, words, rows):
    """A second server, on a bridge between, serves another network."""
    lab.inside("middle", "ip link add name br0 type bridge")
    for rest in ("up0 master br0", "down0 master br0", "br0 up"):
        lab.inside("middle", "ip link set " + rest)
    lab.inside("middle", f"ip addr add {SECOND}/24 dev br0")
    server.up()
    others = [kind for kind in installed() if kind.name in ("dnsmasq", "isc")]
    kind = next(kind for kind in others if kind != server.kind)
    lab.begin("middle", kind.words(lab, 4, "second", SECOND, "br0"), "second.log")
    time.sleep(2)
    client = Client(lab, 4, words)
    address = obtained(client, rows, "two servers with other networks", 90)
    seconds = 60
    client.wait(lambda: False, seconds)
    ends = sum(state in SEARCHES for state in client.states()[1:])
    seen = f"beside {kind.name}: {len(client.leases())} leases, {ends} ended"
    rows.append((f"hold for {seconds} s beside the other", verdict_of(address, not ends), seen))


def try_prefix(lab, server, words, rows):
    """A delegated prefix."""
    server.up()
    client = Client(lab, 6, [*words, "--prefix", "56"])
    prefix = client.wait_for_lease(1, 30)
    rows.append(("prefix", "works" if prefix and prefix.endswith("/56") else "fails", str(prefix)))
    if prefix:
        kept(client, server, rows, "renew the prefix", 2, ["renew"])
        rows.append(("release the prefix", "works" if stop(client.process) == 0 else "fails", ""))


def tries():
    """All that is tried: (name, kind, family, forms, function)."""
    for kind in installed():
        for family in kind.leases:
            for forms in ("rfc2131", "mozim") if family == 4 else ("",):
                functions = [try_life, try_free, try_rebind, try_refusal, try_restart]
                if forms != "mozim":
                    functions += [try_end, try_link, try_loss]
                if family == 4:
                    functions += [try_two_servers]
                elif kind.name != "dnsmasq":
                    functions += [try_prefix]
                for function in functions:
                    parts = (str(family), kind.name, forms or "dhcpv6", function.__name__[4:])
                    yield "-".join(parts), kind, family, forms, function


def installed():
    return [kind for kind in KINDS if shutil.which(kind.program)]


# The transcripts

def replays(lab, transcript, answers):
    """Whether `run` writes of a transcript what the program answered in its course."""
    with open(lab.path(transcript)) as file:
        script = script_of(file.read())
    with open(lab.path(answers)) as file:
        lines = file.read().splitlines()
    said = [line for line in lines if not line.startswith(("next ", "dropped "))]
    said += ["ok"] * (said[-1:] != ["ok"])
    words = [PROGRAM, "run"]
    played = subprocess.run(words, input=script, capture_output=True, text=True, check=False)
    return played.returncode == 0 and played.stdout.splitlines() == said


def play(number, item, folder):
    name, kind, family, forms, function = item
    rows, words = [], ["--forms", forms] if forms else []
    begun = time.time()
    with Lab(name, number, folder, function in (try_loss, try_two_servers)) as lab:
        try:
            function(lab, Server(lab, kind, family), words, rows)
        except Exception as error:  # pylint: disable=broad-except
            traceback.print_exc()
            rows.append((function.__name__[4:], "broke", repr(error)))
    parts = sorted(os.path.basename(path) for path in glob.glob(lab.path("transcript-*")))
    good = sum(replays(lab, part, part.replace("transcript", "answers")) for part in parts)
    replayed = f"{good} of {len(parts)}"
    lines = [f"{name}: {time.time() - begun:.0f} s, {replayed} transcripts replayed"]
    lines += [f"    {phase}: {verdict}: {seen}" for phase, verdict, seen in rows]
    print("\n".join(lines), file=sys.stderr, flush=True)
    return [(family, kind.name, forms, *row, replayed) for row in rows]


def lossy(names, share, seed):
    """Copies frames between two interfaces, and loses a share of the messages over UDP."""
    dice, ends = random.Random(seed), []
    for name in names:
        end = socket.socket(socket.AF_PACKET, socket.SOCK_RAW, socket.htons(3))
        end.bind((name, 0))
        # SOL_PACKET, PACKET_ADD_MEMBERSHIP: promiscuous
        index = socket.if_nametoindex(name).to_bytes(4, "little")
        end.setsockopt(263, 1, index + b"\1" + bytes(11))
        ends.append(end)
    while True:
        for end in select.select(ends, [], [])[0]:
            frame, address = end.recvfrom(65535)
            is_udp = frame[12:14] == b"\x08\x00" and frame[23:24] == b"\x11" or \
                frame[12:14] == b"\x86\xdd" and frame[20:21] == b"\x11"
            if address[2] != socket.PACKET_OUTGOING and not (is_udp and dice.random() < share):
                ends[1 - ends.index(end)].send(frame)


def write_table(rows, file):
    for kind in installed():
        print(f"- {kind.name}: {(output_of(*kind.version) or ['?'])[0]}", file=file)
    heads = ("IPv", "server", "forms", "phase", "verdict", "seen", "transcripts replayed")
    for row in (("",), heads, ["---"] * len(heads), *rows):
        print("| " + " | ".join(map(str, row)) + " |" if len(row) > 1 else "", file=file)


def main():
    global PROGRAM, CARRIER
    if sys.argv[1:2] == ["--lossy"]:
        lossy(sys.argv[2:4], float(sys.argv[4]), sys.argv[5])
    parser = argparse.ArgumentParser()
    parser.add_argument("program")
    parser.add_argument("carrier")
    parser.add_argument("--only", action="append", default=[])
    parser.add_argument("--jobs", type=int, default=8)
    parser.add_argument("--work")
    parser.add_argument("--table")
    chosen = parser.parse_args()
    PROGRAM, CARRIER = os.path.abspath(chosen.program), os.path.abspath(chosen.carrier)
    folder = os.path.abspath(chosen.work or tempfile.mkdtemp())
    os.makedirs(folder, exist_ok=True)
    os.chmod(folder, 0o755)
    only = chosen.only or [""]
    items = [item for item in tries() if any(word in item[0] for word in only)]
    with concurrent.futures.ThreadPoolExecutor(chosen.jobs) as pool:
        played = pool.map(lambda item: play(*item, folder), enumerate(items))
        rows = list(itertools.chain.from_iterable(played))
    with open(chosen.table, "w") if chosen.table else sys.stdout as file:
        write_table(rows, file)
    sys.exit(any(row[4] in ("fails", "broke") for row in rows))


if __name__ == "__main__":
    main()
