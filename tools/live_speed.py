#!/usr/bin/env python3
"""Measures `dhcp_main live` as a carrier has it: one event through the pipe and back, and memory.

usage: live_speed.py PROGRAM [--events N]...

Times are of an idle poll; of a foreign frame of 300 bytes, which an IPv4 client that searches reads
and drops; and of a renewal, which is two events: the client sends its request, and takes the Ack. A
time is from the first byte written to the last line of the answer read, of 2,000 each. Memory is
what the kernel counts as resident after N events of a life of renewals and foreign packets, 1,000
and 1,000,000 if none is given.
"""

import argparse
import statistics
import struct
import subprocess
import time

MAC = "020000000001"
ID = 0x01020304
CLIENT, SERVER = bytes([192, 0, 2, 10]), bytes([192, 0, 2, 1])


def message(kind, number=ID, length=0):
    """A reply of a server: a lease of 100 seconds with T1 50 and T2 80, filled up to a length."""
    head = struct.pack(">BBBBIHH4x", 2, 1, 6, 0, number, 0, 0) + CLIENT + SERVER
    head += struct.pack(">4x16s192xI", bytes.fromhex(MAC), 0x63825363)
    options = bytes([53, 1, kind, 54, 4]) + SERVER
    if not length:
        times = ((51, 100), (58, 50), (59, 80))
        options += b"".join(struct.pack(">BBI", code, 4, seconds) for code, seconds in times)
    return (head + options + b"\xff").ljust(length, b"\0")


def frame(payload):
    """A payload in an Ethernet frame to UDP port 68; the client tests no checksum."""
    udp = struct.pack(">HHHH", 67, 68, 8 + len(payload), 0) + payload
    internet = struct.pack(">BBHHHBBH", 0x45, 0, 20 + len(udp), 0, 0, 64, 17, 0)
    link = b"\xff" * 6 + bytes.fromhex("020000000002") + b"\x08\x00"
    return link + internet + SERVER + b"\xff" * 4 + udp


FOREIGN = "frame " + frame(message(2, ID + 1, 300 - 42)).hex()
OFFER, ACK = "frame " + frame(message(2)).hex(), "frame " + frame(message(5)).hex()
RENEWED = "payload " + message(5).hex()
FOREIGN_PAYLOAD = "payload " + message(5, ID + 1, 300).hex()


class Program:
    """The running program, with the moment of the last event."""

    def __init__(self, path):
        pipes = {"stdin": subprocess.PIPE, "stdout": subprocess.PIPE}
        self.process = subprocess.Popen([path, "live"], **pipes)
        self.moment = 0
        client = f"dhcp4 3\niface 1 {MAC} 0 0\nforms rfc2131\nhost -\nclient -\ncodes default\n"
        self.write(f"{client}lease none\nwords {ID:08x}{'00000000' * 999}\nstart 0\n")

    def write(self, text):
        self.process.stdin.write(text.encode())
        self.process.stdin.flush()

    def event(self, later, what):
        """Tells it what happens so many milliseconds later; returns the answer and the seconds."""
        self.moment += later
        begun = time.perf_counter()
        self.write(f"at {self.moment} ok {what}\n")
        lines = []
        while not lines or not lines[-1].startswith(b"next "):
            line = self.process.stdout.readline()
            if not line:
                raise SystemExit(f"the program ended with {self.process.wait()}")
            lines.append(line)
        took = time.perf_counter() - begun
        if int(lines[-1].split()[3]) < 64:
            self.write(f"words {'00000000' * 1024}\n")
        return lines, took

    def search(self):
        self.event(0, "none")
        self.event(200, "none")

    def take_a_lease(self):
        self.search()
        self.event(10, OFFER)
        assert b" state done " in self.event(10, ACK)[0][0]

    def renew(self):
        """A renewal; returns its seconds."""
        request, first = self.event(50000, "none")
        answer, second = self.event(10, RENEWED)
        assert b" handed udp4 " in request[1] and b" state done " in answer[0]
        return first + second

    def resident(self):
        with open(f"/proc/{self.process.pid}/status", encoding="ascii") as file:
            return next(int(line.split()[1]) for line in file if line.startswith("VmRSS"))

    def end(self):
        self.write("end\n")
        assert self.process.stdout.readline() == b"ok\n" and self.process.wait() == 0


def show(name, times):
    times = sorted(1e6 * seconds for seconds in times)
    median, most = statistics.median(times), times[len(times) * 9 // 10]
    print(f"{name}: median {median:.1f} us, nine in ten within {most:.1f} us")


def main():
    parser = argparse.ArgumentParser()
    parser.add_argument("program")
    parser.add_argument("--events", type=int, action="append")
    chosen = parser.parse_args()
    program = Program(chosen.program)
    program.search()
    show("a foreign frame of 300 bytes", [program.event(0, FOREIGN)[1] for _ in range(2000)])
    program.end()
    program = Program(chosen.program)
    program.take_a_lease()
    show("an idle poll", [program.event(1, "none")[1] for _ in range(2000)])
    program.moment += 40000
    program.event(8000, "none")
    program.event(10, RENEWED)
    show("a renewal, two events", [program.renew() for _ in range(2000)])
    program.end()
    program, count = Program(chosen.program), 4
    program.take_a_lease()
    for events in chosen.events or [1000, 1000000]:
        while count < events:
            program.renew()
            program.event(0, FOREIGN_PAYLOAD)
            program.event(0, "none")
            count += 4
        print(f"resident after {count} events: {program.resident()} kB")
    program.end()


if __name__ == "__main__":
    main()
