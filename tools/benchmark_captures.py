#!/usr/bin/env python3
"""Times the inspector over long capture files.

usage, at the top of the repository, after: cd crates/inspect_main && rt run < stdin
  tools/benchmark_captures.py [MEGABYTES..]        1 and 16 where none is given

Files of packets of another protocol, of 1,500 and of 60 bytes, of Discovers, and of Solicits. Each
figure is the processor time of the best of five runs, that of the start of the process taken off.
"""

import os
import resource
import struct
import subprocess
import sys

TOP = os.path.dirname(os.path.dirname(os.path.abspath(__file__)))
PROGRAM = f"{TOP}/crates/inspect_main/out/inspect_main"
EXAMPLE = f"{TOP}/crates/inspect_main/stdin"
ROUNDS = 5
HEADER_LENGTH = 24
RECORD_HEADER_LENGTH = 16

# A Solicit in a frame over IPv6: Ethernet, IPv6 and UDP, and the message with its client's
# identifier, an association, the options that are asked for, and the elapsed time.
SOLICIT = bytes.fromhex(
    "333300010002 020000000001 86dd 60000000 0036 11 01"
    "fe800000000000000000000000000001 ff020000000000000000000000010002"
    "0222 0223 0036 0000"
    "01abcdef 0001000a00030001020000000001 0003000c000000000000000000000000"
    "000600020017 000800020000"
)


def discover():
    """Returns the packet of the stored run, a Discover in a frame over IPv4."""
    with open(EXAMPLE, "rb") as file:
        return file.read()[HEADER_LENGTH + RECORD_HEADER_LENGTH :]


def capture(packet, size):
    """Returns a file of at most so many bytes whose records all have this packet, and how many."""
    count = (size - HEADER_LENGTH) // (RECORD_HEADER_LENGTH + len(packet))
    header = struct.pack("<IHHIIII", 0xA1B2C3D4, 2, 4, 0, 0, 262144, 1)
    length = len(packet)
    records = [
        struct.pack("<IIII", 1764404220 + number // 1000, number % 1000, length, length) + packet
        for number in range(count)
    ]
    return header + b"".join(records), count


def used():
    """Returns the processor time of the processes that have ended so far."""
    usage = resource.getrusage(resource.RUSAGE_CHILDREN)
    return usage.ru_utime + usage.ru_stime


def seconds_of(file, wanted=0):
    """Returns the processor time of the fastest run over this file, which ends with the wanted
    status, and how many bytes it printed."""
    best, printed = None, b""
    for _ in range(ROUNDS):
        before = used()
        done = subprocess.run([PROGRAM], input=file, capture_output=True)
        took = used() - before
        best, printed = min(took, best or took), done.stdout
        if done.returncode != wanted:
            sys.exit(f"status {done.returncode}")
    return best, len(printed)


def main(words):
    sizes = [int(word) for word in words] or [1, 16]
    # No bytes at all are no capture file: status 2.
    start, _ = seconds_of(b"", wanted=2)
    kinds = [
        ("1,500 bytes of another protocol", bytes(1500)),
        ("60 bytes of another protocol", bytes(60)),
        ("a Discover", discover()),
        ("a Solicit", SOLICIT),
    ]
    print(
        "| each record has | MB | records | seconds | records a second | MB a second "
        "| MB printed |"
    )
    print("|---|---|---|---|---|---|---|")
    for name, packet in kinds:
        for size in sizes:
            file, count = capture(packet, size * 1_000_000)
            took, printed = seconds_of(file)
            took = max(took - start, 1e-6)
            cells = [name, size, f"{count:,}", f"{took:.4f}", f"{count / took:,.0f}"]
            cells += [f"{len(file) / took / 1e6:,.0f}", f"{printed / 1e6:.2f}"]
            print(f"| {' | '.join(str(cell) for cell in cells)} |")
    return 0


if __name__ == "__main__":
    sys.exit(main(sys.argv[1:]))
