#!/usr/bin/env python3
"""Times the program over long scripts.

usage, at the top of the repository, after: cd crates/dhcp_main && rt run < stdin -- run
  tools/benchmark_scripts.py [EVENTS..]        2000 and 20000 where none is given

The environment may name other programs, as PROGRAMS=old:new: they are run in turns, with a line of
the table each.

Three kinds of scripts of each family: a client with a lease that is polled before T1; a lease that
is renewed again and again; a client whose Discover or Solicit is open, with a packet for another
client in each event. Each figure is the best of 40 runs, which read a file and write to the null
device, with the start of the process taken off; memory is the most that the process held, by the
command `time` of GNU, which has to be there.
"""

import itertools
import os
import pathlib
import subprocess
import sys
import tempfile
import time

TOP = os.path.dirname(os.path.dirname(os.path.abspath(__file__)))
PROGRAMS = os.environ.get("PROGRAMS", f"{TOP}/crates/dhcp_main/out/dhcp_main").split(":")
ROUNDS = 40


def parts_of_a_life(name):
    """Returns the lines before a worked script's events, and the two packets of them, in hex."""
    with open(f"{TOP}/tools/scripts/{name}", encoding="ascii") as file:
        lines = file.read().splitlines()
    front = [line for line in lines if not line.startswith("at ") and line != "end"]
    offer, ack = [line.split(" ")[4] for line in lines if " frame " in line or " payload " in line]
    return front, offer, ack


def idle(count, offer, ack):
    """A client with a lease, polled again and again before T1."""
    yield f"at 0 ok frame {offer}"
    yield f"at 0 ok frame {ack}"
    for number in range(count - 2):
        yield f"at {1 + number // 100} ok none"


def renewed(count, offer, ack):
    """A lease that is renewed every 300 seconds: an event at T1, and one with the Ack."""
    yield f"at 0 ok frame {offer}"
    yield f"at 0 ok frame {ack}"
    # The payload of a frame stands behind 42 bytes of headers.
    payload = ack[84:]
    for number in range((count - 2) // 2):
        start = 300_010 * number + 300_000
        yield f"at {start} ok none"
        yield f"at {start + 10} ok payload {payload}"


def foreign(count, offer, _):
    """A client whose Discover is open, with an Offer to another transaction id in each event."""
    other = offer.replace("12345678", "12345679", 1)
    for number in range(count):
        yield f"at {number // 100} ok frame {other}"


def leased6(advertise, reply):
    """The first events of an IPv6 client that takes a lease: all are at moment 0."""
    yield "at 0 ok none"
    yield f"at 0 ok payload {advertise}"
    yield f"at 0 ok payload {reply}"


def idle6(count, advertise, reply):
    """An IPv6 client with a lease, polled again and again before T1."""
    yield from leased6(advertise, reply)
    for number in range(count - 3):
        yield f"at {1 + number // 100} ok none"


def renewed6(count, advertise, reply):
    """An IPv6 lease that is renewed every 50 seconds: an event at T1, and one with the Reply."""
    yield from leased6(advertise, reply)
    for number in range((count - 3) // 2):
        start = 50_010 * number + 50_000
        yield f"at {start} ok none"
        yield f"at {start + 10} ok payload {reply}"
    if count % 2 == 0:
        yield f"at {50_010 * ((count - 3) // 2)} ok none"


def foreign6(count, advertise, _):
    """An IPv6 client whose Solicit is open, with an Advertise to another id in each event."""
    other = advertise.replace("02abcdef", "02abcdee", 1)
    for number in range(count):
        yield f"at {number // 100} ok payload {other}"


FAMILIES = (("renewal", (idle, renewed, foreign)), ("renewal6", (idle6, renewed6, foreign6)))


def seconds_of(path):
    """Returns the time of the fastest run of each program over this file; they run in turns."""
    best = [float("inf")] * len(PROGRAMS)
    for _ in range(ROUNDS):
        for place, program in enumerate(PROGRAMS):
            with open(path, "rb") as file:
                begin = time.perf_counter()
                subprocess.run([program, "run"], stdin=file, stdout=subprocess.DEVNULL)
                best[place] = min(best[place], time.perf_counter() - begin)
    return best


def printed_by(program, path):
    """Returns what a program prints for this file, which is a script."""
    with open(path, "rb") as file:
        return subprocess.run([program, "run"], stdin=file, capture_output=True, check=True).stdout


def peak_of(program, path):
    """Returns the most memory, in KiB, of a run over this file, as the command `time` tells it."""
    command = ["env", "time", "--format", "%M", program, "run"]
    streams = {"stdout": subprocess.DEVNULL, "stderr": subprocess.PIPE}
    with open(path, "rb") as file:
        return int(subprocess.run(command, stdin=file, check=True, **streams).stderr)


def lines_of(name, count, path, starts):
    """Returns the lines of the table for a script, where the programs take so long to start."""
    read = path.stat().st_size
    for program, took, start in zip(PROGRAMS, seconds_of(path), starts):
        took = max(took - start, 1e-6)
        printed = len(printed_by(program, path))
        cells = [name, f"{count:,}", f"{took:.4f}", f"{count / took:,.0f}"]
        cells += [f"{read / 1e6:.2f}", f"{printed / 1e6:.2f}"]
        cells += [f"{(read + printed) / took / 1e6:.0f}", f"{peak_of(program, path) / 1024:.1f}"]
        yield f"| {' | '.join(cells)} |"


def main(words):
    counts = [int(word) for word in words] or [2000, 20000]
    heads = ["script", "events", "seconds", "events a second", "MB read", "MB printed"]
    print(f"| {' | '.join(heads + ['MB a second', 'MiB of memory'])} |")
    print("|---|---|---|---|---|---|---|---|")
    with tempfile.TemporaryDirectory() as folder:
        path = pathlib.Path(folder, "script")
        # No text at all is the text of no script.
        path.touch()
        starts = seconds_of(path)
        for script, kinds in FAMILIES:
            front, offer, ack = parts_of_a_life(script)
            for kind, count in itertools.product(kinds, counts):
                path.write_text("\n".join([*front, *kind(count, offer, ack), "end", ""]), "ascii")
                print(*lines_of(kind.__name__, count, path, starts), sep="\n", flush=True)
    return 0


if __name__ == "__main__":
    sys.exit(main(sys.argv[1:]))
