#!/usr/bin/env python3
"""Times the reading and writing of messages of both families, frames, lists of DHCPv6 options and
relay messages, what a server does with a message, and the polls of a client over a link in memory.

usage, at the top of the repository, after: cd crates/dhcp_bench && rt run < stdin -- frame 3
  tools/benchmark_messages.py [WORD..]        only the rows whose input or task has such a word

The environment may name other programs, as PROGRAMS=old:new: they are run in turns, with a column
each; one that has no such task has none. ROUNDS says how often all of it is done, 5 where it is
not set. Each figure is the best of these runs in nanoseconds, with the start of the process taken
off.
"""

import os
import pathlib
import subprocess
import sys
import tempfile
import time

TOP = os.path.dirname(os.path.dirname(os.path.abspath(__file__)))
PROGRAMS = os.environ.get("PROGRAMS", f"{TOP}/crates/dhcp_bench/out/dhcp_bench").split(":")
ROUNDS = int(os.environ.get("ROUNDS", "5"))

# A message of a server up to its options has these fields before and after its transaction id.
BEFORE_ID = bytes.fromhex("02010600")
AFTER_ID = bytes.fromhex(
    "00000000 00000000 c000020a c0000201 00000000 020000000001" + 202 * "00" + "63825363"
)
HEAD = BEFORE_ID + bytes.fromhex("12345678") + AFTER_ID

# The options of a usual Ack: type, server, lease time, T1, T2, mask, broadcast, router, name
# server, host name, domain name, End.
ACK = bytes.fromhex(
    "350105 3604c0000201 330400000e10 3a0400000708 3b0400000c4e 0104ffffff00 1c04c00002ff"
    "0304c0000201 0604c0000201 0c03666f6f 0f036c616e ff"
)

# An unknown option of 30 bytes, and a lease time.
UNKNOWN_AND_TIME = bytes.fromhex(
    "e01c00112233445566778899aabbccddeeff00112233445566778899aabb 330400000e10"
)

ADDRESS6 = bytes.fromhex("20010db80000000000000000000000")

# The options of a usual Reply of 129 bytes: the identifiers, an address, two name servers, a domain
# name.
REPLY = (
    bytes.fromhex("0001000a00030001020000000001 0002000a00030001020000000002")
    + bytes.fromhex("00030028000000000000003200000050 00050018")
    + ADDRESS6
    + bytes.fromhex("10 00000064 000000c8 00170020")
    + ADDRESS6
    + b"\x01"
    + ADDRESS6
    + b"\x02"
    + bytes.fromhex("0018000d076578616d706c6503636f6d00")
)

TASKS4 = ("read", "message", "written", "lease", "moved", "kept")
# Those that take long enough on a message of which two options are kept, the last of each code.
TASKS4_OF_TWO_KEPT_OPTIONS = ("read", "message", "lease", "moved")
TASKS6 = ("reply6", "message6", "written6", "lease6", "moved6", "kept6")
POOLS = ("serve256", "serve65536")


def message(options, size):
    """A DHCPv4 message of so many bytes with these options as often as they fit, then Pads."""
    count = (size - len(HEAD)) // len(options) if options else 0
    return (HEAD + count * options).ljust(size, b"\0")


def ack():
    """A usual Ack: its options once."""
    return (HEAD + ACK).ljust(302, b"\0")


def many_options():
    """A message with 239 options, 238 of them of four bytes; the other is the message type."""
    codes = [code for code in range(1, 241) if code not in (53, 121)]
    options = b"".join(bytes([code, 4]) + (3600).to_bytes(4, "big") for code in codes)
    return HEAD + b"\x35\x01\x05" + options + b"\xff"


def headers(size):
    """What stands before the payload of a frame of so many bytes, from a server to all."""
    ethernet = bytes.fromhex("ffffffffffff0200000000020800")
    ipv4 = bytes.fromhex(f"4500{size - 14:04x}0000000040110000c0000201ffffffff")
    udp = bytes.fromhex(f"00430044{size - 34:04x}0000")
    return ethernet + ipv4 + udp


def frame(size):
    """A frame of so many bytes, whose payload is no message."""
    return headers(size).ljust(size, b"\x5a")


def frame_of(identifier, options, size):
    """A frame of so many bytes, with a message of this transaction id and these options."""
    message_of = BEFORE_ID + bytes.fromhex(identifier) + AFTER_ID + bytes.fromhex(options)
    return (headers(size) + message_of).ljust(size, b"\0")


def options6(numbers):
    """DHCPv6 options of two bytes: of each code, and with the value, of these numbers."""
    return b"".join(
        code.to_bytes(2, "big") + b"\0\2" + value.to_bytes(2, "big") for code, value in numbers
    )


def association():
    """An identity association with 2,000 addresses."""
    address = bytes.fromhex("00050018") + ADDRESS6 + bytes.fromhex("1000000064000000c8")
    return bytes.fromhex("0003dacc000000000000003200000050") + 2000 * address


def solicit(size):
    """A Solicit of so many bytes, as a relay sees it."""
    return bytes.fromhex("01abcdef").ljust(size, b"\0")


def relayed(layers):
    """A Relay-forward of so many layers around a Solicit."""
    whole = solicit(4)
    for hops in range(layers):
        addresses = ADDRESS6 + b"\x01" + bytes.fromhex("fe80" + 26 * "0" + "01")
        layer = b"\x0c" + bytes([hops]) + addresses
        whole = layer + b"\0\x09" + len(whole).to_bytes(2, "big") + whole
    return whole


def row(name, task, times, *lines):
    """A row: the name of an input, a task, how often it is done, and the lines that it reads."""
    return name, task, times, "".join(line.hex() + "\n" for line in lines)


def rows():
    """Yields all rows."""
    yield from rows_of_messages4()
    yield from rows_of_a_server()
    yield from (row("reply_of_129_bytes", it, 20000, b"\7\xab\xcd\xef" + REPLY) for it in TASKS6)
    yield row("solicit_built_and_written", "solicit6", 40000, ack())
    yield from rows_of_lists()
    yield row("relayed_message_of_1232_bytes", "wrap6", 50000, solicit(1232))
    yield row("relayed_message_of_60000_bytes", "wrap6", 2000, solicit(60000))
    yield row("answer_through_nine_layers", "along6", 50000, relayed(9))
    yield from rows_of_clients()


def rows_of_messages4():
    """Yields the rows of DHCPv4 messages and of frames."""
    whole = message(UNKNOWN_AND_TIME, 65776)
    yield from (row("ack_of_302_bytes", it, 20000, ack()) for it in TASKS4)
    yield from (row("message_with_239_options", it, 1000, many_options()) for it in TASKS4)
    yield from (row("options_of_64_KiB", it, 100, whole) for it in TASKS4_OF_TWO_KEPT_OPTIONS)
    yield row("options_of_128_KiB", "message", 50, message(UNKNOWN_AND_TIME, 131312))
    yield row("discover_built_and_written", "discover", 50000, ack())
    yield row("frame_of_342_bytes", "frame", 100000, frame(342))
    yield row("frame_of_1500_bytes", "frame", 50000, frame(1500))


def rows_of_a_server():
    """Yields a Discover and a Request to a server all of whose pool but one address is bound."""
    discover = (HEAD + bytes.fromhex("350101ff")).ljust(244, b"\0")
    request = HEAD + bytes.fromhex("350103 32040affffff ff")
    for pool in POOLS:
        yield row("discover_to_a_server", pool, 100000, discover)
        yield row("request_to_a_server", pool, 100000, request)


def rows_of_lists():
    """Yields the rows of lists of DHCPv6 options."""
    rising = [(code, 0) for code in range(1001, 11923)]
    names = 5041 * bytes.fromhex("076578616d706c6503636f6d00")
    lists = (
        ("options_of_a_reply_of_129_bytes", REPLY, 20000),
        ("options_of_one_code_of_64_KiB", options6([(8, n) for n in range(1, 10923)]), 50),
        ("options_of_rising_codes_of_64_KiB", options6(rising), 50),
        ("options_of_falling_codes_of_64_KiB", options6(reversed(rising)), 50),
        ("domain_list_of_64_KiB", bytes.fromhex("0018fffd") + names, 50),
        ("association_with_2000_addresses", association(), 200),
    )
    for name, options, times in lists:
        yield from (row(name, task, times, options) for task in ("read6", "options6"))


def rows_of_clients():
    """Yields polls before T1, polls with a packet for another client, and whole lives: an offer, a
    request, a lease, a renewal, a release."""
    lease = "3604c0000201330400000e103a04000007083b0400000c4eff"
    offer, given = (frame_of("12345678", kind + lease, 342) for kind in ("350102", "350105"))
    yield row("poll_before_t1", "idle", 500000, offer)
    yield row("packet_for_another_client", "foreign", 200000, frame_of("00000000", "350102ff", 300))
    yield row("whole_life", "life", 10000, offer, given)
    advertise, reply = (bytes.fromhex(kind) + REPLY for kind in ("02abcdef", "07000000"))
    other = bytes.fromhex("02000000") + REPLY + bytes.fromhex("003c00a7") + bytes(167)
    yield row("poll_before_t1", "idle6", 500000, advertise)
    yield row("packet_for_another_client", "foreign6", 200000, other)
    yield row("whole_life", "life6", 10000, advertise, reply)


def seconds_of(program, path, task, times):
    """Returns the time of a run of a program, or infinity if it has no such task."""
    with open(path, "rb") as file:
        begin = time.perf_counter()
        done = subprocess.run([program, task, str(times)], stdin=file, stdout=subprocess.DEVNULL)
        took = time.perf_counter() - begin
    return took if done.returncode == 0 else float("inf")


def measured(chosen, folder):
    """Returns the best times of each row and program, for none and for all of its repetitions."""
    best = {}
    for _ in range(ROUNDS):
        for place, (_, task, times, _) in enumerate(chosen):
            path = pathlib.Path(folder, str(place))
            for program in PROGRAMS:
                for count in (0, times):
                    key = (place, program, count)
                    took = seconds_of(program, path, task, count)
                    best[key] = min(best.get(key, float("inf")), took)
    return best


def main(words):
    chosen = [
        each for each in rows() if not words or any(word in each[:2] for word in words)
    ]
    with tempfile.TemporaryDirectory() as folder:
        for place, (_, _, _, text) in enumerate(chosen):
            pathlib.Path(folder, str(place)).write_text(text, "ascii")
        best = measured(chosen, folder)
    print(f"| input | task | {' | '.join(len(PROGRAMS) * ['ns'])} |")
    print(f"|---|---|{len(PROGRAMS) * '---|'}")
    for place, (name, task, times, _) in enumerate(chosen):
        spans = [best[place, it, times] - best[place, it, 0] for it in PROGRAMS]
        cells = ["" if span == float("inf") else f"{span / times * 1e9:,.0f}" for span in spans]
        print(f"| {name} | {task} | {' | '.join(cells)} |")
    return 0


if __name__ == "__main__":
    sys.exit(main(sys.argv[1:]))
