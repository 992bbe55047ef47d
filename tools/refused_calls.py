#!/usr/bin/env python3
"""Refuses calls of a program one at a time, and says how each run ends.

usage, at the top of the repository, after: cd crates/dhcp_main && rt run < stdin -- run
  tools/refused_calls.py scripts
      the program over each script of tools/scripts: each allocation, each read and each write is
      refused in turn
  tools/refused_calls.py program NUMBER WORD..
      the program with these words; the allocation of this number is refused
or after `rt run < stdin`, with the words of its file args, in the folder of each crate:
  tools/refused_calls.py stored CRATE..
      the programs of these crates, as net_main, over their stored input: each allocation, each read
      and each write is refused in turn
or after `rt test` in the folder of each crate, as wire_tests:
  tools/refused_calls.py tests CRATE..
      the tests of these crates: each allocation is refused in turn

A run of the program with an allocation refused must end with status 5 and nothing printed, or with
0 and all of it printed; with a read refused with 3 and nothing printed; with a write refused with 4
and a part of the text, from its front. A test must pass, or fail for out of memory: by an `Err` or
by an `expect`, each of which prints the error. Exit status: 0 where all runs ended so, else 1.
"""

import os
import subprocess
import sys
import tempfile

TOP = os.path.dirname(os.path.dirname(os.path.abspath(__file__)))
PROGRAM = f"{TOP}/crates/dhcp_main/out/dhcp_main"
SCRIPTS = f"{TOP}/tools/scripts"
OUT_OF_MEMORY = (b"OutOfMemory", b"AllocError", b"AllocFailed", b"NoMemory")


class Runner:
    """Runs commands with one call refused, by a library that is preloaded."""

    def __init__(self, folder):
        self.library = f"{folder}/refuse_call.so"
        self.log = f"{folder}/log"
        source = f"{TOP}/tools/refuse_call.c"
        subprocess.run(["cc", "-O1", "-shared", "-fPIC", "-o", self.library, source], check=True)

    def run(self, command, given, kind, number):
        """Returns the finished command, and whether the call was made that was to be refused."""
        if os.path.exists(self.log):
            os.remove(self.log)
        names = {"LD_PRELOAD": self.library, "REFUSE_LOG": self.log, f"REFUSE_{kind}": str(number)}
        names = {**os.environ, **names}
        done = subprocess.run(command, input=given, capture_output=True, env=names)
        return done, os.path.exists(self.log)

    def in_turn(self, command, given, kind):
        """Gives each run of the command with a call of this kind refused, and the call's number."""
        number = 1
        while True:
            done, was_made = self.run(command, given, kind, number)
            if not was_made:
                return
            yield number, done
            number += 1


def is_lawful(kind, done, whole):
    """Returns whether a run of the program ended as it must."""
    if done.returncode == 0:
        return kind == "ALLOCATION" and done.stdout == whole
    wanted = {"ALLOCATION": 5, "READ": 3, "WRITE": 4}[kind]
    is_front = whole.startswith(done.stdout) and done.stdout != whole
    return done.returncode == wanted and (is_front if kind == "WRITE" else not done.stdout)


def printed_by(command, given):
    """Returns what a command prints where no call is refused; it has to end with status 0."""
    return subprocess.run(command, input=given, capture_output=True, check=True).stdout


def try_over(runner, name, command, given):
    """Returns how many runs of a program over these bytes ended as they must not."""
    wrong = 0
    whole = printed_by(command, given)
    for kind in ("ALLOCATION", "READ", "WRITE"):
        statuses = {}
        for number, done in runner.in_turn(command, given, kind):
            statuses[done.returncode] = statuses.get(done.returncode, 0) + 1
            if not is_lawful(kind, done, whole):
                wrong += 1
                print(f"{name}: {kind.lower()} {number}: status {done.returncode}")
        counts = [f"{many} with status {status}" for status, many in sorted(statuses.items())]
        print(f"{name}: each {kind.lower()} refused in turn: {', '.join(counts) or 'none'}")
    return wrong


def bytes_of(path):
    """Returns the bytes of a file, or none if there is no such file."""
    if not os.path.exists(path):
        return b""
    with open(path, "rb") as file:
        return file.read()


def try_scripts(runner):
    """Returns how many runs of the program over the scripts ended as they must not."""
    names = sorted(os.listdir(SCRIPTS))
    command = [PROGRAM, "run"]
    return sum(try_over(runner, name, command, bytes_of(f"{SCRIPTS}/{name}")) for name in names)


def try_stored(runner, crate):
    """Returns how many runs of a crate's program, over its stored input, ended as they must not."""
    folder = f"{TOP}/crates/{crate}"
    words = bytes_of(f"{folder}/args").decode().split()
    command = [f"{folder}/out/{crate}", *words]
    return try_over(runner, crate, command, bytes_of(f"{folder}/stdin"))


def try_tests(runner, crate):
    """Returns how many runs of the crate's tests failed for anything but out of memory."""
    program = f"{TOP}/crates/{crate}/out/{crate}_tests"
    listed = printed_by([program, "--list"], b"").decode()
    tests = [line.removesuffix(": test") for line in listed.splitlines() if line.endswith(": test")]
    wrong, runs = 0, 0
    for test in tests:
        for number, done in runner.in_turn([program, test], b"", "ALLOCATION"):
            runs += 1
            said = done.stdout + done.stderr
            if done.returncode and not any(word in said for word in OUT_OF_MEMORY):
                wrong += 1
                print(f"{crate}: {test}: allocation {number}: status {done.returncode}")
                print(said.decode())
    print(f"{crate}: {len(tests)} tests, {runs} allocations refused in turn, "
          f"{wrong} runs that ended otherwise")
    return wrong


def try_program(runner, number, words):
    """Returns how many runs of the program, with one allocation refused, ended as they must not."""
    command = [PROGRAM, *words]
    whole = printed_by(command, b"")
    done, was_made = runner.run(command, b"", "ALLOCATION", number)
    said = "refused" if was_made else "never asked for"
    print(f"allocation {number} {said}: status {done.returncode}, {len(done.stdout)} bytes printed")
    return 0 if was_made and is_lawful("ALLOCATION", done, whole) else 1


def main(words):
    least = {"scripts": 1, "program": 3, "stored": 2, "tests": 2}
    if not words or len(words) < least.get(words[0], len(words) + 1):
        print(__doc__, file=sys.stderr)
        return 2
    with tempfile.TemporaryDirectory() as folder:
        runner = Runner(folder)
        if words[0] == "scripts":
            return 1 if try_scripts(runner) else 0
        if words[0] == "program":
            return try_program(runner, int(words[1]), words[2:])
        tried = try_stored if words[0] == "stored" else try_tests
        return 1 if sum(tried(runner, crate) for crate in words[1:]) else 0


if __name__ == "__main__":
    sys.exit(main(sys.argv[1:]))
