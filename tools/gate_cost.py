#!/usr/bin/env python3
"""Takes what the gate costs, by crate, and prints it as the table of docs/PERFORMANCE.md.

usage, at the top of the repository:
  tools/gate_cost.py run LOG [WORD..]
      `rt ci` with these words (--anew, or names of crates); what it prints is shown and kept in
      LOG, followed by the processor seconds of each crate
  tools/gate_cost.py table LOG..
      the table of these logs; a crate that stands in several has its numbers from the last one
  tools/gate_cost.py --help
      this text

`rt ci` prints no times, so its processes are read from /proc once a second. A process counts for
the crate that it is named for: as its own proof, as its tests, as the base of its edits or as one
edit. What a process does after its last reading is lost, less than a second each. "kept" stands
where an earlier run had proved the crate, so that it took no time. Other work on the machine makes
each check take longer, up to twice as long.

The megabytes are those of the steps of all functions of a crate, as `rt check` left them in
out/incremental: of each function the newest file. They do not depend on the machine.
"""

import os
import re
import subprocess
import sys
import time

TOP = os.path.dirname(os.path.dirname(os.path.abspath(__file__)))
TICKS = os.sysconf("SC_CLK_TCK")
OWN, TESTS, BASE, EDIT = "own", "tests", "base", "edit"
MARK = "gate_cost:"


def children_of():
    """Returns the children of each process, by number."""
    children = {}
    for name in os.listdir("/proc"):
        if name.isdigit():
            try:
                with open(f"/proc/{name}/stat", "rb") as file:
                    parent = int(file.read().rpartition(b")")[2].split()[1])
                children.setdefault(parent, []).append(int(name))
            except (OSError, IndexError):
                pass
    return children


def below(process):
    """Returns the numbers of all processes that a process started, and those that these did."""
    children, found, left = children_of(), [], [process]
    while left:
        started = children.get(left.pop(), [])
        found += started
        left += started
    return found


def work_of(words):
    """Returns the crate and the kind of work of a command line, if it is a check's."""
    if os.path.basename(words[0]) != "rattle" or "--crate-name" not in words[:-1]:
        return None
    crate = words[words.index("--crate-name") + 1]
    if "--incremental" in words[:-1]:
        over = os.path.basename(words[words.index("--incremental") + 1])
        return crate, f"{EDIT} {over}" if over.isdigit() else BASE
    is_tests = "--test" in words or any(it.endswith(f"{crate}_tests.o") for it in words)
    return crate, TESTS if is_tests else OWN


def reading(process):
    """Returns the work of a process and its processor seconds so far, if it is a check."""
    try:
        with open(f"/proc/{process}/cmdline", "rb") as file:
            words = file.read().decode(errors="replace").split("\0")
        with open(f"/proc/{process}/stat", "rb") as file:
            fields = file.read().rpartition(b")")[2].split()
    except OSError:
        return None
    work = work_of(words)
    return work and (work, (int(fields[11]) + int(fields[12])) / TICKS, fields[19])


def run(log, words):
    """Runs `rt ci`, writes what it prints and the seconds of each crate, and returns its status."""
    seconds = {}
    with open(log, "w+", encoding="utf-8", errors="replace") as file:
        started = subprocess.Popen(["rt", "ci", *words], cwd=TOP, stdout=file, stderr=file)
        shown = 0
        while started.poll() is None:
            time.sleep(1)
            for process in below(started.pid):
                taken = reading(process)
                if taken:
                    work, spent, begun = taken
                    seconds[process, begun, work] = spent
            shown = show(log, shown)
        file.seek(0, os.SEEK_END)
        sums = {}
        for (_, _, work), spent in seconds.items():
            sums[work] = sums.get(work, 0) + spent
        for (crate, kind), spent in sorted(sums.items()):
            file.write(f"{MARK} {crate}: {kind}: {spent:.1f}\n")
    show(log, shown)
    return started.returncode


def show(log, shown):
    """Prints what the log has past what was shown, and returns its length."""
    with open(log, encoding="utf-8", errors="replace") as file:
        file.seek(shown)
        print(file.read(), end="", flush=True)
        return file.tell()


def read_log(log, table):
    """Puts the numbers of a log into the table: by crate its seconds by kind, and its edits."""
    fresh = {}
    with open(log, encoding="utf-8", errors="replace") as file:
        for line in file:
            kept = re.match(r"(?:rt: )?(\w+) is kept: ", line)
            edit = re.match(r"(?:rt: )?must-fail (\w+)/(\S+?): ", line)
            spent = re.match(rf"{MARK} (\w+): ([a-z]+)(?: (\d+))?: ([\d.]+)$", line)
            proved = re.match(r"rt: (\w+) (?:NOT PROVED|proved)$", line)
            named = next((it[1] for it in (kept, edit, spent, proved) if it), None)
            if not named:
                continue
            crate = fresh.setdefault(named, {OWN: 0, TESTS: 0, BASE: 0, EDIT: {}, "edits": []})
            if edit:
                crate["edits"].append(edit[2])
            elif spent and spent[2] == EDIT:
                crate[EDIT][int(spent[3])] = float(spent[4])
            elif spent:
                crate[spent[2]] += float(spent[4])
    table.update(fresh)


def steps_of(crate):
    """Returns the megabytes of the steps of a crate's functions; of each the newest file."""
    newest = {}
    folder = f"{TOP}/crates/{crate}/out/incremental"
    for at, _, names in os.walk(folder):
        for name in names:
            if name.endswith(".Lts.oantt"):
                found = os.stat(f"{at}/{name}")
                newest[name] = max(newest.get(name, (0, 0)), (found.st_mtime, found.st_size))
    return sum(size for _, size in newest.values()) / 1e6


def seconds_shown(spent):
    return f"{spent:,.0f}" if spent else "kept"


def print_table(table):
    """Prints the table, in the order of crates.txt."""
    with open(f"{TOP}/crates.txt", encoding="utf-8") as file:
        order = [line.split(":")[0].split()[0] for line in file if ":" in line.split("#")[0]]
    print("| crate | own | tests | edits | number of edits | slowest edit | MB of steps |")
    print("|---|---|---|---|---|---|---|")
    whole, steps = 0, 0
    for name in [it for it in order if it in table]:
        crate = table[name]
        edits = crate[BASE] + sum(crate[EDIT].values())
        number = len(crate["edits"])
        slowest = max(crate[EDIT].items(), key=lambda it: it[1], default=None)
        # (edits are numbered in the order of their names)
        names = sorted(crate["edits"])
        told = f"{slowest[1]:.0f}: {names[slowest[0]]}" if slowest and slowest[0] < number else ""
        size = steps_of(name)
        whole, steps = whole + crate[OWN] + crate[TESTS] + edits, steps + size
        tests = seconds_shown(crate[TESTS]) if has_tests(name) else "no tests"
        shown = seconds_shown(edits) if number else "none"
        print(f"| {name} | {seconds_shown(crate[OWN])} | {tests} | {shown} | {number or ''} "
              f"| {told} | {size:.1f} |")
    print(f"\n{whole / 60:,.0f} processor minutes, {steps:,.0f} MB of steps")


def has_tests(crate):
    """Returns whether a crate has tests."""
    for at, _, names in os.walk(f"{TOP}/crates/{crate}/src"):
        for name in names:
            with open(f"{at}/{name}", encoding="utf-8") as file:
                if "#[test]" in file.read():
                    return True
    return False


def main(words):
    if words[:1] == ["run"] and len(words) > 1:
        return run(words[1], words[2:])
    if words[:1] == ["table"] and len(words) > 1:
        table = {}
        for log in words[1:]:
            read_log(log, table)
        print_table(table)
        return 0
    print(__doc__, file=sys.stdout if words == ["--help"] else sys.stderr)
    return 0 if words == ["--help"] else 2


if __name__ == "__main__":
    sys.exit(main(sys.argv[1:]))
