#!/usr/bin/env python3
"""Writes the transcript of a session with `dhcp_main live` as the script that `dhcp_main run` plays:
with all its random words on one line, and with the line `end` if the session was cut off.

usage: tools/script_of_transcript.py < TRANSCRIPT > SCRIPT
"""

import sys


def script_of(transcript):
    """Returns the script of a transcript, both as text."""
    lines = transcript.splitlines()
    words = "".join(line.split()[1] for line in lines if line.startswith("words "))
    whole, has_words = [], False
    for line in lines:
        if not line.startswith("words "):
            whole.append(line)
        elif not has_words:
            whole.append("words " + words)
            has_words = True
    if whole[-1:] != ["end"]:
        whole.append("end")
    return "\n".join(whole) + "\n"


def main():
    if len(sys.argv) > 1:
        print(__doc__.strip())
        return 0 if sys.argv[1:] == ["--help"] else 2
    sys.stdout.write(script_of(sys.stdin.read()))
    return 0


if __name__ == "__main__":
    sys.exit(main())
