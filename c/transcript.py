#!/usr/bin/env python3
"""Replays the transcripts of a document, and compares every line.

transcript.py [--folded] [--part HEADING].. [--before HEADING] DOCUMENT: a transcript is the fenced blocks of a document, and
its blocks that are indented by four spaces. With --part they are those right below some headings, and with --before those
before one. In a block, a line that starts with '$ ' is a command, a line after it that starts with '> ' goes on with the
command, and all other lines are exactly what the command prints, on standard output and standard error. Blocks without a
command are passed over. All commands are run in turn by one shell, in the folder where this is called, without any input.
Where PREFIX is set, what it stands for is compared as '$PREFIX'.

With --folded, a line of output that starts with a space goes on with the line before it. The last line is
'N passed, M failed', with one check for each command."""
import argparse
import os
import re
import subprocess
import sys

MARK = "\n\x1e\n"
SHELL = "mark() { local status=$?; printf '\\n\\036\\n'; return $status; }\n"


class Step:
    """A command and what it should print."""

    def __init__(self, line, command):
        self.line, self.command, self.wanted, self.is_open = line, command, "", True


def blocks_of(text, parts, before):
    """Returns the blocks of a document, each as a list of line numbers and lines. Empty lines inside a block belong to it."""
    blocks, block, empty, fenced, heading = [], [], [], False, None
    for number, line in enumerate(text.split("\n"), 1):
        fence = line.startswith("```")
        if not fenced and line.startswith("#"):
            heading = line.lstrip("#").strip()
            if heading == before:
                break
        fenced = fenced != fence
        inside = not fence and (fenced or line.startswith("    ")) and (parts is None or heading in parts)
        if inside:
            block += empty + [(number, line if fenced else line[4:])]
            empty = []
        elif line == "" and block:
            empty.append((number, ""))
        elif block:
            blocks.append(block)
            block, empty = [], []
    return blocks + [block]


def steps_of(block):
    steps = []
    for number, line in block:
        if line.startswith("$ "):
            steps.append(Step(number, line[2:]))
        elif steps and steps[-1].is_open and re.match("> |>$", line):
            steps[-1].command += "\n" + line[2:]
        elif steps:
            steps[-1].is_open = False
            steps[-1].wanted += line + "\n"
    return steps


def main():
    parser = argparse.ArgumentParser()
    parser.add_argument("--folded", action="store_true")
    parser.add_argument("--part", action="append")
    parser.add_argument("--before")
    parser.add_argument("document")
    words = parser.parse_args()
    with open(words.document, encoding="utf-8") as document:
        steps = [step for block in blocks_of(document.read(), words.part, words.before) for step in steps_of(block)]
    script = SHELL + "".join(f"{step.command}\nmark\n" for step in steps)
    ran = subprocess.run(["bash", "-c", script], stdin=subprocess.DEVNULL, stdout=subprocess.PIPE, stderr=subprocess.STDOUT)
    printed = ran.stdout.decode("utf-8", "backslashreplace")
    prefix = os.environ.get("PREFIX")
    if prefix:
        printed = printed.replace(prefix, "$PREFIX")
    parts = printed.split(MARK)
    failed = 0
    for number, step in enumerate(steps):
        wanted = re.sub("\n +", "", step.wanted) if words.folded else step.wanted
        got = parts[number] if number < len(parts) - 1 else None
        if got != wanted:
            failed += 1
            print(f"{words.document}:{step.line}: $ {step.command}\n--- wanted:\n{wanted}--- printed:\n{got}")
    if not steps or parts[-1] != "" or len(parts) != len(steps) + 1:
        failed += 1
        print(f"{words.document}: {len(steps)} commands, and {len(parts) - 1} were run to their end: {parts[-1]}")
    print(f"{max(len(steps) - failed, 0)} passed, {failed} failed")
    sys.exit(1 if failed else 0)


if __name__ == "__main__":
    main()
