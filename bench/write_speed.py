#!/usr/bin/env python3
"""Puts the tables of `bench/run speed`, read from standard input, into docs/SPEED.md, with the machine and the versions."""
import datetime
import os
import platform
import subprocess
import sys

BEGIN = "<!-- bench/run speed writes from here -->"
END = "<!-- to here -->"


def said(command):
    return subprocess.run(command, capture_output=True, text=True, check=True).stdout.strip()


def processor():
    """As lscpu names it: /proc/cpuinfo has no name on aarch64."""
    for line in said(["lscpu"]).splitlines():
        if line.startswith("Model name:"):
            return line.split(":", 1)[1].strip()
    return "an unnamed processor"


def main():
    path, rounds = sys.argv[1], sys.argv[2]
    tables = sys.stdin.read().strip()
    with open(path) as f:
        text = f.read()
    head, rest = text.split(BEGIN)
    tail = rest.split(END)[1]
    facts = f"{datetime.date.today()}: {platform.machine()}, {processor()}, {os.cpu_count()} cores; {said(['rustc', '--version'])}; {said(['rt', 'version'])}; {rounds} rounds; the load was {os.getloadavg()[1]:.0f}; medians, and the least in the second and third table:"
    with open(path, "w") as f:
        f.write(f"{head}{BEGIN}\n{facts}\n\n{tables}\n{END}{tail}")


main()
