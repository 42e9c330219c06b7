#!/usr/bin/env python3
"""Measures `value_now` and `segments` of a large schedule, by the program of scripts/schedules_bench."""
import subprocess
import sys

import proved_apart


def main():
    program = proved_apart.built("schedules_bench", "dates points sched")
    return subprocess.run([program, "measure"]).returncode


if __name__ == "__main__":
    sys.exit(main())
