#!/usr/bin/env python3
"""Times runs of the reference machine.

    bench/machine.py [--bin PATH] [--steps N]

Each program of `bench/machine` runs for a quarter, a half and all of so many steps (10,000,000 where it is not given). A line
says the seconds of each, and the nanoseconds that a step of each half took: they should stay as they are. The time to read
the core is taken off.
"""
import argparse
import os
import re
import subprocess
import sys
import time

HERE = os.path.dirname(os.path.abspath(__file__))
sys.path.insert(0, os.path.join(HERE, '..', 'tools', 'machine'))
from cores import core, trial_text  # noqa: E402

PROGRAMS = os.path.join(HERE, 'machine')


def seconds(binary, text):
    data = trial_text(text).encode()
    start = time.perf_counter()
    subprocess.run([binary], input=data, stdout=subprocess.DEVNULL, check=True)
    return time.perf_counter() - start


def main():
    parser = argparse.ArgumentParser()
    parser.add_argument('--bin', default=os.path.join(HERE, '..', 'crates', 'test_machine', 'out', 'test_machine'))
    parser.add_argument('--steps', type=int, default=10_000_000)
    given = parser.parse_args()
    files = sorted(os.path.join(PROGRAMS, file) for file in os.listdir(PROGRAMS))
    text, _ = core(files, 1)
    starts = re.findall(r'^start (\S+) (\S+) \d+$', text, re.M)
    bare = re.sub(r'^start .*\n', '', text, flags=re.M)
    reading = min(seconds(given.bin, bare) for _ in range(3))
    for name, method in starts:
        times = [seconds(given.bin, f'{bare}start {name} {method} {given.steps // part}\n') - reading for part in [4, 2, 1]]
        first, second = times[1] / (given.steps / 2), (times[2] - times[1]) / (given.steps / 2)
        print(f'{name}: {times[0]:.2f}, {times[1]:.2f}, {times[2]:.2f} s; {first * 1e9:.0f} ns a step in the first half, {second * 1e9:.0f} in the second')


if __name__ == '__main__':
    main()
