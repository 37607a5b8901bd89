"""Times functions over long columns and long texts, by the built program `call_bench`.

    python3 bench/functions.py [PROGRAM]

PROGRAM is crates/call_bench/out/call_bench where no word is given (`rt run` there builds it). Each row
gives what one call takes, and what that is for each filled cell or byte: a run without calls is taken off.
"""
import os
import subprocess
import sys
import time

# a function, its rows or bytes, how many are filled, and how often it is called
CASES = [
    ("SUM", 100_000, 100_000, 200),
    ("COUNTIF", 100_000, 100_000, 200),
    ("SUMIF", 100_000, 100_000, 100),
    ("MATCH", 100_000, 100_000, 200),
    ("VLOOKUP", 100_000, 100_000, 200),
    ("COUNTBLANK", 40_000, 10, 100_000),
    ("COUNTIF", 40_000, 10, 100_000),
    ("MATCH", 40_000, 10, 100_000),
    ("VLOOKUP", 40_000, 10, 100_000),
    ("FIND", 32_768, 32_768, 2_000),
    ("FIND", 16_384, 16_384, 4_000),
    ("SUBSTITUTE", 32_768, 32_768, 1_000),
    ("SUBSTITUTE", 16_384, 16_384, 2_000),
    ("TRIM", 32_768, 32_768, 1_000),
    ("TRIM", 16_384, 16_384, 2_000),
]


def seconds(program, words):
    """The least time of three runs."""
    times = []
    for _ in range(3):
        start = time.perf_counter()
        subprocess.run([program, "functions", *map(str, words)], stdout=subprocess.DEVNULL, check=True)
        times.append(time.perf_counter() - start)
    return min(times)


def main(words):
    here = os.path.dirname(os.path.abspath(__file__))
    program = words[0] if words else os.path.join(here, "..", "crates", "call_bench", "out", "call_bench")
    for name, rows, filled, repeats in CASES:
        whole = seconds(program, (name, rows, filled, repeats)) - seconds(program, (name, rows, filled, 0))
        call = whole / repeats
        print(f"{name:12} {rows:>8,} rows or bytes, {filled:>8,} filled: {call * 1e6:10.2f} us a call, {call / filled * 1e9:8.2f} ns each")


if __name__ == "__main__":
    main(sys.argv[1:])
