"""Times a store of lazy formulas, by the built program `call_bench`.

    python3 bench/lazy.py [PROGRAM]

PROGRAM is crates/call_bench/out/call_bench where no word is given (`rt run` there builds it). Its clock gives the times, and
each is the least of three runs. Memory is the peak of a run, less that of a run with half as many formulas.
"""
import os
import subprocess
import sys
import tempfile

OPERATIONS = 1_000


def run(program, formulas, operations):
    """Nanoseconds of each part of a run, and its peak memory in bytes."""
    with tempfile.TemporaryFile() as output:
        child = subprocess.Popen([program, "lazy", str(formulas), str(operations)], stdout=output)
        _, status, usage = os.wait4(child.pid, 0)
        child.returncode = os.waitstatus_to_exitcode(status)
        output.seek(0)
        lines = output.read().decode().split("\n")
    parts = dict(line.split(" ") for line in lines if line)
    return {name: int(time) for name, time in parts.items()}, usage.ru_maxrss * 1024


def least(program, formulas, operations):
    """The least time of each part over three runs."""
    runs = [run(program, formulas, operations)[0] for _ in range(3)]
    return {name: min(times[name] for times in runs) for name in runs[0]}


def main(words):
    here = os.path.dirname(os.path.abspath(__file__))
    program = words[0] if words else os.path.join(here, "..", "crates", "call_bench", "out", "call_bench")
    for formulas in (1, 1_000, 10_000, 100_000):
        times = least(program, formulas, OPERATIONS)
        print(f"{OPERATIONS:,} operations over {formulas:7,} formulas: {times['operations'] / OPERATIONS / 1e3:7.3f} us each; "
              f"then one read: {times['read'] / 1e3:8.1f} us, {times['read'] / OPERATIONS:6.0f} ns an operation")
    for operations in (1_000, 2_000, 4_000):
        times = least(program, 1, operations)
        print(f"one formula over {operations:,} operations that lose something: {times['losing'] / operations:6.0f} ns each; "
              f"and back: {times['back'] / operations:6.0f} ns each")
    for formulas in (1_000_000, 2_000_000):
        half = run(program, formulas // 2, 0)[1]
        times, peak = run(program, formulas, 0)
        print(f"{formulas:,} formulas of one tree: {(peak - half) / (formulas // 2):6.1f} bytes each, "
              f"{times['formulas'] / formulas:6.0f} ns each to put in")


if __name__ == "__main__":
    main(sys.argv[1:])
