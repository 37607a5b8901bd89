"""Runs the built program on random scripts under valgrind's memcheck.

    python3 bench/valgrind.py [PROGRAM] [--runs 100] [--seed S] [--commands 60] [--seconds T] [--leaks]

PROGRAM is crates/sheetrun/out/sheetrun where no word is given. The scripts, words and books are those that bench/plain/generate.py draws,
in all its modes in turns, from the seed S (1) on. For each run that has errors, ends otherwise than with a status from 0 to 8, or doesn't
end in T seconds (300), it prints the seed, the mode and the front of what valgrind says. With --leaks what is lost when the program ends
counts as an error. At the end it prints how many runs there were, how many of them had errors, ended otherwise and didn't end, how many
ended with each status, and the seconds of all. Status 1 where there was one.
"""
import argparse
import os
import subprocess
import sys
import tempfile
import time
from collections import Counter

HERE = os.path.dirname(os.path.abspath(__file__))
sys.path.insert(0, os.path.join(HERE, "plain"))

import compare
import generate

# The status by which valgrind says that there were errors.
ERRORS = 99
SHOWN = 3_000


def ended(program, case, log, seconds, leaks):
    """The status of a run under valgrind, in the folder of the case; None where it doesn't end."""
    command = ["valgrind", "-q", f"--error-exitcode={ERRORS}", f"--log-file={log}"]
    command += ["--leak-check=full"] if leaks else ["--leak-check=no"]
    try:
        done = subprocess.run([*command, program, *case.words], input=case.script(), stdout=subprocess.DEVNULL, timeout=seconds, check=False)
    except subprocess.TimeoutExpired:
        return None
    return done.returncode


def main(words):
    options = argparse.ArgumentParser()
    options.add_argument("program", nargs="?", default=os.path.join(HERE, "..", "crates", "sheetrun", "out", "sheetrun"))
    options.add_argument("--runs", type=int, default=100)
    options.add_argument("--seed", type=int, default=1)
    options.add_argument("--commands", type=int, default=60)
    options.add_argument("--seconds", type=float, default=300)
    options.add_argument("--leaks", action="store_true")
    said = options.parse_args(words)
    program = os.path.abspath(said.program)
    begun = time.monotonic()
    statuses = Counter()
    for seed in range(said.seed, said.seed + said.runs):
        mode = generate.TURNS[seed % len(generate.TURNS)]
        case = generate.make(mode, seed, said.commands)
        with tempfile.TemporaryDirectory() as folder, tempfile.NamedTemporaryFile() as log:
            os.chdir(folder)
            compare.write_files(case)
            status = ended(program, case, log.name, said.seconds, said.leaks)
            os.chdir("/")
            statuses[status] += 1
            if status not in range(9):
                told = {None: "doesn't end", ERRORS: "has errors"}.get(status, f"ends with {status}")
                print(f"seed {seed}, mode {mode}: {told}\n{log.read(SHOWN).decode(errors='replace')}", flush=True)
    good = sum(statuses[status] for status in range(9))
    others = said.runs - good - statuses[ERRORS] - statuses[None]
    told = ", ".join(f"{statuses[status]} {status}" for status in range(9) if statuses[status])
    print(f"{said.runs} runs under valgrind: {statuses[ERRORS]} had errors, {others} ended otherwise, {statuses[None]} didn't end; "
          f"by status: {told or 'none'}; {time.monotonic() - begun:.0f} s")
    return 0 if good == said.runs else 1


if __name__ == "__main__":
    sys.exit(main(sys.argv[1:]))
