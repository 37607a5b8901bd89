"""Times the graph of needs on large workbooks, by the built program `call_bench`.

    python3 bench/graph.py [--counted] [--rounds COUNT] [--program PROGRAM] [NAME ..]

A NAME is that of graphs, as "prefix sums" or "formulas in a chain"; without any, all are made. PROGRAM is
crates/call_bench/out/call_bench where it isn't given (`rt run` there builds it). Each graph is made in a process of its own,
so that none is timed in memory that another has left. The program's clock gives the times, in rounds of which each makes all
graphs, some times each: a figure of a round is the least time in it, and the figure of all rounds the least of these. With
--counted the program runs once under valgrind's callgrind instead, which counts the instructions of each part: the same number
in each run, whatever else the machine does, and without what caches add where a graph outgrows them. Where a graph comes in
several sizes, each figure has its growth since the smaller size beside it, as a factor for each doubling: the median over the
rounds, since a machine that is slower for a while is so for all of a round. Figures too small to tell anything have none. The
status is 1 where a factor is over the wanted one.
"""
import argparse
import glob
import math
import os
import re
import statistics
import subprocess
import sys
import tempfile

ROUNDS, REPEATS = 5, 3
# The program begins a graph by a call of the one function, and prints the time of a part by a call of the other.
BEGINNING, PRINTING = "dep_graph::net::Net::new", "call_bench::graphs::Case::print_time"
# The part for which a graph is begun.
FIRST_PART = "links"
# Below these milliseconds and instructions no growth is worked out.
LEAST_TIME, LEAST_COUNT = 1, 1_000_000
WANTED = 2.3


def parts_of(lines):
    """The graph's name, the part, the size and the milliseconds of each line that tells a time."""
    found = (re.fullmatch(r"(\d+) (.+), (.+): ([\d.]+) ms", line) for line in lines)
    return [((part[2], part[3], int(part[1])), float(part[4])) for part in found if part]


def lines_of(command):
    """The lines that the command prints."""
    return subprocess.run(command, stdout=subprocess.PIPE, check=True).stdout.decode().split("\n")


def timed(bench):
    """The milliseconds of each part: the least of some runs."""
    runs = [dict(parts_of(lines_of(bench))) for _ in range(REPEATS)]
    return {part: min(times[part] for times in runs) for part in runs[0]}


def counted(bench):
    """The instructions of each part: what callgrind counted since the part before it, or since its graph was begun."""
    with tempfile.TemporaryDirectory() as folder:
        valgrind = ["valgrind", "-q", "--tool=callgrind", f"--callgrind-out-file={folder}/out"]
        valgrind += [f"--dump-before={name}" for name in (BEGINNING, PRINTING)]
        parts = [part for part, _ in parts_of(lines_of([*valgrind, *bench]))]
        counts, count = [], 0
        for name in sorted(glob.glob(f"{folder}/out.*"), key=lambda name: int(name.rsplit(".", 1)[1])):
            with open(name, encoding="utf-8") as dump:
                text = dump.read()
            count += int(re.search(r"^summary: (\d+)$", text, re.MULTILINE)[1])
            if PRINTING in re.search(r"^desc: Trigger: (.*)$", text, re.MULTILINE)[1]:
                counts.append(count)
                count = 0
            elif parts[len(counts)][1] == FIRST_PART:
                count = 0
    assert len(parts) == len(counts), "callgrind counted other parts than the program timed"
    return dict(zip(parts, counts))


def growth(rounds, smaller, larger, least):
    """The factor for each doubling from one size of a part to another, or none."""
    doublings = math.log2(larger[2] / smaller[2])
    pairs = [(figures[smaller], figures[larger]) for figures in rounds]
    if min(min(pair) for pair in pairs) < least:
        return None
    return statistics.median((after / before) ** (1 / doublings) for before, after in pairs)


def main(words):
    here = os.path.dirname(os.path.abspath(__file__))
    options = argparse.ArgumentParser()
    options.add_argument("--counted", action="store_true")
    options.add_argument("--rounds", type=int, default=ROUNDS)
    options.add_argument("--program", default=os.path.join(here, "..", "crates", "call_bench", "out", "call_bench"))
    options.add_argument("names", nargs="*")
    said = options.parse_args(words)
    titles = [title for title in lines_of([said.program, "titles"]) if title]
    wanted = [title for title in titles if not said.names or title.split(" ", 1)[1] in said.names]
    benches = [[said.program, "graphs", title] for title in wanted]
    measure, count, unit, least = (counted, 1, "instructions", LEAST_COUNT) if said.counted else (timed, said.rounds, "ms", LEAST_TIME)
    rounds = [{part: figure for bench in benches for part, figure in measure(bench).items()} for _ in range(count)]
    before, greatest = {}, 0
    for part in rounds[0]:
        (graph, name, size), figure = part, min(figures[part] for figures in rounds)
        factor = growth(rounds, before[graph, name], part, least) if (graph, name) in before else None
        before[graph, name] = part
        greatest = max(greatest, factor or 0)
        print(f"{size:7,} {graph}, {name}: {figure:13,} {unit}" + (f", {factor:.2f} for each doubling" if factor else ""))
    print(f"the greatest growth for each doubling is {greatest:.2f}; at most {WANTED} is wanted")
    return 0 if greatest <= WANTED else 1


if __name__ == "__main__":
    sys.exit(main(sys.argv[1:]))
