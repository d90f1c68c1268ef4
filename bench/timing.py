"""The measuring part of check.sh: timing.py LANE FOLDER RUNS

The commands are run in turn, so that a busy moment of the machine meets them all, and of each the fastest
run counts, since other work can only make a run slower. From a run on a model is taken off

    the fastest `lane help`, which leaves reading the text and checking it,
    the fastest run on the same text without its last word, which leaves checking the rows.
"""
import os
import subprocess
import sys
import time

LIMIT = 1.5


def rows_of(path):
    for line in open(path):
        numbers = line.split("#")[0].split()
        if numbers:
            return sum(map(int, numbers[:6]))


def timed(command):
    begin = time.perf_counter_ns()
    subprocess.run(command, stdout=subprocess.DEVNULL, stderr=subprocess.DEVNULL)
    return time.perf_counter_ns() - begin


def main():
    lane, folder, runs = sys.argv[1], sys.argv[2], int(sys.argv[3])
    file = lambda name: os.path.join(folder, name)
    commands = {"help": [lane, "help"]}
    for part in (1, 4):
        commands["model", part] = [lane, "check", file(f"model-{part}.txt")]
        commands["short", part] = [lane, "check", file(f"short-{part}.txt")]
    fastest = {}
    for _ in range(runs):
        for name, command in commands.items():
            took = timed(command)
            fastest[name] = min(took, fastest.get(name, took))

    print(f"runs of each command: {runs}; the fastest counts")
    print(f"starting the program: {fastest['help'] / 1000:.0f} microseconds")
    rows, whole, check = {}, {}, {}
    for part, name in ((1, "full size"), (4, "a quarter")):
        rows[part] = rows_of(file(f"model-{part}.txt"))
        whole[part] = (fastest["model", part] - fastest["help"]) / rows[part]
        check[part] = (fastest["model", part] - fastest["short", part]) / rows[part]
        print(f"{name}, {rows[part]} rows: {fastest['model', part] / 1000:.0f} microseconds a run, "
              f"{fastest['short', part] / 1000:.0f} of them without judging rows")
    print(f"time per row, reading and checking: full size {whole[1]:.0f} ns, a quarter {whole[4]:.0f} ns")
    print(f"time per row, checking alone:       full size {check[1]:.0f} ns, a quarter {check[4]:.0f} ns")
    if min(whole[1], whole[4], check[1], check[4]) <= 0:
        print("too little to be told from the noise; give more runs, or a quieter machine")
        sys.exit(2)
    ratios = whole[1] / whole[4], check[1] / check[4]
    print(f"ratio, reading and checking: {ratios[0]:.2f}")
    print(f"ratio, checking alone:       {ratios[1]:.2f} (both should stay below {LIMIT})")
    sys.exit(0 if max(ratios) < LIMIT else 1)


main()
