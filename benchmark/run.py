"""Measures `texts` and `console` against benchmark/baseline.rs: python3 benchmark/run.py

Builds both, makes the inputs, compares what is written byte for byte, runs the programs in turn several times, and
prints for each job the median processor time and, where valgrind is at hand, the instructions of a smaller input.
Python's standard library alone. `--rounds N` sets how often each program is timed.
"""
import argparse
import os
import re
import shutil
import statistics
import subprocess
import sys

import inputs

HERE = os.path.dirname(os.path.abspath(__file__))
CRATES = os.path.join(os.path.dirname(HERE), "crates")
OUT = os.path.join(HERE, "out")
BASELINE = os.path.join(OUT, "baseline")

# Optimised, and for the processors that rt builds for.
FLAGS = ["--edition", "2021", "-C", "opt-level=3", "-C", "target-cpu=x86-64-v2"]

# The look at what stands, which the console takes after every accepted call that may change it.
LOOK = "console::seen::Seen::new"

# valgrind counts each byte that a string instruction of the C library moves as an instruction: it is told to use none.
PLAIN_MOVES = "glibc.cpu.x86_rep_movsb_threshold=1073741824:glibc.cpu.x86_rep_stosb_threshold=1073741824"


def program(name):
    return os.path.join(CRATES, name, "out", name)


def build():
    os.makedirs(OUT, exist_ok=True)
    subprocess.run(["rustc", *FLAGS, os.path.join(HERE, "baseline.rs"), "-o", BASELINE], check=True)
    for name in ("texts", "console"):
        with open(os.path.join(OUT, name + ".log"), "wb") as log:
            done = subprocess.run(["rt", "run"], cwd=os.path.join(CRATES, name), stdin=subprocess.DEVNULL, stdout=log, stderr=log)
        if done.returncode != 0:
            sys.exit("%s is not built: see %s" % (name, log.name))


def seconds(command, source, target):
    """The processor time of a run, its own and the system's for it."""
    with open(source, "rb") as given, open(target, "wb") as written:
        child = subprocess.Popen(command, stdin=given, stdout=written)
        _, status, used = os.wait4(child.pid, 0)
        child.returncode = os.waitstatus_to_exitcode(status)
    if child.returncode != 0:
        sys.exit("%s ended with status %d" % (" ".join(command), child.returncode))
    return used.ru_utime + used.ru_stime


def instructions(command, source, inside=None):
    """The instructions of a run, or those inside a function and what it calls."""
    call = ["valgrind", "--tool=callgrind", "--callgrind-out-file=" + os.path.join(OUT, "callgrind.out")]
    if inside:
        call.append("--toggle-collect=" + inside)
    with open(source, "rb") as given:
        done = subprocess.run(call + command, stdin=given, stdout=subprocess.DEVNULL, stderr=subprocess.PIPE, check=True,
                              env={**os.environ, "GLIBC_TUNABLES": PLAIN_MOVES})
    return int(re.search(rb"Collected : (\d+)", done.stderr)[1])


def same(first, second):
    with open(first, "rb") as a, open(second, "rb") as b:
        return a.read() == b.read()


class Pair:
    """A job, with the product's command and the ways of the baseline."""

    def __init__(self, job):
        self.job = job
        self.name = job.name
        stem = os.path.join(OUT, re.sub(r"\W+", "-", job.name))
        self.whole, self.small = stem + ".in", stem + ".small"
        self.commands = {"product": [program(job.program)], "baseline": [BASELINE, job.program]}
        if job.fills:
            self.commands["stretches"] = [BASELINE, job.program, "stretches"]
        self.targets = {who: "%s.%s" % (stem, who) for who in self.commands}
        for path, data in ((self.whole, job.whole), (self.small, job.small)):
            with open(path, "wb") as made:
                made.write(data)

    def time(self, rounds):
        times = {who: [] for who in self.commands}
        for _ in range(rounds):
            for who, command in self.commands.items():
                times[who].append(seconds(command, self.whole, self.targets[who]))
                if not same(self.targets[who], self.targets["product"]):
                    sys.exit("%s: %s answers otherwise" % (self.name, who))
        return {who: statistics.median(values) for who, values in times.items()}

    def count(self):
        counts = {who: instructions(command, self.small) for who, command in self.commands.items()}
        if self.job.program == "console":
            counts["unlooked"] = counts["product"] - instructions(self.commands["product"], self.small, LOOK)
        return counts


def print_table(title, pairs, rows, form, scale):
    print("\n%s\n" % title)
    print("| job | product | baseline | ratio | by stretches | ratio |")
    print("|---|---|---|---|---|---|")
    for pair, row in zip(pairs, rows):
        cells = [form % (row[who] / scale) for who in ("product", "baseline")] + ["%.2f" % (row["product"] / row["baseline"])]
        if "stretches" in row:
            cells += [form % (row["stretches"] / scale), "%.2f" % (row["product"] / row["stretches"])]
        else:
            cells += ["–", "–"]
        print("| %s | %s |" % (pair.name, " | ".join(cells)))


def print_unlooked(pairs, rows):
    print("\nMillions of instructions of `console` without its look at what stands\n")
    print("| job | product | baseline | ratio |")
    print("|---|---|---|---|")
    for pair, row in zip(pairs, rows):
        if "unlooked" in row:
            left, base = row["unlooked"], row["baseline"]
            print("| %s | %.2f | %.2f | %.2f |" % (pair.name, left / 1e6, base / 1e6, left / base))


def main():
    words = argparse.ArgumentParser(description="Measures the programs against benchmark/baseline.rs.")
    words.add_argument("--rounds", type=int, default=7)
    rounds = words.parse_args().rounds
    build()
    pairs = [Pair(job) for job in inputs.jobs()]
    times = [pair.time(rounds) for pair in pairs]
    print("%d processors, load %.1f; every answer is the same" % (os.cpu_count(), os.getloadavg()[0]))
    print_table("Seconds of processor time, median of %d" % rounds, pairs, times, "%.3f", 1)
    if shutil.which("valgrind") is None:
        print("\nno valgrind: instructions are not counted")
        return
    counts = [pair.count() for pair in pairs]
    print_table("Millions of instructions of a smaller input", pairs, counts, "%.2f", 1e6)
    print_unlooked(pairs, counts)


if __name__ == "__main__":
    main()
