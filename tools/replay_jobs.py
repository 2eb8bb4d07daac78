#!/usr/bin/env python3
"""The generated jobs of crates/replay, and what the original answers to each; the jobs of listed_jobs.py follow them there.

    replay_jobs.py write ORACLE      make crates/replay/data/jobs and crates/replay/stdout (then set GENERATED, and `listed_jobs.py write`)
    replay_jobs.py compare ORACLE    ask the original again about every generated job

ORACLE is a program that answers jobs by the original bitvectors.rs (see oracle/README.md). `write` has it make COUNT jobs from
SEED, and takes of each sort the first MOST that are short, and of the others those that show an answer (rule, code, width) or a stop
code not seen yet.
"""
import collections
import os
import re
import subprocess
import sys
import tempfile

SEED, COUNT = 11, 3500
GENERATED = 945               # so many were taken
MOST = 40                      # jobs of one sort
SHORT, LONGEST = 600, 6000    # bytes of a job
LENT = 65536                  # the most that replay lends
ANSWER = 10
UNLIMITED = (2**32 - 1,) * 2   # above the rack's limits of width and terms, which hold then
HERE = os.path.join(os.path.dirname(os.path.abspath(__file__)), "..", "crates", "replay")
JOBS, STDOUT = os.path.join(HERE, "data", "jobs"), os.path.join(HERE, "stdout")


def expected(text):
    """The fields of an oracle's .expect text."""
    return {words[0]: (words + [""])[1] for words in map(str.split, text.splitlines()) if words}


def answered(fields):
    """The pairs of rule and code that a job was answered with, and its stop code."""
    data = bytes.fromhex(fields["bytes"])
    pairs = {(data[i + 4], data[i + 6]) for i in range(0, len(data), ANSWER)}
    return pairs | {("stop", fields["stop"])}


def printed(fields):
    return " ".join(str(fields[k]) for k in ("stop", "records", "answers", "terms", "repeats", "bytes")) + "\n"


def head(work, room, job, limits=()):
    return "".join(f"{n:08x} " for n in (work, room, len(job), *(limits or UNLIMITED))) + job.hex() + "\n"


def cases(oracle, folder):
    subprocess.run([oracle, "gen", str(SEED), str(COUNT), folder], check=True, stdout=subprocess.DEVNULL)
    for line in open(os.path.join(folder, "index.txt")):
        name, what = line.rstrip("\n").split(" ", 1)
        path = os.path.join(folder, name + ".job")
        if os.path.getsize(path) <= LONGEST:
            yield what, open(path, "rb").read(), expected(open(path[:-3] + "expect").read())


def write(oracle):
    with tempfile.TemporaryDirectory() as folder:
        found = [(w, j, f) for w, j, f in cases(oracle, folder) if int(f["work"]) <= LENT and int(f["room"]) <= LENT]
    seen, sorts, chosen = set(), collections.Counter(), []
    for what, job, fields in found:
        sort = re.sub(r"[0-9]+", "N", what)
        width = what.split("width ")[1].split(",")[0] if "width " in what else ""
        new = {(pair, width) for pair in answered(fields)} - seen
        if new or (len(job) <= SHORT and sorts[sort] < MOST):
            chosen.append((job, fields))
            sorts[sort] += 1
            seen |= new
    with open(JOBS, "w") as jobs, open(STDOUT, "w") as out:
        for job, fields in chosen:
            jobs.write(head(int(fields["work"]), int(fields["room"]), job))
            out.write(printed(fields))
    print(f"{len(chosen)} jobs, {sum(len(j) for j, _ in chosen)} bytes")


def compare(oracle):
    bad = 0
    lines, out = (open(path).read().splitlines(keepends=True)[:GENERATED] for path in (JOBS, STDOUT))
    if not len(lines) == len(out) == GENERATED:
        sys.exit(f"{len(lines)} jobs and {len(out)} lines of output, not {GENERATED}")
    with tempfile.TemporaryDirectory() as folder:
        path = os.path.join(folder, "a.job")
        for number, (line, said) in enumerate(zip(lines, out), 1):
            work, room, size, _, _, *job = line.split()
            open(path, "wb").write(bytes.fromhex("".join(job)))
            asked = subprocess.run([oracle, "case", path, str(int(work, 16)), str(int(room, 16))], capture_output=True, text=True, check=True)
            if printed(expected(asked.stdout)) != said:
                bad += 1
                print(f"line {number}: {said.strip()}\n  original: {printed(expected(asked.stdout)).strip()}")
    print(f"{len(lines)} jobs compared, {bad} differ")
    return bad


if __name__ == "__main__":
    if len(sys.argv) != 3 or sys.argv[1] not in ("write", "compare"):
        sys.exit(__doc__)
    sys.exit(1 if {"write": write, "compare": compare}[sys.argv[1]](sys.argv[2]) else 0)
