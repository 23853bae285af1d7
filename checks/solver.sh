#!/bin/bash
# A SAT solver as the client of `compact_small`: what is printed is satisfiable exactly if what was read is.
# Random files with cliques, bicliques, single conflicts and longer clauses are compacted under every encoder letter;
# then the file and its output are solved, alone and under several random partial assignments of the file's variables.
# It needs crates/compact_small/out/compact_small (`rt run` in its folder), python3, and minisat or cadical. It is not part of the gate.
# Usage: checks/solver.sh [FILES]   how many files are made (default 25).
# Exit status 0: all agree, or there is no solver; 1: a disagreement, or something did not run.
set -u

root=$(cd "$(dirname "$0")/.." && pwd -P)
compact=$root/crates/compact_small/out/compact_small
files=${1:-25}

solver=
for name in minisat cadical; do
    if [ -z "$solver" ] && command -v "$name" > /dev/null; then
        solver=$name
    fi
done
if [ -z "$solver" ]; then
    echo "solver: neither minisat nor cadical is installed, so nothing is compared"
    exit 0
fi
if ! command -v python3 > /dev/null; then
    echo "solver: there is no python3, so nothing is compared"
    exit 0
fi
if [ ! -x "$compact" ]; then
    echo "solver: crates/compact_small/out/compact_small is not there: run 'rt run' in its folder" >&2
    exit 1
fi

work=$(mktemp -d)
trap 'rm -rf "$work"' EXIT

python3 - "$compact" "$solver" "$work" "$files" << 'PYTHON'
import random
import subprocess
import sys

COMPACT, SOLVER, WORK, FILES = sys.argv[1], sys.argv[2], sys.argv[3], int(sys.argv[4])
LETTERS = "wbsct"
CHOSEN = 8
MOST_VARIABLES = 30
SATISFIABLE, UNSATISFIABLE = 10, 20


def literals(rng, n, count, positive=0.7):
    """Random literals on distinct variables."""
    return [v if rng.random() < positive else -v for v in rng.sample(range(1, n + 1), count)]


def conflicts(rng, n):
    """Pairs of literals that conflict: cliques, bicliques and single ones."""
    pairs = []
    for _ in range(rng.randint(1, 3)):
        members = literals(rng, n, rng.randint(5, min(n, 14)), 0.97)
        pairs += [(a, b) for i, a in enumerate(members) for b in members[i + 1:]]
    for _ in range(rng.randint(0, 3)):
        size = rng.randint(4, min(n, 9))
        members = literals(rng, n, size, 0.97)
        cut = rng.randint(1, size - 1)
        pairs += [(a, b) for a in members[:cut] for b in members[cut:]]
    pairs += [tuple(literals(rng, n, 2, 0.97)) for _ in range(rng.randint(0, n // 2))]
    return pairs


def formula(rng):
    """A number of variables and clauses in random order."""
    n = rng.randint(8, MOST_VARIABLES)
    pairs = conflicts(rng, n)
    clauses = [[-a, -b] for a, b in pairs]
    clauses += [literals(rng, n, rng.randint(3, 6), 0.5) for _ in range(rng.randint(0, n // 3))]
    if rng.random() < 0.3:
        clauses.append(literals(rng, n, 1))
    if rng.random() < 0.3:
        v = rng.randint(1, n)
        clauses += [[v, -v], [v, v]]
    rng.shuffle(clauses)
    return n, clauses, pairs


def assignments(rng, n, pairs):
    """None; both literals of a conflict; two literals that are in one by chance; longer ones."""
    both = [list(rng.choice(pairs)) for _ in range(CHOSEN)]
    two = [literals(rng, n, 2, 0.8) for _ in range(CHOSEN)]
    more = [literals(rng, n, rng.randint(3, 6), 0.3) for _ in range(CHOSEN)]
    return [[]] + both + two + more


def text_of(n, clauses):
    return f"p cnf {n} {len(clauses)}\n" + "".join(" ".join(map(str, c + [0])) + "\n" for c in clauses)


def parsed(text):
    """Variables and clauses of a printed file; anything else ends the run."""
    lines = text.split("\n")
    head = lines[0].split()
    if head[:2] != ["p", "cnf"]:
        sys.exit(f"solver: compact_small printed {lines[0]!r}")
    clauses = [[int(x) for x in line.split()][:-1] for line in lines[1:] if line]
    if len(clauses) != int(head[3]):
        sys.exit("solver: the header's count is wrong")
    return int(head[2]), clauses


def satisfiable(n, clauses, units):
    path = f"{WORK}/formula.cnf"
    with open(path, "w") as file:
        file.write(text_of(n, clauses + [[u] for u in units]))
    quiet = ["-verb=0"] if SOLVER == "minisat" else ["-q"]
    status = subprocess.run([SOLVER, *quiet, path], stdout=subprocess.DEVNULL, stderr=subprocess.DEVNULL).returncode
    if status not in (SATISFIABLE, UNSATISFIABLE):
        sys.exit(f"solver: {SOLVER} ended with status {status}")
    return status == SATISFIABLE


def compacted(letter, n, clauses):
    text = f"c amo {letter}\n" + text_of(n, clauses)
    run = subprocess.run([COMPACT], input=text, capture_output=True, text=True)
    if run.returncode != 0:
        sys.exit(f"solver: compact_small ended with status {run.returncode}")
    return parsed(run.stdout)


def main():
    outputs = shorter = compared = yes = wrong = 0
    for seed in range(FILES):
        rng = random.Random(seed)
        n, clauses, pairs = formula(rng)
        trials = assignments(rng, n, pairs)
        expected = [satisfiable(n, clauses, units) for units in trials]
        for letter in LETTERS:
            m, written = compacted(letter, n, clauses)
            outputs += 1
            shorter += m > n
            for units, truth in zip(trials, expected):
                compared += 1
                yes += truth
                if satisfiable(m, written, units) != truth:
                    wrong += 1
                    print(f"solver: seed {seed}, letter {letter}, units {units}: the file says {truth}")
    print(f"solver: {SOLVER}, {FILES} files, {outputs} outputs ({shorter} with auxiliaries),")
    print(f"  {compared} comparisons, {yes} satisfiable, {compared - yes} not, {wrong} disagree")
    print("all agree" if wrong == 0 else "DISAGREEMENT")
    sys.exit(1 if wrong else 0)


main()
PYTHON
