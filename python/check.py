"""Compares what the simulations print with what `ringrun outcomes` lists.

Over 1,000 seeds each table has to be one of the outcomes; of cancel.ring each outcome has to be seen.
"""
import os
import subprocess

import simulate

HERE = os.path.dirname(os.path.abspath(__file__))
TOP = os.path.join(HERE, "..")


def outcomes(path):
    text = subprocess.run([os.path.join(TOP, "ringrun"), "--unproved", "outcomes", path], check=True, capture_output=True, text=True).stdout
    return set(table.strip() for table in text.split("\n\n")[:-1])


def of_python(path, seeds):
    script = simulate.Script(open(path).read())
    return [simulate.Run(script, seed).go().strip() for seed in range(seeds)]


def of_c(seeds):
    program = os.path.join(TOP, "c", "out", "simulate")
    runs = [subprocess.run([program, str(seed)], check=True, capture_output=True, text=True).stdout for seed in range(seeds)]
    return [run.split("table\n")[1].strip() for run in runs]


def judge(what, tables, allowed, all_seen=False):
    other = [seed for seed, table in enumerate(tables) if table not in allowed]
    if other:
        raise SystemExit(f"{what}: seed {other[0]} has a table that is no outcome:\n{tables[other[0]]}")
    seen = len(set(tables))
    if all_seen and seen < len(allowed):
        raise SystemExit(f"{what}: {seen} of {len(allowed)} outcomes were seen")
    print(f"{what}: {len(tables)} seeds, {seen} of {len(allowed)} outcomes seen")


def main():
    mixed, cancel = os.path.join(HERE, "mixed.ring"), os.path.join(HERE, "cancel.ring")
    judge("simulate.py mixed.ring", of_python(mixed, 1000), outcomes(mixed))
    judge("simulate.py cancel.ring", of_python(cancel, 1000), outcomes(cancel), all_seen=True)
    judge("simulate.c", of_c(1000), outcomes(mixed))
    for name in ("chain_through_a_pipe", "drain_waits_for_all", "hard_link_goes_on", "link_timeout_fires", "timeout_counts_completions", "two_rings_race"):
        path = os.path.join(TOP, "examples", name + ".ring")
        judge("simulate.py " + name, of_python(path, 50), outcomes(path))


if __name__ == "__main__":
    main()
