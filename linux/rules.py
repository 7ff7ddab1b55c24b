"""What the rules list for a script, by the program's `outcomes`, and where its runs stand still."""
import os
import subprocess

# more ticks at once than that aren't taken one by one
MOST_STEPS = 50
ROOT = os.path.dirname(os.path.dirname(os.path.abspath(__file__)))


class Fault(Exception):
    """The program lists no tables: the script has a fault, or too many states."""


def find_program():
    """The built program, which its launcher brings up to date first: the proved one where there is one. None if it can't."""
    out = os.path.join(ROOT, "crates", "ringrun", "out")
    proved = os.path.exists(os.path.join(out, "ringrun"))
    launch = [os.path.join(ROOT, "ringrun")] + ([] if proved else ["--unproved"])
    if subprocess.run(launch + ["--version"], stdout=subprocess.DEVNULL, check=False).returncode:
        return None
    return os.path.join(out, "ringrun") if proved else os.path.join(out, "unproved", "ringrun")


def outcomes(program, path, text=None):
    """The tables that the rules list for the script in the file, or in the text: each a tuple of lines."""
    words = [program, "outcomes", "-" if text else path]
    run = subprocess.run(words, input=text, capture_output=True, text=True, check=False)
    *blocks, last = run.stdout.split("\n\n")
    if run.returncode or last != f"tables {len(blocks)}\n":
        raise Fault((run.stderr.strip().splitlines() or ["no tables were printed"])[-1])
    return [tuple(block.splitlines()) for block in blocks]


def stepwise_outcomes(program, path):
    """The tables of the script where its clock comes by each tick, as a real one does: one that goes from 0 to 3 at once leaves no
    time for a timer of one tick after another. None more where it goes by single ticks anyway, or has very far to go."""
    with open(path, encoding="ascii") as file:
        lines = file.read().splitlines()
    stepwise, clock = [], 0
    for line in lines:
        if line.split()[:1] != ["tick"]:
            stepwise.append(line)
            continue
        value = int(line.split()[1])
        if value - clock > MOST_STEPS:
            return []
        stepwise += [f"tick {step}" for step in range(clock + 1, value)] + [line]
        clock = value
    return outcomes(program, path, "\n".join(stepwise) + "\n") if stepwise != lines else []


def leaves_no_reply(program, path, labels, rows):
    """Whether the rules have no reply for one of the labels that are waited for, once others have replied as the rows say: where the
    lines from those that wait for them on are left out, each table with these rows has -125 there, by the end."""
    with open(path, encoding="ascii") as file:
        lines = file.read().splitlines()
    kept, actor, over = [], None, set()
    for line in lines:
        words = line.split()
        if words[:1] == ["on"]:
            actor = words[1]
        if words[:1] in (["wait"], ["armed"]) and words[1] in labels:
            over.add(actor)
        if actor not in over or words[:1] == ["on"]:
            kept.append(line)
    try:
        tables = [table for table in outcomes(program, path, "\n".join(kept) + "\n") if rows <= set(table)]
    except Fault:
        return False
    return bool(tables) and any(all(f"{label} -125" in table for table in tables) for label in labels)


def stands_still(program, path, label, runs):
    """Whether a run of the program stands still at the label, too."""
    for i in range(runs):
        words = [program, "run", "--turns", "3000", "--workers", str(1 + i % 3), path]
        run = subprocess.run(words, capture_output=True, text=True, check=False)
        if run.returncode == 3 and run.stderr.strip().endswith(f"stuck {label}"):
            return True
    return False
