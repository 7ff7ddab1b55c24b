"""The tries of a script on the kernel, by kernelrun: their tables, and where they stand still."""
import os
import subprocess

HERE = os.path.dirname(os.path.abspath(__file__))
PROGRAM = os.path.join(HERE, "out", "kernelrun")
MODES = ["enter", "defer", "sqpoll", "shared", "joined", "peek"]
# the most ways of giving completions to entries that are looked at
MOST_WAYS = 5000


class NoRing(Exception):
    """The kernel gives no io_uring."""


class Fault(Exception):
    """kernelrun refuses the script."""


class Try:
    """One try. `state` is done, late, ended (by its limit of time) or cannot."""

    def __init__(self):
        self.state, self.why = "", ""
        self.stands, self.unknown = [], False
        self.completions, self.data, self.signal = [], {}, False

    def rows(self, labels):
        """Each table that the completions may be: what has no completion is cut, with -125."""
        tables = set()
        left = [MOST_WAYS]

        def give(i, owners):
            left[0] -= 1
            if left[0] < 0:
                return
            if i == len(self.completions):
                tables.add(tuple(self.row(label, owners) for label in labels))
                return
            res, candidates = self.completions[i]
            for label in candidates:
                if label not in owners:
                    give(i + 1, {**owners, label: res})

        give(0, {})
        return sorted(tables)

    def row(self, label, owners):
        res = owners.get(label, "-125")
        data = self.data.get(label, "")
        return f"{label} {res} {data}" if data and not res.startswith("-") and res != "0" else f"{label} {res}"

    def replied(self):
        """The rows of the entries whose completions can be of no other, and of which there is just one."""
        alone = [(res, candidates[0]) for res, candidates in self.completions if len(candidates) == 1]
        return frozenset(self.row(label, {label: res}) for res, label in alone)

    def cut(self, labels):
        """Whether an entry has no completion."""
        return len(self.completions) < len(labels)


def read_tries(text):
    tries, one = [], None
    for line in text.splitlines():
        word, _, rest = line.partition(" ")
        if word == "try":
            one = Try()
            one.state = rest
        elif word == "why":
            one.why = rest
        elif word == "stands":
            label, _, unknown = rest.partition(" ")
            one.stands.append(label)
            one.unknown = one.unknown or bool(unknown)
        elif word == "cqe":
            res, *candidates = rest.split()
            one.completions.append((res, candidates))
        elif word == "data":
            label, _, data = rest.partition(" ")
            one.data[label] = data
        elif word == "sigpipe":
            one.signal = True
        elif word == "end":
            tries.append(one)
    return tries


def carry_out(path, mode, times, patience, exact=False):
    """Carries the script out several times."""
    words = [PROGRAM] + ["--exact"] * exact + ["--mode", mode, "--times", str(times), "--patience", str(patience), path]
    run = subprocess.run(words, capture_output=True, text=True, check=False)
    if run.returncode == 2:
        raise NoRing(run.stderr.strip().removeprefix("kernelrun: "))
    if run.returncode:
        raise Fault(run.stderr.strip() or f"kernelrun ended with {run.returncode}")
    return read_tries(run.stdout)
