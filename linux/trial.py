"""Carries a script out in one mode, and sorts its tries: tables that the rules list, tables that they don't, standing still."""
import collections

import kernel
import names
import rules

# How long nothing may go on before a script stands still, in milliseconds. What stands still, or leaves an entry without a
# completion in a table that isn't listed, counts only where it comes again with each longer time.
PATIENCE = [15, 60, 250]
# tries with a longer time, at least
FEWEST = 5
# runs of the program that are looked at where the kernel stands still
RUNS = 12


class Trial:
    """`seen` counts the listed tables, `unlisted` the others, `stands` the labels at which it stands still; `shaky` says what
    didn't come again with longer times, `slow` what took too long each time."""

    def __init__(self):
        self.times = 0
        self.seen, self.unlisted, self.stands = collections.Counter(), collections.Counter(), collections.Counter()
        self.shaky, self.slow, self.cannot, self.signals, self.unknown = [], [], None, 0, False
        self.stepwise, self.replied = 0, collections.defaultdict(set)

    def differs(self):
        return bool(self.unlisted or self.stands)

    def evidence(self):
        """All that differs, as (rows, stands, how often)."""
        for table, count in self.unlisted.most_common():
            yield table, (), count
        for labels, count in self.stands.most_common():
            yield (), labels, count


def labels_of(text):
    """The labels of the entry lines."""
    return [line.split()[1] for line in text.splitlines() if line.split()[:1] and line.split()[0] in names.ARGUMENTS]


def sort_tries(tries, listed, labels):
    """The tries as (kind, what): `seen` and `unlisted` tables, `cut` ones, which are unlisted and lack a completion, `stands`."""
    for one in tries:
        if one.state == "done" and one.stands:
            yield ("unknown" if one.unknown else "stands"), tuple(one.stands), one
            continue
        if one.state != "done":
            yield one.state, one.why, one
            continue
        rows = one.rows(labels)
        known = [table for table in rows if table in listed]
        if known:
            yield "seen", known[0], one
        else:
            yield ("cut" if one.cut(labels) else "unlisted"), (rows or [("more completions than fit the entries",)])[0], one


def carry_out(path, mode, times, listed, exact=False, patience=PATIENCE):
    """The trial of the script; `listed` are its tables by the rules."""
    with open(path, encoding="ascii") as file:
        labels = labels_of(file.read())
    listed, trial = set(listed), Trial()
    trial.times = times
    first, doubtful, wanted = collections.Counter(), collections.Counter(), times
    for level, milliseconds in enumerate(patience):
        before, doubtful = doubtful, collections.Counter()
        for kind, what, one in sort_tries(kernel.carry_out(path, mode, wanted, milliseconds, exact), listed, labels):
            trial.signals += one.signal
            if kind == "cannot":
                trial.cannot = what
                return trial
            if kind == "unknown":
                trial.unknown = True
            elif kind == "seen":
                trial.seen[what] += 1
            elif kind == "unlisted":
                trial.unlisted[what] += level == 0 or what not in trial.unlisted
            else:
                doubtful[(kind, what)] += 1
                trial.replied[what].add(one.replied())
        if level:
            trial.shaky += [describe(key) for key in before if key not in doubtful and key[0] in ("stands", "cut")]
        else:
            first = doubtful
        if not doubtful:
            return trial
        # Enough tries to see again what came as often as this.
        wanted = min(times, max(FEWEST, 4 * wanted // sum(doubtful.values())))
    for (kind, what), count in doubtful.items():
        count = max(count, first[(kind, what)])
        if kind == "stands":
            trial.stands[what] = count
        elif kind == "cut":
            trial.unlisted[what] = count
        else:
            trial.slow.append(describe((kind, what)))
    return trial


def describe(key):
    kind, what = key
    if kind == "stands":
        return "stands still at " + " and ".join(what)
    if kind == "cut":
        return ", ".join(what)
    return {"late": "too slow for its ticks", "ended": "not over in its time"}.get(kind, kind)


def forgive(trial, program, path, listed):
    """Takes out the tables that the rules list where the clock comes by each tick; and the standing still that they have, too: they
    list no table, what has replied leaves no reply for what is waited for, or a run of the program stands still there. Answers
    the labels of what stood still so."""
    forgiven = []
    stepwise = rules.stepwise_outcomes(program, path) if trial.unlisted else []
    for table in set(stepwise) & set(trial.unlisted):
        trial.stepwise += trial.unlisted.pop(table)
    for labels in list(trial.stands):
        bound = all(rules.leaves_no_reply(program, path, labels, rows) for rows in trial.replied[labels])
        if not listed or bound or any(rules.stands_still(program, path, label, RUNS) for label in labels):
            forgiven.append(labels)
            del trial.stands[labels]
    return forgiven
