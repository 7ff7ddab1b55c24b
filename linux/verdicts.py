"""The verdict on each script in each mode, and what compare prints."""
import argparse
import collections
import concurrent.futures
import os
import subprocess
import sys
import tempfile

import kernel
import least
import names
import rules
import stated
import trial

USUAL = ["enter", "defer", "sqpoll"]


class Verdict:
    """`kind`: agrees, stated (a difference that is stated), differs, missing (one that is stated and doesn't show), cannot
    (can't be had here), unstable, fault. `names`: of the differences."""

    def __init__(self, kind, text, shown=None, notes=()):
        self.kind, self.text, self.names, self.notes = kind, text, shown or [], notes


def rows_text(rows, stands):
    return "stands still at " + " and ".join(stands) if stands else ", ".join(rows)


def evidence_text(found):
    return "; ".join(f"{rows_text(rows, stands)} ({count} of {found.times} tries)" for rows, stands, count in found.evidence())


def agrees(found, listed, still):
    text = f"agrees: {found.times} tries, {len(found.seen)} of {len(listed)} tables seen"
    if found.stepwise:
        text += f", in {found.stepwise} tries one that is listed where the clock comes by each tick"
    if still:
        text += ", stands still as the rules do"
    if found.shaky:
        text += "; with more time not again: " + "; ".join(sorted(set(found.shaky)))
    return Verdict("agrees", text)


def of_stated(says, mode, found, listed):
    """The verdict on a script whose first lines state a difference, in a mode that they name."""
    shown, other = 0, []
    for rows, stands, count in found.evidence():
        if any(stated.fits(pattern, rows, stands, found.signals) for pattern in says.linux):
            shown += count
        else:
            other.append(f"{rows_text(rows, stands)} ({count} of {found.times} tries)")
    signals = [pattern for pattern in says.linux if "SIGPIPE" in pattern]
    if any(stated.fits(pattern, table, (), found.signals) for pattern in signals for table in found.seen):
        shown += found.signals
    if other:
        return Verdict("differs", f"differs otherwise than stated ({says.name}): " + "; ".join(other))
    if shown:
        return Verdict("stated", f"differs as stated ({says.name}): {evidence_text(found) or 'SIGPIPE'}", [says.name])
    if mode in says.seldom:
        return Verdict("agrees", f"agrees: {found.times} tries; the difference that is stated ({says.name}) shows seldom")
    return Verdict("missing", f"agrees, and is stated to differ ({says.name}): {found.times} tries, {len(found.seen)} of {len(listed)} tables seen")


def of_unstated(options, lines, mode, found, folder):
    """The verdict on a script that differs and states nothing. Made as small as it can be, it shows which difference it is. Then
    the last entry of the least script is taken out of the whole one, and what is left is looked at again, until it agrees: one
    difference doesn't hide another."""
    found_names, notes = [], []
    folder = tempfile.mkdtemp(dir=folder)
    text, path = evidence_text(found), os.path.join(folder, "rest.ring")
    while found.differs():
        small, evidence = least.least(options.ringrun, lines, folder, mode, found)
        name = names.name(small, evidence)
        found_names.append(name)
        notes.append(f"least: {' / '.join(small)} -> " + "; ".join(rows_text(rows, stands) for rows, stands, _ in evidence))
        if not name:
            return Verdict("differs", f"differs: {text}", None, notes)
        lines = least.without_entry(options.ringrun, lines, trial.labels_of("\n".join(small))[-1], path)
        if not lines:
            break
        listed = rules.outcomes(options.ringrun, path)
        found = trial.carry_out(path, mode, options.times, listed)
        trial.forgive(found, options.ringrun, path, listed)
    name = " and ".join(sorted(set(found_names)))
    return Verdict("stated", f"differs as stated ({name}): {text}", found_names, notes)


def judge(options, path, mode, folder):
    try:
        return judge_listed(options, path, mode, folder, rules.outcomes(options.ringrun, path))
    except rules.Fault as fault:
        return Verdict("fault", f"the program lists no tables: {fault}")
    except kernel.Fault as fault:
        return Verdict("fault", f"kernelrun: {fault}")


def judge_listed(options, path, mode, folder, listed):
    with open(path, encoding="ascii") as file:
        lines = file.read().splitlines()
    says = stated.Stated(path, lines)
    if says.name and stated.wrong_rules(says, listed):
        return Verdict("differs", stated.wrong_rules(says, listed))
    found = trial.carry_out(path, mode, options.times, listed, says.exact)
    if found.cannot:
        return Verdict("cannot", f"can't be had here: {found.cannot}")
    if says.name and mode in says.modes + says.seldom:
        if not found.differs() and found.slow:
            return Verdict("unstable", "not stable: " + "; ".join(sorted(set(found.slow))))
        return of_stated(says, mode, found, listed)
    still = trial.forgive(found, options.ringrun, path, listed)
    if found.differs():
        if says.name:
            return Verdict("differs", f"differs, and is stated to agree in this mode: {evidence_text(found)}")
        return of_unstated(options, [line for line in lines if line.split() and not line.startswith("#")], mode, found, folder)
    if found.unknown:
        return Verdict("cannot", "can't be had here: which of the entries with one user_data has replied can't be told")
    if found.slow:
        return Verdict("unstable", "not stable: " + "; ".join(sorted(set(found.slow))))
    return agrees(found, listed, still)


def scripts_in(paths):
    for path in paths:
        if os.path.isdir(path):
            yield from (os.path.join(path, name) for name in sorted(os.listdir(path)) if name.endswith(".ring"))
        else:
            yield path


def random_scripts(count, seed, folder):
    """The scripts that .ci/random_scripts draws."""
    words = [sys.executable, os.path.join(rules.ROOT, ".ci", "random_scripts"), "drawn", str(count), str(seed)]
    drawn = subprocess.run(words, capture_output=True, text=True, check=True).stdout.splitlines()
    for i, line in enumerate(drawn):
        path = os.path.join(folder, f"random-{seed}-{i}.ring")
        with open(path, "w", encoding="ascii") as file:
            file.write(line.removeprefix("drawn ").split(" => ")[0].replace("/", "\n"))
        yield path


def modes_of(options, path):
    if options.mode:
        return [options.mode]
    with open(path, encoding="ascii") as file:
        says = stated.Stated(path, file.read().splitlines())
    return USUAL + [mode for mode in says.modes + says.seldom if mode not in USUAL]


def positive(word):
    if not word.isdecimal() or int(word) == 0:
        raise argparse.ArgumentTypeError(f"{word} is no number above 0")
    return int(word)


class Parser(argparse.ArgumentParser):
    """A fault of the command line ends with status 1: 2 says that there is no io_uring."""

    def error(self, message):
        self.exit(1, f"{self.format_usage()}{self.prog}: {message}\n")


def read_options(words, text):
    parser = Parser(prog="linux/compare", description=text, formatter_class=argparse.RawDescriptionHelpFormatter)
    parser.add_argument("--times", type=positive, default=20, help="tries of each script (20)")
    parser.add_argument("--mode", choices=kernel.MODES)
    parser.add_argument("--jobs", type=positive, default=4, help="scripts at a time (4)")
    parser.add_argument("--ringrun", help="a program in place of ringrun")
    parser.add_argument("--random", nargs=2, type=int, metavar=("COUNT", "SEED"))
    parser.add_argument("files", nargs="*", metavar="FILE")
    options = parser.parse_args(words)
    if bool(options.random) == bool(options.files):
        parser.error("either files or --random")
    for path in options.files:
        if not os.path.exists(path):
            parser.error(f"there is no {path}")
    return options


def main(words, text):
    options = read_options(words, text)
    if not os.path.exists(kernel.PROGRAM):
        print("linux/compare: build kernelrun first: make -C linux", file=sys.stderr)
        return 1
    options.ringrun = options.ringrun or rules.find_program()
    if not options.ringrun:
        return 1
    with tempfile.TemporaryDirectory() as folder:
        paths = list(random_scripts(*options.random, folder) if options.random else scripts_in(options.files))
        try:
            return print_verdicts(options, [(path, mode) for path in paths for mode in modes_of(options, path)], folder)
        except kernel.NoRing as why:
            print(f"linux/compare: {why}", file=sys.stderr)
            return 2
        except BrokenPipeError:
            raise
        except (OSError, ValueError) as why:
            print(f"linux/compare: {why}", file=sys.stderr)
            return 1


def print_verdicts(options, pairs, folder):
    counts, named = collections.Counter(), collections.Counter()
    pool = concurrent.futures.ThreadPoolExecutor(options.jobs)
    try:
        verdicts = pool.map(lambda pair: judge(options, *pair, folder), pairs)
        for (path, mode), verdict in zip(pairs, verdicts):
            shown = os.path.basename(path) if path.startswith(folder) else path
            print(f"{shown} {mode}: {verdict.text}", flush=True)
            for note in verdict.notes:
                print(f"    {note}", flush=True)
            counts[verdict.kind] += 1
            named.update(set(verdict.names))
    finally:
        pool.shutdown(cancel_futures=True)
    words = {"agrees": "agree", "stated": "differ as stated", "differs": "differ", "missing": "don't show what is stated",
             "cannot": "can't be had here", "unstable": "not stable", "fault": "can't be judged"}
    print(", ".join(f"{counts[kind]} {word}" for kind, word in words.items() if counts[kind]))
    for name, count in sorted(named.items()):
        print(f"    {name} {count}")
    return 1 if counts["differs"] or counts["missing"] or counts["fault"] else 0
