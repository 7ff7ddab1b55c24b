"""Makes a script that differs as small as it can be: takes away one thing after the other, as long as it differs all the same."""
import os

import names
import rules
import trial

# tries of each smaller script, of one that differs seldom, and how long nothing may go on before one stands still
TIMES, MOST_TIMES, PATIENCE = 6, 36, [15, 80]


def smaller(lines):
    """Scripts that are a little smaller, as lists of lines."""
    for i, line in enumerate(lines):
        if line.split()[0] not in ("pipe", "ring", "on"):
            yield without_empty(without_line(lines, i))
    for i, line in enumerate(lines):
        for shorter in shorter_lines(line.split()):
            yield lines[:i] + [" ".join(shorter)] + lines[i + 1:]


def without_line(lines, i):
    """Without the line, and where it is an entry without what waits for it."""
    words, rest = lines[i].split(), lines[:i] + lines[i + 1:]
    if words[0] not in names.ARGUMENTS:
        return rest
    return [line for line in rest if line.split() not in (["wait", words[1]], ["armed", words[1]])]


def shorter_lines(words):
    """The entry line without one of its options, with a shorter text, or as a NOP."""
    if words[0] not in names.ARGUMENTS:
        return
    options = 2 + names.ARGUMENTS[words[0]]
    for j in range(options, len(words)):
        yield words[:j] + words[j + 1:]
    if words[0] == "write" and len(words[3]) > 1:
        yield words[:3] + [words[3][1:]] + words[4:]
    if words[0] not in ("nop", "raw"):
        yield ["nop", words[1]] + [word for word in words[options:] if word in ("link", "hard", "drain") or word.startswith("ud=")]


def without_empty(lines):
    """Without a `submit` that follows no entry of its actor, and without an `on clock` or pipes at the end that are of no use."""
    kept, actor, filled = [], None, {}
    for line in lines:
        words = line.split()
        if words[0] == "on":
            actor = words[1]
        elif words[0] == "submit":
            if not filled.get(actor):
                continue
            filled[actor] = False
        elif words[0] in names.ARGUMENTS:
            filled[actor] = True
        kept.append(line)
    while kept and kept[-1].startswith("on "):
        kept.pop()
    return kept


def write(lines, path):
    with open(path, "w", encoding="ascii") as file:
        file.write("\n".join(lines) + "\n")


def without_entry(program, lines, label, path):
    """The script without an entry, written to the path: or, where others name it, with a NOP in its place. None if there is none."""
    at = next(i for i, line in enumerate(lines) if line.split()[0] in names.ARGUMENTS and line.split()[1] == label)
    for rest in (without_empty(without_line(lines, at)), lines[:at] + [f"nop {label}"] + lines[at + 1:]):
        write(rest, path)
        try:
            rules.outcomes(program, path)
        except rules.Fault:
            continue
        if rest != lines and trial.labels_of("\n".join(rest)):
            return rest
    return None


def differs(program, lines, path, mode, kind, times):
    """How the script differs in this kind, by a table or by standing still: each as (rows, stands, how often)."""
    if not trial.labels_of("\n".join(lines)):
        return []
    write(lines, path)
    try:
        listed = rules.outcomes(program, path)
    except rules.Fault:
        return []
    for _ in range(0, times, TIMES):
        found = trial.carry_out(path, mode, TIMES, listed, patience=PATIENCE)
        if found.cannot:
            return []
        trial.forgive(found, program, path, listed)
        evidence = [each for each in found.evidence() if bool(each[1]) == (kind == "stands")]
        if evidence:
            return evidence
    return []


def least(program, lines, folder, mode, found):
    """The lines of the least script that differs in one kind, from those of one that differs as `found` says, and how it does."""
    kind, counts = ("table", found.unlisted) if found.unlisted else ("stands", found.stands)
    rate = min(1, max(counts.values()) / found.times)
    times = TIMES if rate > 0.5 else min(MOST_TIMES, int(TIMES / rate))
    path = os.path.join(folder, "least.ring")
    evidence = [each for each in found.evidence() if bool(each[1]) == (kind == "stands")]
    tried, again = set(), True
    while again:
        again = False
        for candidate in smaller(lines):
            key = tuple(candidate)
            if key in tried or candidate == lines:
                continue
            tried.add(key)
            shown = differs(program, candidate, path, mode, kind, times)
            if shown:
                lines, evidence, again = candidate, shown, True
                break
    return lines, evidence
