"""What a script's first lines state of a difference, in the one form that compare reads.

    # Any lines in words.
    # difference NAME in MODE.. seldom in MODE..
                                         the modes it shows in, and those where it shows in few tries, by a race; in the
                                         others of the three the script agrees
    # rules: a 0, b -125 | a 0             what the rules list: each table fits one of these, and each of these a table
    # linux: b -2 | b waits | SIGPIPE      what the kernel does; of a row that `waits` a `wait` line stands still
    # bytes: exact                         a byte is a byte, and each pipe has room for exactly its bytes

`rules: none` says that the rules list no table."""
import kernel


class Stated:
    def __init__(self, path, lines):
        self.name, self.modes, self.seldom, self.exact = None, [], [], False
        self.rules, self.linux = [], []
        for line in lines:
            words = line.removeprefix("#").split()
            if words[:1] == ["difference"]:
                always, _, seldom = " ".join(words[2:]).partition("seldom in")
                self.name, self.modes, self.seldom = words[1], always.removeprefix("in").split(), seldom.split()
                if not self.modes + self.seldom or not set(self.modes + self.seldom) <= set(kernel.MODES):
                    raise ValueError(f"{path}: {line.strip()}")
            elif words[:1] in (["rules:"], ["linux:"]):
                patterns = [[row.strip() for row in part.split(",")] for part in " ".join(words[1:]).split("|")]
                setattr(self, words[0][:-1], patterns)
            elif words == ["bytes:", "exact"]:
                self.exact = True
        if self.name and not (self.rules and self.linux):
            raise ValueError(f"{path}: a difference says what the rules list, and what Linux does")


def fits(pattern, rows, stands=(), signal=False):
    """Whether the rows, and what stands still, are as the pattern says. A row of it may leave out the data."""
    known = set(rows) | {" ".join(row.split()[:2]) for row in rows} | {f"{label} waits" for label in stands}
    return all(row in known or (row == "SIGPIPE" and signal) for row in pattern)


def wrong_rules(stated, listed):
    """What the rules list otherwise than stated, or None."""
    if stated.rules == [["none"]]:
        return f"the rules list {len(listed)} tables, and none is stated" if listed else None
    for table in listed:
        if not any(fits(pattern, table) for pattern in stated.rules):
            return "the rules list what isn't stated: " + ", ".join(table)
    for pattern in stated.rules:
        if not any(fits(pattern, table) for table in listed):
            return "the rules don't list what is stated: " + ", ".join(pattern)
    return None
