"""Names a difference by what its least script has, and by what came out of it. Nothing can be taken away from a least script
without its tables on the kernel being listed, so what it still has is what the difference hangs on. Each name is that of scripts
in differences/, and stands in docs/DEFINITIONS.md."""

# How many arguments the kinds of entry lines have after their label.
ARGUMENTS = {"nop": 0, "read": 2, "write": 2, "close": 1, "poll": 2, "timeout": 1, "link-timeout": 1, "cancel": 1, "remove": 1,
             "splice": 3, "raw": 1}


class Entry:
    def __init__(self, words, ring, batch, number):
        self.kind, self.label, self.ring, self.batch, self.number = words[0], words[1], ring, batch, number
        options = 2 + ARGUMENTS[self.kind]
        self.args, self.options = words[2:options], words[options:]
        self.link = "link" in self.options or "hard" in self.options
        self.drain = "drain" in self.options
        own = [word[3:] for word in self.options if word.startswith("ud=")]
        self.user_data = own[0] if own else str(number)
        if self.kind == "raw":
            byte = bytes.fromhex(self.args[0])
            self.link, self.drain = bool(byte[1] & 12), bool(byte[1] & 2)
            self.user_data = str(int.from_bytes(byte[32:40], "little"))
        self.chain, self.place, self.invalid = [], 0, self.kind == "raw"

    def earlier(self):
        """The members of its chain before it."""
        return self.chain[:self.place]

    def later(self):
        return self.chain[self.place + 1:]

    def ends(self):
        """The ends of pipes that it uses, by their numbers."""
        count = {"read": 1, "write": 1, "close": 1, "poll": 1, "splice": 2}.get(self.kind, 0)
        return {int(word) for word in self.args[:count]}

    def length(self):
        return 0 if self.args[1] == "-" else len(self.args[1])

    def counts(self):
        return any(word.startswith("count=") for word in self.options)


class Script:
    """The entries of a script, with their chains."""

    def __init__(self, lines):
        self.entries = []
        ring, batch = None, {}
        for line in lines:
            words = line.split()
            if not words or words[0].startswith("#"):
                continue
            if words[0] == "on":
                ring = words[1]
            elif words[0] == "submit":
                batch[ring] = batch.get(ring, 0) + 1
            elif words[0] in ARGUMENTS:
                self.entries.append(Entry(words, ring, batch.get(ring, 0), len(self.entries) + 1))
        self.by_label = {entry.label: entry for entry in self.entries}
        self.make_chains()

    def make_chains(self):
        last = {}
        for entry in self.entries:
            before = last.get(entry.ring)
            joined = before is not None and before.link and before.batch == entry.batch
            entry.chain = before.chain if joined else []
            entry.place = len(entry.chain)
            entry.chain.append(entry)
            if entry.kind == "link-timeout" and (not entry.place or entry.chain[entry.place - 1].kind == "link-timeout"):
                entry.invalid = True
            last[entry.ring] = entry

    def kinds(self, *kinds):
        return [entry for entry in self.entries if entry.kind in kinds]

    def wanted(self, cancel):
        """The user_data that a cancel names."""
        word = cancel.args[0]
        return word[3:] if word.startswith("ud=") else self.by_label[word].user_data

    def targets(self, cancel):
        """The other entries that have the user_data which a cancel names."""
        wanted = self.wanted(cancel)
        return [entry for entry in self.entries if entry.user_data == wanted and entry.ring == cancel.ring and entry is not cancel]

    def pairs(self):
        """Each cancel with each of the earlier entries that it may mean."""
        return [(cancel, target) for cancel in self.kinds("cancel", "remove") for target in self.targets(cancel) if target.number < cancel.number]

    def drained(self, entry):
        return any(other.drain for other in self.entries if other.ring == entry.ring and other.number < entry.number)


def took(cancel, rows):
    """How many requests the cancel says that it took."""
    return max(0, rows[cancel.label]) if "all" in cancel.options else int(rows[cancel.label] == 0)


def missed_it(cancel, rows):
    """Whether the cancel says that it took nothing."""
    return rows[cancel.label] in (-114, -2) or ("all" in cancel.options and rows[cancel.label] == 0)


def blocks(entry, rows):
    """Whether it ran in a thread that blocks: it was interrupted, or it is a WRITE of several bytes that all went in, or waits."""
    if entry.kind == "write" and entry.length() > 1 and rows[entry.label] in (entry.length(), -125):
        return True
    return rows[entry.label] in (-4, -512)


def waits(script, ring, rows, stands):
    """Whether an entry of the ring stands still, or is cut."""
    own = [entry.label for entry in script.entries if entry.ring == ring]
    return any(label in stands if stands else rows[label] == -125 for label in own)


# Each test is given the script, its rows on the kernel by label (empty where it stands still), and the labels it stands still at.

def invalid_member(script, rows, stands):
    """A chain in which each Invalid member replied -22, and the others -125."""
    chains = [entry.chain for entry in script.entries if entry.invalid and len(entry.chain) > 1]
    return not stands and any(all(rows[entry.label] == (-22 if entry.invalid else -125) for entry in chain) for chain in chains)


def invalid_drained(script, rows, stands):
    """An Invalid entry after a drain, or with one, replied -22."""
    drained = [entry for entry in script.entries if entry.invalid and (entry.drain or script.drained(entry))]
    return not stands and any(rows[entry.label] == -22 for entry in drained)


def open_chain(script, rows, stands):
    """An entry that ends its batch with a link flag blocks, is found running, or comes so late that a count or cancel shows it."""
    last = {(entry.ring, entry.batch): entry for entry in script.entries}
    ends = [entry for entry in last.values() if entry.link]
    if stands:
        return any(entry.label in stands for entry in ends)
    blocked = any(blocks(entry, rows) for entry in ends)
    missed = any(missed_it(cancel, rows) for cancel, target in script.pairs() if target in ends)
    counted = any(timer.counts() and rows[timer.label] == 0 for timer in script.kinds("timeout")) and bool(ends)
    return blocked or missed or counted or any(took(end, rows) for end in ends if end.kind in ("cancel", "remove"))


def after_splice(script, rows, stands):
    """What is linked after a SPLICE blocks: it stands still, replies -4, or is found running."""
    follows = [entry for splice in script.kinds("splice") for entry in splice.later()]
    if stands:
        return any(entry.label in stands for entry in follows)
    blocked = any(blocks(entry, rows) for entry in follows)
    return blocked or any(missed_it(cancel, rows) for cancel, target in script.pairs() if target in follows)


def splice_nothing(script, rows, stands):
    return not stands and any(splice.args[2] == "0" and rows[splice.label] == 0 for splice in script.kinds("splice"))


def link_timeout_splice(script, rows, stands):
    """A SPLICE with a LINK_TIMEOUT waits."""
    timed = [splice for splice in script.kinds("splice") if splice.later() and splice.later()[0].kind == "link-timeout"]
    if stands:
        return any({splice.label, splice.later()[0].label} & set(stands) for splice in timed)
    return any(rows[splice.later()[0].label] != -62 for splice in timed)


def splice_waits(script, rows, stands, fits):
    closed = {int(entry.args[0]) for entry in script.kinds("close")}
    waiting = [splice for splice in script.kinds("splice") if fits(*(int(word) for word in splice.args[:2]), closed)]
    return any(splice.label in stands if stands else rows[splice.label] not in (0, -32) for splice in waiting)


def splice_no_reader(script, rows, stands):
    return splice_waits(script, rows, stands, lambda source, target, closed: target ^ 1 in closed and source ^ 1 not in closed)


def splice_full(script, rows, stands):
    return splice_waits(script, rows, stands, lambda source, target, closed: source ^ 1 in closed and target ^ 1 not in closed)


def cancel_itself(script, rows, stands):
    """A cancel with IO_DRAIN that names its own user_data replied -114."""
    own = [cancel for cancel in script.kinds("cancel") if cancel.drain and script.wanted(cancel) == cancel.user_data]
    return not stands and any(rows[cancel.label] == -114 for cancel in own)


def cancel_splice(script, rows, stands):
    """The cancel of a SPLICE signalled it."""
    return not stands and any(target.kind == "splice" and rows[target.label] in (-512, -4) for _, target in script.pairs())


def cancel_later(script, rows, stands):
    """A cancel took an entry that was submitted after it."""
    pairs = [(cancel, target) for cancel in script.kinds("cancel", "remove") for target in script.targets(cancel) if target.number > cancel.number]
    return not stands and any(took(cancel, rows) and rows[target.label] == -125 for cancel, target in pairs)


def cancel_twice(script, rows, stands):
    """Cancels that mean the same requests took more than were ended."""
    cancels = script.kinds("cancel", "remove")
    for cancel in cancels:
        targets = script.targets(cancel)
        alike = [other for other in cancels if set(script.targets(other)) & set(targets)]
        if len(alike) > 1 and stands:
            return True
        if len(alike) > 1 and sum(took(other, rows) for other in alike) > sum(rows[target.label] == -125 for target in targets):
            return True
    return False


def cancel_waiting(script, rows, stands):
    """A cancel didn't find a member of a chain that waited."""
    pairs = [(cancel, target) for cancel, target in script.pairs() if target.place]
    return not stands and any(rows[cancel.label] == -2 or "all" in cancel.options for cancel, _ in pairs)


def cancel_mixed(script, rows, stands):
    """Of a TIMEOUT and others a cancel took another one."""
    for cancel, target in script.pairs():
        others = [other for other in script.targets(cancel) if other.kind != "timeout"]
        ended = any(other.label in stands if stands else rows[other.label] == -125 for other in others)
        if target.kind == "timeout" and ended and "all" not in cancel.options and (stands or rows[target.label] != -125 and took(cancel, rows)):
            return True
    return False


def cancel_newest(script, rows, stands):
    """Of several requests a cancel took a later one."""
    for cancel in script.kinds("cancel"):
        targets = [target for target in script.targets(cancel) if target.number < cancel.number]
        if len(targets) < 2 or "all" in cancel.options:
            continue
        if any(target.label in stands for target in targets[1:]):
            return True
        if rows and took(cancel, rows) and rows[targets[0].label] != -125 and any(rows[target.label] == -125 for target in targets[1:]):
            return True
    return False


def drain_in_chain(script, rows, stands):
    """A drain on a later member of a chain, and something of its ring waits."""
    return any(entry.drain and entry.place and waits(script, entry.ring, rows, stands) for entry in script.entries)


def drain_linger(script, rows, stands):
    """What comes after a drain waits."""
    return any(entry.drain and waits(script, entry.ring, rows, stands) for entry in script.entries)


def close_late(script, rows, stands):
    """What is linked after a CLOSE finds the pipe as it was before."""
    for close in script.kinds("close"):
        other = int(close.args[0]) ^ 1
        if any(other in entry.ends() and (stands or rows[entry.label] not in (-32, -9)) for entry in close.later()):
            return True
    return False


def close_parked(script, rows, stands):
    """A request whose own end is closed waits, or completes."""
    for close in script.kinds("close"):
        uses = [entry for entry in script.entries if entry.kind != "close" and entry.ends() & close.ends()]
        if any(stands or rows[entry.label] != -9 for entry in uses):
            return True
    return False


def link_timeout_other(script, rows, stands):
    """A LINK_TIMEOUT ended an entry that has its target's user_data."""
    for timer in script.kinds("link-timeout"):
        target = timer.chain[timer.place - 1] if timer.place else timer
        others = [entry for entry in script.entries if entry.user_data == target.user_data and entry is not target and entry.ring == timer.ring]
        if any(stands or rows[other.label] == -125 for other in others):
            return True
    return False


def link_timeout_late(script, rows, stands):
    """A LINK_TIMEOUT replied -2."""
    return not stands and any(rows[timer.label] == -2 for timer in script.kinds("link-timeout"))


def count(script, rows, stands):
    """A TIMEOUT counted what came before it in its ring, or left out a timer, or what came before it was armed."""
    for timer in script.kinds("timeout"):
        ring = [entry for entry in script.entries if entry.ring == timer.ring and entry is not timer]
        earlier = any(entry.number < timer.number for entry in ring)
        others = any(entry.kind in ("timeout", "link-timeout") for entry in ring)
        if timer.counts() and (earlier if not stands and rows[timer.label] == 0 else others or timer.place or script.drained(timer)):
            return True
    return False


def write_what_fits(script, rows, stands):
    """A WRITE of several bytes moved some of them."""
    return not stands and any(0 < rows[write.label] < write.length() for write in script.kinds("write"))


# In the order in which they are tried: first those that need most.
TESTS = [
    invalid_member, invalid_drained, open_chain, cancel_itself, splice_nothing, link_timeout_splice, after_splice, cancel_splice,
    splice_no_reader, splice_full, cancel_later, link_timeout_other, link_timeout_late, cancel_twice, cancel_waiting, cancel_mixed,
    cancel_newest, drain_in_chain, drain_linger, close_late, close_parked, count, write_what_fits,
]


def name(lines, evidence):
    """The name of the difference that a least script shows, by each (rows, stands, how often) that isn't listed; None where no
    difference that is stated looks like that."""
    script = Script(lines)
    for rows, stands, _ in evidence:
        replies = {}
        for row in rows:
            words = row.split()
            if len(words) < 2 or not words[1].lstrip("-").isdigit():
                return None
            replies[words[0]] = int(words[1])
        if not replies and not stands:
            return None
        for test in TESTS:
            if test(script, replies, stands):
                return test.__name__.replace("_", "-")
    return None
