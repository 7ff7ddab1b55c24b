"""Carries a script out in one thread, where a seed chooses each step, and prints the table. docs/SCRIPTS.md has the language;
`raw`, `poll` and `splice` are left out.

    simulate.py FILE SEED            the table, and the steps with --steps
    simulate.py FILE --seeds COUNT   the tables of the seeds 0 to COUNT - 1, each once, with how many seeds have it
"""
import random
import sys

from tombezary import (ASYNC_CANCEL, CLOSE, DRAIN, HARDLINK, LINK, LINK_TIMEOUT, NOP, READ, TIMEOUT, TIMEOUT_REMOVE, WRITE, Board,
                       Refused, sqe)

KINDS = ("nop", "read", "write", "close", "timeout", "link-timeout", "cancel", "remove")


class Script:
    def __init__(self, text):
        self.pipes, self.rings, self.actors, self.labels, self.data = [], [], {}, [], {}
        self.numbers = {}
        lines = [line.split() for line in text.splitlines()]
        lines = [words for words in lines if words and not words[0].startswith("#")]
        for words in lines:
            if words[0] in KINDS:
                self.numbers[words[1]] = next((int(w[3:]) for w in words[2:] if w.startswith("ud=")), len(self.numbers) + 1)
        actor, batch = None, []
        for words in lines:
            if words[0] == "pipe":
                self.pipes.append(int(words[1]))
            elif words[0] == "ring":
                self.rings.append(int(words[1]))
            elif words[0] == "on":
                actor = words[1]
            elif words[0] in KINDS:
                batch.append(self.entry(words))
                self.labels.append(words[1])
            elif words[0] == "submit":
                self.actors.setdefault(actor, []).append(("submit", batch))
                batch = []
            else:
                self.actors.setdefault(actor, []).append((words[0], words[1]))

    def entry(self, words):
        kind, label = words[0], words[1]
        options = [w for w in words[2:] if w in ("link", "hard", "drain", "all", "etime-ok") or "=" in w and w[0].isalpha()]
        value = {w.split("=")[0]: w.split("=")[1] for w in options if "=" in w}
        flags = HARDLINK * ("hard" in options) | LINK * ("link" in options) | DRAIN * ("drain" in options)
        common = {"user_data": self.numbers[label], "flags": flags}
        if kind == "nop":
            return label, sqe(NOP, **common), b""
        if kind == "read":
            return label, sqe(READ, fd=int(words[2]), len=int(words[3]), **common), bytes(int(words[3]))
        if kind == "write":
            text = b"" if words[3] == "-" else words[3].encode()
            return label, sqe(WRITE, fd=int(words[2]), len=len(text), **common), text
        if kind == "close":
            return label, sqe(CLOSE, fd=int(words[2]), **common), b""
        if kind == "timeout":
            word = 32 * ("etime-ok" in options)
            return label, sqe(TIMEOUT, off=int(value.get("count", 0)), addr=int(words[2]), len=1, word=word, **common), b""
        if kind == "link-timeout":
            return label, sqe(LINK_TIMEOUT, addr=int(words[2]), len=1, **common), b""
        target = int(words[2][3:]) if words[2].startswith("ud=") else self.numbers[words[2]]
        opcode = ASYNC_CANCEL if kind == "cancel" else TIMEOUT_REMOVE
        return label, sqe(opcode, addr=target, word=int("all" in options), **common), b""


class Run:
    def __init__(self, script, seed, steps=None):
        self.script, self.random, self.steps = script, random.Random(seed), steps
        self.board = Board(script.rings, script.pipes, workers=2)
        self.place = {actor: 0 for actor in script.actors}
        self.ready, self.of, self.replies = [], {}, {}

    def note(self, step):
        if self.steps is not None:
            self.steps.append(step)

    def line(self, actor):
        """Carries the actor's next line out, if it can be."""
        kind, what = self.script.actors[actor][self.place[actor]]
        if kind == "submit":
            ring = int(actor)
            first = self.board.submit(ring, [entry for _, entry, _ in what], b"".join(data for _, _, data in what))
            for i, (label, _, _) in enumerate(what):
                self.of[label] = (ring, first + i)
        elif kind == "tick":
            self.board.tick(int(what))
        elif what not in self.of or self.board.look(self.of[what])[0] not in (("done", "reaped", "armed") if kind == "armed" else ("done", "reaped")):
            return False
        self.place[actor] += 1
        self.note(f"on {actor}: {kind}" + ("" if kind == "submit" else f" {what}"))
        return True

    def turn(self):
        ready, answered, moved = self.board.poll()
        self.ready += ready
        if moved:
            self.note(f"poll: ready {ready} answered {answered}")

    def work(self):
        number = self.ready.pop(self.random.randrange(len(self.ready)))
        try:
            res, took = self.board.work(self.random.randrange(2), number)
            self.note(f"work {number}: {res}" + (f", took {took}" if took else ""))
        except Refused as refused:
            if refused.code in ("parked", "pipe busy"):
                self.ready.append(number)
            self.note(f"work {number}: {refused.code}")

    def reap(self):
        label = self.random.choice(list(self.of))
        try:
            _, res, data = self.board.reap(self.of[label])
            self.replies[label] = (res, data)
            self.note(f"reap {label}: {res}")
        except Refused:
            pass

    def go(self, most=10000):
        """One step after another. Once all lines are carried out it may end at any time."""
        for _ in range(most):
            left = [a for a, lines in self.script.actors.items() if self.place[a] < len(lines)]
            if not left and self.random.randrange(16) == 0:
                break
            choice = self.random.randrange(4)
            if choice == 0 and left:
                self.line(self.random.choice(left))
            elif choice == 1:
                self.turn()
            elif choice == 2 and self.ready:
                self.work()
            elif choice == 3 and self.of:
                self.reap()
        else:
            raise SystemExit("stuck")
        labels = {number: label for label, number in self.of.items()}
        for number, _, res, data, _ in self.board.finish():
            self.replies[labels[number]] = (res, data)
        return "".join(self.row(label) for label in self.script.labels)

    def row(self, label):
        res, data = self.replies[label]
        is_read = any(label == name and entry.opcode == READ for lines in self.script.actors.values()
                      for kind, batch in lines if kind == "submit" for name, entry, _ in batch)
        return f"{label} {res}" + (f" {data[:res].hex()}" if is_read and res > 0 else "") + "\n"


def main(words):
    script = Script(open(words[0]).read())
    if words[1] == "--seeds":
        tables = {}
        for seed in range(int(words[2])):
            table = Run(script, seed).go()
            tables[table] = tables.get(table, 0) + 1
        for table, count in sorted(tables.items()):
            print(table + f"seeds {count}\n")
        return
    steps = [] if "--steps" in words else None
    table = Run(script, int(words[1]), steps).go()
    print("".join(step + "\n" for step in steps or []) + table, end="")


if __name__ == "__main__":
    main(sys.argv[1:])
