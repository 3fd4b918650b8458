"""Mixed workloads, and a plain replay of their reports: one memory, one thread, the rows one after the other.

It knows docs/FORMATS.md and nothing of the program, so that it can say whether a report is right.
"""
import heapq
import random

ALGORITHMS = ["CGL", "TML", "OrecLazy", "OrecEager", "RingSW", "Serial"]
WORD = 2**64

# kind, first word, stripes or cells; those that version 1 always has
FIXED = [("counter", 64, 4), ("list", 128, 32), ("hash", 256, 64), ("tree", 512, 64)]
# the words of a cell, and those before the first one
WIDTH = {"list": 2, "hash": 2, "tree": 3, "summap": 5}
HEADS = {"list": 1, "hash": 16, "tree": 1, "summap": 1}
# which of the fixed regions an operation without a region's number is on
FIXED_OF = {"count": 0, "total": 0, "l": 1, "h": 2, "t": 3}


class Wrong(Exception):
    """A report that isn't one of its workload."""


def layout(kinds, cells, gap=1):
    """Regions of these kinds, one after the other, with some words between them."""
    at, regions = 1024, []
    for kind in kinds:
        size = 64 if kind == "counter" else cells
        regions.append((kind, at, size))
        at += {"counter": size, "queue": 2 + size}.get(kind) or HEADS[kind] + WIDTH[kind] * size
        at += gap
    return regions


def operation(draw, regions, places, keys):
    """One operation on the words or on one of the regions; without numbers of regions where they are the fixed ones."""
    place = lambda: draw.choice(places)
    key = lambda: draw.randrange(keys)
    plain = [
        lambda: f"read {place()}",
        lambda: f"write {place()} {draw.randrange(1000)}",
        lambda: f"add {place()} {draw.randrange(10)}",
        lambda: f"move {place()} {place()} {draw.randrange(50)}",
    ]
    if draw.randrange(7) < 4:
        return draw.choice(plain)()
    r = draw.randrange(len(regions))
    kind, _, size = regions[r]
    number = "" if regions is FIXED else f" {r}"
    letter = {"list": "l", "hash": "h", "tree": "t"}.get(kind)
    if letter:
        what = draw.choice(["add", "add", "del", "has"])
        more = {"list": "llen", "tree": "tmin"}.get(kind)
        return f"{more}{number}" if more and draw.randrange(8) == 0 else f"{letter}{what}{number} {key()}"
    if kind == "counter":
        return draw.choice([f"count{number} {draw.randrange(size)} {draw.randrange(5)}", f"total{number}"])
    if kind == "queue":
        return draw.choice([f"qput{number} {key()}", f"qget{number}"])
    low, high = key(), key()
    value = draw.choice([draw.randrange(1000), WORD - 1 - draw.randrange(1000)])
    return draw.choice([
        f"mput{number} {low} {value}", f"mput{number} {low} {value}", f"mdel{number} {low}",
        f"mget{number} {low}", f"msum{number} {low} {high}",
    ])


def mixed_workload(seed, callers, count, algorithm, switches, words=1024, logs=64, regions=FIXED, keys=40, policy="fixed"):
    """The items of a workload of so many transactions on few words, keys and stripes, and its text.

    A transaction is a caller and its operations, a switch a caller and an algorithm, longer logs a caller and two
    lengths. It is of version 2 where the regions aren't the fixed ones.
    """
    draw = random.Random(seed)
    places = [0, 1, 2, 3, 5, 8, 13, 1024 % words if regions is FIXED else words - 1]
    items = []
    for number in range(count):
        script = [operation(draw, regions, places, keys) for _ in range(draw.randrange(1, 6))]
        what = draw.randrange(100)
        if what < 3:
            script += ["irrev", f"emit {draw.choice(places)}", f"add {draw.choice(places)} 1"]
        elif what < 6:
            script.insert(draw.randrange(len(script) + 1), "cancel")
        items.append((draw.randrange(callers), script))
        if switches and number % (count // switches) == count // switches - 1:
            items.append((draw.randrange(callers), draw.choice(ALGORITHMS)))
            if regions is not FIXED:
                items.append((draw.randrange(callers), (draw.randrange(1, 4097), draw.randrange(1, 4097))))
    sizes = [f"words {words}", f"callers {callers}", "records 8", "ring 8", f"reads {logs}", f"writes {logs}", "clock 0"]
    if regions is FIXED:
        head = ["stm 1", *sizes, f"alg {algorithm}", "structs on"]
    else:
        lines = [f"region {kind} {at} {size}" for kind, at, size in regions]
        head = ["stm 2", *sizes, f"alg {algorithm}", f"regions {len(regions)}", *lines, f"policy {policy}"]
    lines = []
    for caller, does in items:
        if isinstance(does, str):
            lines.append(f"switch {caller} {does}")
        elif isinstance(does, tuple):
            lines.append(f"reserve {caller} {does[0]} {does[1]}")
        else:
            lines += [f"tx {caller}", *does, "end"]
    return items, "\n".join(head + lines + ["done", ""])


class Memory:
    """Words, and what the operations of a script do to them."""

    def __init__(self, words, regions):
        self.words = [0] * words
        self.regions = regions
        self.free = [None] * len(regions)
        self.undo = []

    def store(self, place, value):
        self.undo.append((place, self.words[place]))
        self.words[place] = value % WORD
        return self.words[place]

    def take_back(self):
        """Undoes all since `undo` was emptied."""
        for place, value in reversed(self.undo):
            self.words[place] = value
        self.free = [None] * len(self.regions)

    def do(self, text):
        name, *numbers = text.split()
        numbers = [int(number) for number in numbers]
        if self.regions is FIXED and (name in FIXED_OF or name[0] in "lht"):
            numbers.insert(0, FIXED_OF.get(name, FIXED_OF.get(name[0])))
        if name[1:] in ("add", "del", "has") and name[0] in "lht":
            return self.set_operation(name[1:], *numbers)
        return getattr(self, "do_" + name)(*numbers)

    def do_read(self, a):
        return self.words[a]

    do_emit = do_read

    def do_write(self, a, value):
        return self.store(a, value)

    def do_add(self, a, value):
        return self.store(a, self.words[a] + value)

    def do_move(self, a, b, amount):
        if self.words[a] < amount:
            return 0
        self.store(a, self.words[a] - amount)
        self.store(b, self.words[b] + amount)
        return 1

    def do_irrev(self):
        return 1

    def do_cancel(self):
        return 0

    def do_count(self, r, stripe, amount):
        place = self.regions[r][1] + stripe
        return self.store(place, self.words[place] + amount)

    def do_total(self, r):
        _, at, size = self.regions[r]
        return sum(self.words[at:at + size]) % WORD

    def do_qput(self, r, value):
        _, at, size = self.regions[r]
        front, count = self.words[at:at + 2]
        if count == size:
            return 2
        self.store(at + 2 + (front + count) % size, value)
        self.store(at + 1, count + 1)
        return 1

    def do_qget(self, r):
        _, at, size = self.regions[r]
        front, count = self.words[at:at + 2]
        if count == 0:
            return 0
        value = self.words[at + 2 + front]
        self.store(at + 2 + front, 0)
        self.store(at, (front + 1) % size)
        self.store(at + 1, count - 1)
        return value + 1

    # structures of cells

    def cell(self, r, number):
        """The first word of a cell."""
        kind, at, _ = self.regions[r]
        return at + HEADS[kind] + WIDTH[kind] * (number - 1)

    def tags(self, r):
        kind, at, size = self.regions[r]
        return self.words[at + HEADS[kind]:self.cell(r, size) + 1:WIDTH[kind]]

    def do_llen(self, r):
        return sum(tag != 0 for tag in self.tags(r))

    def do_tmin(self, r):
        return min((tag for tag in self.tags(r) if tag), default=0)

    def find(self, r, tag):
        """The links that lead to the tag, or to where it belongs."""
        kind, at, _ = self.regions[r]
        links = [at + (tag - 1) % 16 if kind == "hash" else at]
        is_chain = kind in ("list", "hash")
        while number := self.words[links[-1]]:
            here = self.cell(r, number)
            if self.words[here] == tag or (is_chain and self.words[here] > tag):
                break
            links.append(here + (1 if is_chain or self.words[here] > tag else 2))
        return links

    def has(self, r, tag, links):
        number = self.words[links[-1]]
        return number != 0 and self.words[self.cell(r, number)] == tag

    def take_free(self, r):
        """The free cell of the lowest number, or None."""
        if self.free[r] is None:
            self.free[r] = [number for number, tag in enumerate(self.tags(r), 1) if tag == 0]
        return heapq.heappop(self.free[r]) if self.free[r] else None

    def set_operation(self, name, r, key):
        tag = key + 1
        links = self.find(r, tag)
        is_there = self.has(r, tag, links)
        if name == "has":
            return int(is_there)
        if name == "del":
            if is_there:
                self.unlink(r, links)
            return int(is_there)
        if is_there:
            return 0
        return 1 if self.link(r, tag, links) else 2

    def link(self, r, tag, links):
        """Puts the tag into a free cell, where there is one; answers that cell, or None."""
        free = self.take_free(r)
        if free is None:
            return None
        here = self.cell(r, free)
        self.store(here, tag)
        if self.regions[r][0] in ("list", "hash"):
            self.store(here + 1, self.words[links[-1]])
        self.store(links[-1], free)
        return here

    def unlink(self, r, links):
        """Takes out the cell to which the links lead; answers the links to what was moved or taken out."""
        kind = self.regions[r][0]
        width = WIDTH[kind]
        number = self.words[links[-1]]
        here = self.cell(r, number)
        if kind in ("tree", "summap") and self.words[here + 1] and self.words[here + 2]:
            below = links + [here + 2]
            while self.words[self.cell(r, self.words[below[-1]]) + 1]:
                below.append(self.cell(r, self.words[below[-1]]) + 1)
            least = self.cell(r, self.words[below[-1]])
            self.store(here, self.words[least])
            if kind == "summap":
                self.store(here + 3, self.words[least + 3])
            return self.unlink(r, below)
        after = self.words[here + 1] if kind in ("list", "hash") else max(self.words[here + 1:here + 3])
        self.store(links[-1], after)
        for place in range(here, here + width):
            self.store(place, 0)
        if self.free[r] is not None:
            heapq.heappush(self.free[r], number)
        return links

    # maps with sums

    def mend(self, r, links):
        """Makes the sums of the cells to which these links lead right again, the lowest first."""
        for link in reversed(links):
            number = self.words[link]
            if number:
                here = self.cell(r, number)
                below = [self.words[self.cell(r, n) + 4] for n in self.words[here + 1:here + 3] if n]
                self.store(here + 4, self.words[here + 3] + sum(below))

    def do_mput(self, r, key, value):
        tag = key + 1
        links = self.find(r, tag)
        was_there = self.has(r, tag, links)
        here = self.cell(r, self.words[links[-1]]) if was_there else self.link(r, tag, links)
        if here is None:
            return 2
        self.store(here + 3, value)
        self.mend(r, links)
        return 0 if was_there else 1

    def do_mdel(self, r, key):
        links = self.find(r, key + 1)
        if not self.has(r, key + 1, links):
            return 0
        self.mend(r, self.unlink(r, links))
        return 1

    def do_mget(self, r, key):
        links = self.find(r, key + 1)
        return self.words[self.cell(r, self.words[links[-1]]) + 3] if self.has(r, key + 1, links) else 0

    def do_msum(self, r, low, high):
        start = self.cell(r, 1)
        values = self.words[start + 3:start + 5 * self.regions[r][2]:5]
        return sum(value for tag, value in zip(self.tags(r), values) if low < tag <= high + 1) % WORD


def replay(items, report, words=1024, regions=FIXED):
    """Raises Wrong where the report isn't one of these items: its rows are the transactions, each caller's in its
    order; each replies what it replies behind the rows before it; and the words at the end are those that are left."""
    try:
        replay_lines(items, report, Memory(words, regions))
    except (KeyError, IndexError, ValueError) as error:
        raise Wrong(f"not of the form: {error!r}") from None


def replay_lines(items, report, memory):
    scripts = {}
    for caller, does in items:
        if isinstance(does, list):
            scripts.setdefault(caller, []).append(does)
    lines = report.splitlines()
    if not report.endswith("\nend\n") or lines[0] != "report 1":
        raise Wrong("not a whole report")
    rows = [line for line in lines if line[0] in "WRC"]
    latest = (0, 1)
    done = {caller: (0, 0) for caller in scripts}
    for row in rows:
        head, _, said = row.partition(" :")
        kind, place, caller, seq = head.split()
        place, caller, seq = int(place), int(caller), int(seq)
        order = (place, int(kind != "W"))
        count, before = done[caller]
        if seq != count or place < before or order < latest or (kind == "W" and place <= latest[0]):
            raise Wrong(f"out of order: {row}")
        latest, done[caller] = order, (seq + 1, place)
        if run(memory, kind, scripts[caller][seq]) != said:
            raise Wrong(f"another reply: {row}")
    if any(done[caller][0] != len(scripts[caller]) for caller in scripts):
        raise Wrong("a transaction has no row")
    left = [f"mem {a} {word}" for a, word in enumerate(memory.words) if word]
    if lines[1 + len(rows):-1] != left:
        raise Wrong("other words are left")


def run(memory, kind, script):
    """What a row of this kind says of a script, and does to the memory."""
    memory.undo.clear()
    said, emits, was_cancelled = "", "", False
    for text in script:
        if kind == "C" and text == "irrev":
            raise Wrong("cancelled behind an irrev")
        was_cancelled = kind == "C" and text == "cancel"
        reply = 1 if was_cancelled else memory.do(text)
        said += f" {reply}"
        if text.startswith("emit"):
            emits += f" {reply}"
        if was_cancelled:
            break
    if was_cancelled != (kind == "C") or (kind != "C" and bool(memory.undo) != (kind == "W")):
        raise Wrong(f"not a row {kind}: {script}")
    if kind == "C":
        memory.take_back()
    return said + (" !" + emits if emits else "")
