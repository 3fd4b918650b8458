#!/usr/bin/env python3
"""The events of examples/events.c in Python, as lines of capi/events.data."""
import nekchhaul
from nekchhaul import Algorithm, Sizes

WORDS = 403


class Stop(Exception):
    """A body's own."""


class Run:
    """A body's run: how often another caller is to come in between, and how often the body came to its end."""

    def __init__(self, mine, other, between):
        self.mine, self.other, self.between, self.ends, self.half = mine, other, between, 0, False

    def come_between(self):
        if not self.between:
            return
        self.between -= 1
        try:
            with self.other.begin() as t:
                t.write_many([3, WORDS - 1], [0, 0])
                t.commit()
        except nekchhaul.Error:
            pass

    def first_retry(self, t):
        self.ends += 1
        if self.ends == 1:
            t.retry()


def put(t):
    t.write(1, 1)


def put_last(t):
    t.write(2, 1)


def put_and_stop(t):
    put(t)
    raise Stop(7)


def put_and_misuse(t):
    put(t)
    t.write(WORDS, 1)


def put_and_always_retry(t):
    put(t)
    t.retry()


def put_and_retry(run):
    def body(t):
        put(t)
        run.first_retry(t)

    return body


def goes_on_after_stop(t, _):
    try:
        t.nested(put_and_stop)
    except Stop:
        put_last(t)


def neither(t, run):
    def second(inner):
        put_last(inner)
        run.first_retry(inner)

    t.or_else(put_and_always_retry, second)


def nest_on(t):
    t.nested(nest_on)


def marks_deep(t, _):
    while True:
        t.checkpoint()


EVENTS = {
    "done": lambda t, run: None,
    "stops": lambda t, run: put_and_stop(t),
    "misuses": lambda t, run: put_and_misuse(t),
    "retries": lambda t, run: put_and_retry(run)(t),
    "joins": lambda t, run: run.mine.atomically(put),
    "joined_stops": lambda t, run: run.mine.atomically(put_and_stop),
    "joined_retries": lambda t, run: run.mine.atomically(put_and_retry(run)),
    "nests": lambda t, run: t.nested(put),
    "nested_stops": lambda t, run: t.nested(put_and_stop),
    "nested_misuses": lambda t, run: t.nested(put_and_misuse),
    "nested_retries": lambda t, run: t.nested(put_and_retry(run)),
    "goes_on_after_stop": goes_on_after_stop,
    "either": lambda t, run: t.or_else(put_and_always_retry, put_last),
    "either_stops": lambda t, run: t.or_else(put_and_always_retry, put_and_stop),
    "neither": neither,
    "nests_deep": lambda t, run: nest_on(t),
    "marks_deep": marks_deep,
}


def answer(run, does):
    """What the loop answers."""

    def body(t):
        t.read_many(range(3, WORDS - 1))
        run.come_between()
        t.read(WORDS - 1)
        run.half |= any(t.read(i) for i in range(3))
        t.write(0, 1)
        does(t, run)

    try:
        run.mine.atomically(body)
    except nekchhaul.Error as error:
        return str(error)
    except Stop as stop:
        return f"STOP+{stop.args[0]}"
    return "OK"


def run_all(algorithm, logs, between):
    for name, does in EVENTS.items():
        mine, other = nekchhaul.open(Sizes(WORDS, 64, 64, logs, logs, 0), algorithm, 2)
        run = Run(mine, other, between)
        told = answer(run, does)
        with other.begin() as t:
            words = t.read_many(range(3))
            t.commit()
        print(name, told, "".join(map(str, words)), *["and a half was seen"] * run.half)


for of in Algorithm:
    for length in 4, 64:
        for often in 0, 20:
            run_all(of, length, often)
