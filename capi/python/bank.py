#!/usr/bin/env python3
"""A bank of threads: they move money while an auditor adds all up, and then what a body that stops leaves. Prints nothing where
all is right."""
import random
import threading

import nekchhaul
from nekchhaul import Algorithm

ACCOUNTS, BALANCE, TRADERS, TRADES = 16, 1000, 3, 300


class Poor(Exception):
    """The payer has less than that."""


def transfer(caller, payer, payee, amount):
    def pay(t):
        had = t.read(payer)
        t.write(payer, had - amount if had >= amount else 0)
        if had < amount:
            raise Poor

    def move(t):
        t.write(payee, t.read(payee) + amount)
        caller.atomically(pay)  # a part of this transaction

    caller.atomically(move)


def trade(caller, seed):
    draws = random.Random(seed)
    for _ in range(TRADES):
        try:
            transfer(caller, *draws.sample(range(ACCOUNTS), 2), draws.randrange(BALANCE))
        except Poor:
            pass


def balances(t):
    return [t.read(account) for account in range(ACCOUNTS)]


def bank(algorithm):
    auditor, *traders = nekchhaul.open(ACCOUNTS, algorithm, 1 + TRADERS)
    auditor.take_range(0, ACCOUNTS)
    for account in range(ACCOUNTS):
        auditor.direct_write(account, BALANCE)
    assert auditor.direct_read(0) == BALANCE
    auditor.return_range()
    threads = [threading.Thread(target=trade, args=(caller, seed)) for seed, caller in enumerate(traders)]
    for thread in threads:
        thread.start()
    while any(thread.is_alive() for thread in threads):
        assert sum(auditor.atomically(balances)) == ACCOUNTS * BALANCE
    for thread in threads:
        thread.join()
    assert sum(auditor.close(ACCOUNTS)) == ACCOUNTS * BALANCE


def is_refused(status, call, *arguments):
    try:
        call(*arguments)
    except nekchhaul.Error as error:
        return str(error) == status
    return False


def is_raised(kind, call, *arguments):
    try:
        call(*arguments)
    except kind:
        return True
    return False


def words():
    """What isn't a word is refused, and nothing is left of its transaction."""
    caller, = nekchhaul.open(2)
    for value in True, False, -1, 1 << 64, (1 << 64) + 1, 1.0, "1", None:
        kind = OverflowError if type(value) is int else TypeError  # pylint: disable=unidiomatic-typecheck
        assert is_raised(kind, caller.atomically, lambda t, v=value: (t.write(0, 1), t.write(1, v)))
        assert is_raised(kind, caller.atomically, lambda t, v=value: (t.write(0, 1), t.write_many([1], [v])))
        assert is_raised(kind, caller.direct_write, 0, value)
        assert is_raised(kind, nekchhaul.open, value)
    for address in -1, 2, 1 << 64, -(1 << 64):
        assert is_refused("ADDRESS", caller.atomically, lambda t, a=address: (t.write(0, 1), t.read(a)))
        assert is_refused("ADDRESS", caller.atomically, lambda t, a=address: t.write(a, 1))
        assert is_refused("ADDRESS", caller.atomically, lambda t, a=address: t.read_many([0, a]))
        assert is_refused("ADDRESS", caller.take_range, address, 1)
    assert is_refused("DEPTH", caller.atomically, lambda t: (t.checkpoint(), t.roll_to((1 << 64) + 1)))
    assert is_refused("LOGS", caller.reserve, (1 << 64) + 8, 8)
    assert is_refused("ALGORITHM", caller.install, 1 << 32) and is_refused("ALGORITHM", nekchhaul.open, 1, 1 << 32)
    caller.atomically(lambda t: t.write(1, (1 << 64) - 1))
    assert caller.close(2) == [0, (1 << 64) - 1]


def hooks():
    """After each run of a body one hook."""
    caller, = nekchhaul.open(1)
    told = []

    def run(body):
        return caller.atomically_with(lambda t: (told.append("run"), body(t)), lambda: told.append("committed"), lambda: told.append("aborted"))

    run(lambda t: t.write(0, 1))
    run(lambda t: None if len(told) > 5 else t.retry())
    assert is_raised(ZeroDivisionError, run, lambda t: 1 // 0)
    assert is_refused("IRREVOCABLE", run, lambda t: (t.become_irrevocable(), 1 // 0))
    assert told == ["run", "committed", "run", "aborted", "run", "aborted", "run", "committed", "run", "aborted", "run", "committed"]
    assert caller.atomically(lambda t: is_refused("IN_ATTEMPT", run, lambda inner: None))
    # one that raises leaves nothing open
    assert is_raised(ZeroDivisionError, caller.atomically_with, lambda t: t.write(0, 9) or t.retry(), lambda: None, lambda: 1 // 0)
    assert caller.state().stand == 0 and caller.peek(0) == 1


def parts():
    caller, other = nekchhaul.open(3, callers=2)

    def outer(t):
        t.write(0, 1)
        try:
            t.nested(lambda inner: (inner.write(1, 1), 1 // 0))
        except ZeroDivisionError:
            pass
        caller.atomically(lambda inner: inner.write(2, t.read(1) + 7))
        return t.or_else(lambda inner: inner.write(0, 9) or inner.retry(), lambda inner: inner.read(0))

    assert caller.atomically(outer) == 1
    waits = threading.Thread(target=lambda: other.atomically(lambda t: t.read(1) or t.retry()))
    waits.start()
    caller.atomically(lambda t: t.write(1, 4))
    waits.join()
    assert is_refused("ADDRESS", caller.atomically, lambda t: t.read(3))
    caller.install(Algorithm.TML)
    assert is_raised(ZeroDivisionError, caller.atomically, lambda t: (t.write(0, 9), 1 // 0))
    caller.atomically(lambda t: t.write(0, 2))
    assert is_refused("IRREVOCABLE", caller.atomically, lambda t: (t.become_irrevocable(), t.write(0, 2), 1 // 0))
    assert other.close(3) == [2, 4, 7]
    assert is_refused("SIZE_WORDS", nekchhaul.open, 0)


def by_hand():
    caller, other = nekchhaul.open(3, callers=2)
    with caller.begin() as t:
        t.write_many([2, 0, 2], [1, 2, 3])
        assert t.read_many([0, 2]) == [2, 3]
        assert is_refused("ADDRESS", t.write_many, [1, 3], [5, 5])
        depth = t.checkpoint()
        t.write(1, 6)
        t.roll_to(depth)
        t.drop_marks(depth)
        assert t.state().marks == 0 and t.state().stand == 1
        t.commit()
    with caller.begin() as t:
        t.write(0, 9)
        assert is_refused("RETRY", t.retry) and is_refused("RETRY", caller.atomically, lambda inner: inner.retry())
        assert t.or_else(lambda inner: inner.retry(), lambda inner: inner.read(2)) == 3
        t.cancel()
    other.take_range(0, 1)
    with caller.begin() as t:
        assert is_refused("FENCED", t.read, 0) and t.read(1) == 5
        assert is_refused("BUSY", other.return_range, 2) and other.why().status == nekchhaul.BUSY
    other.return_range()
    caller.atomically(lambda t: (t.become_irrevocable(), t.write(0, 4)))
    other.learn(caller)
    caller.reserve(8, 8)
    assert is_refused("LOGS", caller.reserve, 0, 8)
    counts = caller.counts()
    assert (counts.begun, counts.committed, counts.promoted, counts.clock_conflicts) == (4, 2, 1, 0)
    assert caller.state().stand == 0 and nekchhaul.version() & 0xFFFF0000 == 0x20000 | nekchhaul.version() & 0x80000000
    assert other.close(3) == [4, 5, 3]


def table():
    """Callers for threads that come and go."""
    lent = nekchhaul.Table(nekchhaul.open(2, callers=2))

    def work():
        while True:
            try:
                mine = lent.join()
                break
            except nekchhaul.Error as refused:
                assert str(refused) == "NONE_FREE"
        for _ in range(10):
            mine.atomically(lambda t: t.write(0, t.read(0) + 1))
        lent.part(mine)
        assert is_refused("NO_CALLER", lent.part, mine)

    threads = [threading.Thread(target=work) for _ in range(6)]
    for thread in threads:
        thread.start()
    for thread in threads:
        thread.join()
    one, other = lent.join(), lent.join()
    assert is_refused("NONE_FREE", lent.join) and one.peek(0) == 60 and is_refused("ADDRESS", one.peek, 2)
    one.take_range(0, 1)
    assert is_refused("FENCED", other.peek, 0) and is_refused("HOLDS_RANGE", lent.part, one)
    lent.part_for_dead(one)
    lent.part(other)


def goes_with_a_range():
    """A caller that goes gives its range back."""
    caller, other = nekchhaul.open(1, callers=2)
    caller.take_range(0, 1)
    del caller
    with other.begin() as t:
        assert t.read(0) == 0


for of in Algorithm:
    bank(of)
words()
hooks()
goes_with_a_range()
parts()
by_hand()
table()
