"""Nekchhaul for Python, by ctypes over libnekchhaul.so.2. Not proved; the calls below it are.

`open` makes a memory of words of 64 bits and as many callers as there are to be threads. `Caller.atomically` runs a function of an
attempt until it commits; where that raises an exception of its own nothing is left, and the exception goes on. nekchhaul.h says of
each call what it does. A word is an integer from 0 to 2^64 - 1: of anything else comes a TypeError or an OverflowError. NEKCHHAUL_LIB is
the folder of the library; else it is looked for in ../build, in the folders above an installed nekchhaul.py, and where the system
looks."""
import ctypes
import enum
import operator
import os
import time
from ctypes import POINTER, Structure, byref, c_char_p, c_size_t, c_uint32, c_uint64, c_ulong, c_void_p

Algorithm = enum.IntEnum("Algorithm", "CGL TML OREC_LAZY OREC_EAGER RING_SW SERIAL", start=0)
BUSY, AGAIN, IRREVOCABLE, DEEP, NO_CALLER, IN_ATTEMPT, ADDRESS, FENCED, RETRY, RUN, PAUSE, STOP = 4, 5, 8, 9, 16, 18, 20, 25, 49, 51, 52, 256


IN_THE_WAY = (1, 2, 3)  # CONFLICT, GATE_CLOSED, HELD: ask again


def _word(value):
    """What a word can have: True is no number here, and 2^64 isn't 0."""
    number = operator.index(value)
    if isinstance(value, bool):
        raise TypeError("a word is an integer")
    if not 0 <= number < 1 << 64:
        raise OverflowError("a word has 64 bits")
    return number


class Sizes(Structure):
    _fields_ = [(name, c_size_t) for name in ("words", "records", "ring", "reads", "writes")] + [("clock", c_uint64)]

    def __init__(self, *numbers, **named):
        super().__init__(*map(_word, numbers), **{name: _word(number) for name, number in named.items()})


class State(Structure):
    """Where a caller stands."""

    _fields_ = [("marks", c_size_t)] + [(name, c_uint32) for name in ("stand", "algorithm", "irrevocable", "range")]


class Cause(Structure):
    """What came in the way of a caller last."""

    _fields_ = [(name, c_uint32) for name in ("status", "kind")] + [(name, c_uint64) for name in ("first", "second", "third")]


class Counts(Structure):
    """How often the calls of a caller came to what."""

    _fields_ = [(name, c_uint64) for name in (
        "begun", "committed", "read_only", "promoted", "full_logs", "waits",
        "clock_conflicts", "record_conflicts", "moved_conflicts", "filter_conflicts", "overrun_conflicts")]


class _Pause(Structure):
    _fields_ = [("times", c_uint32), ("seen", c_uint32), ("at", c_void_p)]


class _Handle(Structure):
    _fields_ = [("tag", c_uint64), ("at", c_void_p)]


def _load():
    here = os.path.dirname(os.path.abspath(__file__))
    folders = [os.environ["NEKCHHAUL_LIB"]] if "NEKCHHAUL_LIB" in os.environ else [f"{here}/../build", f"{here}/../../../lib"]
    for folder in folders:
        if os.path.exists(f"{folder}/libnekchhaul.so.2"):
            return ctypes.CDLL(f"{folder}/libnekchhaul.so.2")
    return ctypes.CDLL("libnekchhaul.so.2")


_lib = _load()
_VALUE, _DEPTH, _MANY = POINTER(c_uint64), POINTER(c_size_t), [POINTER(c_size_t), c_size_t, POINTER(c_uint64), c_size_t]
_CALLS = {
    "begin": [], "commit": [], "abandon": [], "release": [], "reopen": [], "become_irrevocable": [], "reserve": [c_size_t, c_size_t],
    "read": [c_size_t, _VALUE], "write": [c_size_t, c_uint64], "read_many": _MANY, "write_many": [*_MANY, _DEPTH],
    "checkpoint": [_DEPTH], "roll_to": [c_size_t], "drop_marks": [c_size_t], "direct_read": [c_size_t, _VALUE], "direct_write": [c_size_t, c_uint64],
    "enter": [POINTER(_Pause)], "leave": [c_uint32, POINTER(_Pause)], "wait": [], "wake": [], "peek": [c_size_t, _VALUE],
    "install_within": [c_uint32, c_ulong], "take_range_within": [c_size_t, c_size_t, c_ulong], "return_range_within": [c_ulong],
    "end_within": [_VALUE, c_size_t, c_ulong], "learn": [POINTER(_Handle)], "state": [POINTER(State)], "why": [POINTER(Cause)], "counts": [POINTER(Counts)],
}
for _name, _words in _CALLS.items():
    getattr(_lib, f"nekchhaul_{_name}").argtypes = [POINTER(_Handle), *_words]
_lib.nekchhaul_pause.argtypes, _lib.nekchhaul_pause.restype = [POINTER(_Pause)], None
_lib.nekchhaul_open.argtypes = [POINTER(Sizes), c_uint32, POINTER(_Handle), c_size_t]
_lib.nekchhaul_status_name.restype = c_char_p
_lib.nekchhaul_sizes_of.argtypes, _lib.nekchhaul_sizes_of.restype = [c_size_t], Sizes


class Error(Exception):
    """A status from which a transaction doesn't go on, or that refuses another call."""

    def __init__(self, status):
        super().__init__(_lib.nekchhaul_status_name(status).decode())
        self.status = status


class _Over(BaseException):
    """An attempt's call was refused, or it is to be retried: the loop alone catches it."""

    def __init__(self, status):
        super().__init__(status)
        self.status = status


def _ask(status):
    if status & 0xFFFFFFFF:
        raise Error(status & 0xFFFFFFFF)


def _ask_in_body(status):
    if 0 < status < IRREVOCABLE or status in (FENCED, RETRY):
        raise _Over(status)
    _ask(status)


def _told(call, handle, kind):
    """What a call puts behind its pointer."""
    place = kind()
    return call(handle, byref(place)), place


def _addresses(numbers):
    """Those that are no words are 2^64 - 1, which is refused as ADDRESS."""
    found = [operator.index(number) for number in numbers]
    return (c_size_t * len(found))(*[number if 0 <= number < 1 << 64 else -1 for number in found])


def _address(number):
    return _addresses([number])[0]


def _algorithm(number):
    """One that is no number of 32 bits is refused as ALGORITHM."""
    return min(_address(number), (1 << 32) - 1)


class Attempt:
    """A running attempt."""

    _ask = staticmethod(_ask_in_body)

    def __init__(self, handle):
        self._handle = handle

    def read(self, address):
        value = c_uint64()
        self._ask(_lib.nekchhaul_read(self._handle, _address(address), byref(value)))
        return value.value

    def read_many(self, addresses):
        """The words at these addresses, read in turn."""
        count = len(addresses)
        values = (c_uint64 * count)()
        self._ask(_lib.nekchhaul_read_many(self._handle, _addresses(addresses), count, values, count))
        return list(values)

    def write(self, address, value):
        self._ask(_lib.nekchhaul_write(self._handle, _address(address), _word(value)))

    def write_many(self, addresses, values):
        """Writes the values to these addresses, in turn."""
        count, taken = len(addresses), c_size_t()
        every = (c_uint64 * len(values))(*map(_word, values))
        self._ask(_lib.nekchhaul_write_many(self._handle, _addresses(addresses), count, every, len(values), byref(taken)))

    def checkpoint(self):
        """Marks what it has written, and answers how many marks stand."""
        status, depth = _told(_lib.nekchhaul_checkpoint, self._handle, c_size_t)
        self._ask(status)
        return depth.value

    def roll_to(self, depth):
        self._ask(_lib.nekchhaul_roll_to(self._handle, _address(depth)))

    def drop_marks(self, depth):
        self._ask(_lib.nekchhaul_drop_marks(self._handle, _address(depth)))

    def become_irrevocable(self):
        """Waits for the attempts of others; from then on this one can only be committed."""
        while (status := _lib.nekchhaul_become_irrevocable(self._handle)) == BUSY:
            time.sleep(0)
        self._ask(status)

    def state(self):
        status, state = _told(_lib.nekchhaul_state, self._handle, State)
        self._ask(status)
        return state

    def retry(self):
        """Runs the body again once others have come further. Of a Begun, which has no body: the Error RETRY."""
        self._ask(RETRY)

    def nested(self, body):
        """Runs another body, of which nothing is left where it raises an exception, which goes on; but of an attempt that couldn't be
        rolled back all stands, and the Error IRREVOCABLE comes of it."""
        depth = self.checkpoint()
        try:
            answer = body(self)
        except BaseException as raised:
            if self._rolled_back(depth) == IRREVOCABLE:
                raise Error(IRREVOCABLE) from raised
            raise
        self.drop_marks(depth)
        return answer

    def _rolled_back(self, depth):
        status = _lib.nekchhaul_roll_to(self._handle, depth)
        if not status:
            self.drop_marks(depth)
        return status

    def or_else(self, first, second):
        """Runs the first body, and where that is to be retried the second in its place."""
        try:
            return self.nested(first)
        except (_Over, Error) as refused:
            if refused.status != RETRY:
                raise
        return self.nested(second)


class Begun(Attempt):
    """An attempt that `Caller.begin` began: its calls raise an Error. Of one that isn't committed nothing is left at the end of its
    `with`, unless it can only be committed; then it is."""

    _ask = staticmethod(_ask)

    def __enter__(self):
        return self

    def __exit__(self, *_):
        _lib.nekchhaul_abandon(self._handle)

    def commit(self):
        while (status := _lib.nekchhaul_commit(self._handle)) == AGAIN:
            time.sleep(0)
        _ask(status)

    def cancel(self):
        _ask(_lib.nekchhaul_abandon(self._handle))


class Caller:
    """A caller of a memory, which one thread at a time uses."""

    def __init__(self, memory, handle):
        self._memory, self._handle = memory, handle  # (the handles of a memory lie in one array)
        self._running = None  # the attempt of a body

    def __del__(self):
        _lib.nekchhaul_abandon(self._handle)
        _lib.nekchhaul_reopen(self._handle)
        _lib.nekchhaul_return_range_within(self._handle, 1000)
        _lib.nekchhaul_release(self._handle)

    def atomically(self, body):
        """What the body answers in the attempt that committed. It may raise an exception of its own, and then has left nothing; but the
        Error IRREVOCABLE comes of it where the body had made the attempt so. Inside a body of the same caller it is `nested`."""
        return self._loop(body, lambda: None, lambda: None, True)

    def atomically_with(self, body, committed, aborted):
        """The same with hooks: after each run of the body one of the two is called. Inside a body of the same caller it is the Error
        IN_ATTEMPT."""
        return self._loop(body, committed, aborted, False)

    def _loop(self, body, committed, aborted, nests):
        pause, answer, raised, ran = _Pause(), None, None, False
        while True:
            status = _lib.nekchhaul_enter(self._handle, byref(pause))
            if nests and status == IN_ATTEMPT:
                return (self._running or Begun(self._handle)).nested(body)
            if status == RUN:
                if ran:
                    self._tell(aborted, pause)
                ran = True
                how, answer, raised = self._run_once(body)
                status = _lib.nekchhaul_leave(self._handle, how, byref(pause))
            if status != PAUSE:
                break
            _lib.nekchhaul_pause(byref(pause))
        if ran:
            (committed if status in (0, IRREVOCABLE) else aborted)()
        if not status:
            return answer
        if raised and status != IRREVOCABLE:
            raise raised
        raise Error(status) from raised

    def _tell(self, aborted, pause):
        """Calls the hook, and leaves nothing open where it raises."""
        try:
            aborted()
        except BaseException:
            _lib.nekchhaul_leave(self._handle, STOP, byref(pause))
            raise

    def _run_once(self, body):
        """What the loop is told of the body, what that answered, and what it raised."""
        self._running = Attempt(self._handle)
        try:
            return 0, body(self._running), None
        except _Over as over:
            return over.status, None, None
        except BaseException as raised:  # pylint: disable=broad-except
            return STOP, None, raised
        finally:
            self._running = None

    def begin(self):
        """Begins an attempt by hand: `with caller.begin() as t: t.write(0, 1); t.commit()`."""
        _ask(_lib.nekchhaul_begin(self._handle))
        return Begun(self._handle)

    def peek(self, address):
        """One word outside attempts, as it was at one moment; waits where another is in the way."""
        value = c_uint64()
        while (status := _lib.nekchhaul_peek(self._handle, _address(address), byref(value))) in IN_THE_WAY:
            time.sleep(0)
        _ask(status)
        return value.value

    def wait(self):
        """After an attempt of `begin` that committed, wrote nothing, and found that it has to wait: returns soon, or once another caller
        has committed a write of a word that it read; then look again."""
        _ask(_lib.nekchhaul_wait(self._handle))

    def wake(self):
        """Wakes all who sleep by `wait` or in a loop, in its memory."""
        _ask(_lib.nekchhaul_wake(self._handle))

    def install(self, algorithm, tries=0):
        """Waits for the attempts of others, as the other calls that must be alone do, or makes so many tries."""
        _ask(_lib.nekchhaul_install_within(self._handle, _algorithm(algorithm), _word(tries)))

    def take_range(self, first, count, tries=0):
        _ask(_lib.nekchhaul_take_range_within(self._handle, _address(first), _address(count), _word(tries)))

    def return_range(self, tries=0):
        _ask(_lib.nekchhaul_return_range_within(self._handle, _word(tries)))

    def direct_read(self, address):
        value = c_uint64()
        _ask(_lib.nekchhaul_direct_read(self._handle, _address(address), byref(value)))
        return value.value

    def direct_write(self, address, value):
        _ask(_lib.nekchhaul_direct_write(self._handle, _address(address), _word(value)))

    def close(self, words, tries=0):
        """The memory after all that was committed, of so many words; nothing is run from then on."""
        out = (c_uint64 * words)()
        _ask(_lib.nekchhaul_end_within(self._handle, out, words, _word(tries)))
        return list(out)

    def reserve(self, reads, writes):
        _ask(_lib.nekchhaul_reserve(self._handle, _address(reads), _address(writes)))

    def learn(self, other):
        """Takes in what another caller of the same memory has seen."""
        _ask(_lib.nekchhaul_learn(self._handle, other._handle))

    def _shown(self, call, kind):
        status, shown = _told(call, self._handle, kind)
        _ask(status)
        return shown

    def state(self):
        return self._shown(_lib.nekchhaul_state, State)

    def why(self):
        return self._shown(_lib.nekchhaul_why, Cause)

    def counts(self):
        return self._shown(_lib.nekchhaul_counts, Counts)


class _Table(Structure):
    _fields_ = [("callers", POINTER(_Handle)), ("places", c_size_t), ("free", c_size_t), ("memory", c_void_p), ("lock", c_uint32)]


class Table:
    """Callers of one memory for threads that come and go: any thread joins at any time, and has a caller to itself until it parts. The
    callers that it is made of are no callers from then on."""

    def __init__(self, callers):
        count = len(callers)
        self._places, self._table = (_Handle * count)(*[caller._handle.contents for caller in callers]), _Table()
        for caller in callers:
            caller._handle.contents = _Handle()
        status = _lib.nekchhaul_share(byref(self._table), self._places, count)
        if status:
            for place, caller in zip(self._places, callers):
                caller._handle.contents = place
        _ask(status)
        self._callers = [Caller(self._places, ctypes.pointer(place)) for place in self._places]  # which are let go with the table

    def join(self):
        """A caller for this thread; the Error NONE_FREE where each is with another."""
        handle = _Handle()
        _ask(_lib.nekchhaul_join(byref(self._table), byref(handle)))
        return Caller(self, ctypes.pointer(handle))

    def part(self, caller):
        _ask(_lib.nekchhaul_part(byref(self._table), caller._handle))

    def part_for_dead(self, caller):
        """For a thread that is no more: what it left open is ended."""
        _ask(_lib.nekchhaul_part_for_dead(byref(self._table), caller._handle))


for _name, _words in (("share", [c_size_t]), ("join", []), ("part", []), ("part_for_dead", [])):
    getattr(_lib, f"nekchhaul_{_name}").argtypes = [POINTER(_Table), POINTER(_Handle), *_words]


def version():
    """65,536 * major + minor, and 0x80000000 more where the library isn't proved."""
    return _lib.nekchhaul_version() & 0xFFFFFFFF


def open(words, algorithm=Algorithm.OREC_LAZY, callers=1):  # pylint: disable=redefined-builtin
    """A memory of so many zeros, by its callers. `words` may be Sizes."""
    sizes = words if isinstance(words, Sizes) else _lib.nekchhaul_sizes_of(_word(words))
    handles = (_Handle * callers)()
    status = _lib.nekchhaul_open(byref(sizes), _algorithm(algorithm), handles, callers)
    # made first, so that what a BUSY has opened goes with them
    made = [Caller(handles, ctypes.pointer(handle)) for handle in handles]
    _ask(status)
    return made
