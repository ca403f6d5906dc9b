"""What translated scenarios share: an environment that prints its trace, and what SimPy has not or has otherwise.

All that decides which event comes next and what it does is SimPy's own code. What is here counts and prints events, turns
exceptions into numbers, and has the few forms of the scenario language for which SimPy has no call.
"""
import itertools

import simpy
from simpy.core import BoundClass, EmptySchedule, StopSimulation
from simpy.events import URGENT, Condition, Initialize, Interruption
from simpy.resources import base
from simpy.resources.resource import Release, Request

from pcg64 import random_words

LAST_TIME = 2 ** 62
GREATEST_LEVEL = 2 ** 62
GREATEST_WEIGHT = 64

KINDS = [
    (Initialize, 'init'), (simpy.Timeout, 'timeout'), (simpy.Process, 'process'), (Interruption, 'interrupt'),
    (Condition, 'cond'), (Request, 'request'), (Release, 'release'), (base.Put, 'put'), (base.Get, 'get'),
    (simpy.Event, 'event'),
]

ERRORS = [
    ('Negative delay', 1), ('must be > 0', 2), ('already been triggered', 3), ('has terminated', 4),
    ('not allowed to', 5), ('past 64 bits', 6), ('by zero', 7), ('empty range', 8), ('past the last time', 9),
    ('too wide', 10),
]


class Failure(Exception):
    """What `raise` and `fail` throw: a code."""


class Dropped(BaseException):
    """Thrown into a process that another drops. No `except Exception` catches it, and each `with` releases its request."""


class Crash(Exception):
    """A failure that nobody handled has ended the run."""


# ---- numbers of events

class Numbered:
    """The environment of an event. An event takes its number when its constructor sets this."""

    def __get__(self, event, owner):
        return event.__dict__['env']

    def __set__(self, event, env):
        event.__dict__['env'] = env
        event.number = env.made
        env.made += 1


simpy.Event.env = Numbered()


# ---- what is printed

def number(value):
    """The number that the value of an event is in a scenario; what is none is 0."""
    if isinstance(value, simpy.resources.store.PriorityItem):
        return value.item
    return value if isinstance(value, int) else 0


def error_number(exception):
    """The number of the error for which SimPy, or this module, raised the exception."""
    for phrase, error in ERRORS:
        if phrase in str(exception):
            return error
    raise LookupError('no error of a scenario') from exception


def kind_and_value(exception):
    """What is thrown, as a scenario catches it: 1 an interruption, 2 a preemption, 3 a code, 4 an error."""
    if isinstance(exception, Failure):
        return 3, exception.args[0]
    if not isinstance(exception, simpy.Interrupt):
        return 4, error_number(exception)
    if isinstance(exception.cause, simpy.resources.resource.Preempted):
        return 2, exception.cause.usage_since
    return 1, exception.cause


def kind_of(event, priority):
    """The word for an event of this kind. Of plain events only the one that stops a run at a time is urgent."""
    word = next(word for kind, word in KINDS if isinstance(event, kind))
    return 'stop' if word == 'event' and priority == URGENT else word


def outcome_of(event):
    """The last words of the line of an event. What is no Exception has stopped the program, and a process on its way."""
    if event.ok:
        return f'ok {number(event.value)}'
    if not isinstance(event.value, Exception):
        raise event.value
    kind, value = kind_and_value(event.value)
    return f'fail {kind} {value}'


# ---- the environment

class Nothing(simpy.Event):
    """The event 0, which has happened from the start. A variable that was not given yet holds it."""

    def __init__(self, env):
        super().__init__(env)
        self._ok = True
        self._value = 0
        self.callbacks = None

    def interrupt(self, cause):
        raise RuntimeError(f'{self} has terminated.')

    drop = interrupt

    def cancel(self):
        pass


class Process(simpy.Process):
    """A process that may be dropped."""

    def interrupt(self, cause=None):
        """Interrupts the process. An interruption that SimPy refuses takes no number."""
        made = self.env.made
        try:
            super().interrupt(cause)
        except RuntimeError:
            self.env.made = made
            raise

    def drop(self, value):
        """Ends the process at once, with a value. Its requests are released; SimPy has no such call."""
        if self.triggered:
            raise RuntimeError(f'{self} has terminated.')
        if self is self.env.active_process:
            raise RuntimeError('A process is not allowed to drop itself.')
        waits_at = self.target.callbacks if self.target.callbacks is not None else self.env.calling
        waits_at.remove(self._resume)
        try:
            self._generator.throw(Dropped())
        except Dropped:
            self.succeed(value)


class Environment(simpy.Environment):
    """SimPy's environment. It prints each event that it processes, and how the run ends."""

    process = BoundClass(Process)

    def __init__(self, seed=0):
        super().__init__()
        self.made = 0
        self.processed = 0
        self.calling = []
        self.journal = []
        self.words = random_words(seed)
        self.nothing = Nothing(self)

    def schedule(self, event, priority=simpy.events.NORMAL, delay=0):
        """Schedules an event. The delay is a whole number, also the one that `run` works out as a float."""
        super().schedule(event, priority, int(delay))

    def step(self):
        """Takes in what arrives, prints the event that is due, and lets SimPy process it."""
        while self.journal and (self.journal[0][0] <= self.processed or not self._queue):
            self.take_in(*self.journal.pop(0))
        if self._queue:
            self.tell(*self._queue[0])
        try:
            super().step()
        except (EmptySchedule, StopSimulation):
            raise
        except Exception as failure:
            raise Crash from failure

    def tell(self, time, priority, scheduling, event):
        """Prints an event that is about to be processed."""
        print(f'@{time} {priority} {scheduling} {kind_of(event, priority)} {event.number} {outcome_of(event)}')
        self.calling = event.callbacks
        self.processed += 1

    def take_in(self, after, port, process, value):
        """Starts the process of a port for a value that arrives."""
        print(f'arrive {self.processed} {port} {value}')
        self.process(process(value))

    def run(self, until=None):
        """Runs as SimPy does, and prints how the run ended."""
        try:
            super().run(until)
            word = 'empty' if until is None else 'until'
        except Crash:
            word = 'crash'
        except RuntimeError:
            word = 'starved'
        print(f'end {word} {self.now} {self.processed}')

    def arrive(self, after, port, process, value):
        """Says that a value arrives at a port, once this many events were processed. SimPy has no such call."""
        self.journal.append((after, port, process, value))

    def log(self, value):
        """Prints a number with the time and the process."""
        print(f'log {self.now} {self.active_process.number} {value}')

    def draw(self, low, high):
        """A random number from low to high, both included."""
        if high < low:
            raise ValueError('an empty range')
        return low + next(self.words) % (high - low + 1)

    def timeout(self, delay, value=None):
        """A timeout, but none past the last time."""
        if self.now + delay > LAST_TIME:
            raise OverflowError('a time past the last time')
        return simpy.Timeout(self, delay, value)

    def all_of(self, events):
        """A condition on all of the events."""
        return self.weighed(simpy.AllOf, events)

    def any_of(self, events):
        """A condition on any of the events."""
        return self.weighed(simpy.AnyOf, events)

    def weighed(self, kind, events):
        """A condition, but none that weighs too much."""
        weight = 1 + sum(getattr(event, 'weight', 1) for event in events)
        if weight > GREATEST_WEIGHT:
            raise ValueError('a condition that is too wide')
        condition = kind(self, events)
        condition.weight = weight
        return condition


# ---- what SimPy has otherwise

class PreemptiveResource(simpy.PreemptiveResource):
    """SimPy's resource, but a request that would preempt its own process leaves nothing."""

    def request(self, priority, preempt):
        users, queue, made = list(self.users), list(self.put_queue), self._env.made
        try:
            return super().request(priority=priority, preempt=preempt)
        except RuntimeError:
            self.users[:], self.put_queue[:], self._env.made = users, queue, made
            raise


deposits = itertools.count()


def priority_item(priority, item):
    """An item of a priority store. SimPy leaves open which of equal priorities comes first; here it is the first made."""
    return simpy.PriorityItem((priority, next(deposits)), item)


def cancel(move):
    """Cancels a put or get; once more does nothing, where SimPy raises a ValueError."""
    try:
        move.cancel()
    except ValueError:
        pass


def chain(source, target):
    """When the source is processed the target gets its outcome, unless it has one, which SimPy would overwrite."""
    if not source.processed:
        source.callbacks.append(lambda event: target.triggered or target.trigger(event))
    elif target.triggered:
        raise RuntimeError(f'{target} has already been triggered')
    else:
        target.trigger(source)


# ---- numbers

def has(condition, event):
    """1 where the condition has happened and has the event in its value, else 0."""
    return int(condition.processed and condition.ok and condition is not condition.env.nothing and event in condition.value)


def within(low, high):
    """The filter that takes the items from low to high."""
    return lambda item: low <= item <= high


def whole(result):
    """The result of a calculation, which has 64 bits with a sign."""
    if not -2 ** 63 <= result < 2 ** 63:
        raise OverflowError('a result past 64 bits')
    return result


def quotient(a, b):
    """The quotient, towards zero."""
    size = abs(a) // abs(b)
    return whole(size if (a < 0) == (b < 0) else -size)


def remainder(a, b):
    """The remainder, with the sign of a."""
    return a - b * quotient(a, b)
