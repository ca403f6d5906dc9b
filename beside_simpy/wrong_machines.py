"""Shows that the comparison finds mistakes:  wrong_machines.py SIMQ [SEED]

Each wrong machine is a copy of SimPy in which one line is another. Random scenarios are run by it and by simq until the
traces differ. Printed is how many texts that took. The status is 1 where a wrong machine was not found.
"""
import importlib.util
import multiprocessing
import os
import shutil
import sys
import tempfile
from collections import namedtuple

from compare import check_text, random_row, random_sources, require

MOST = 20000

# The file, the line as it is (or with its neighbours, where it is there twice), and the line as it is made.
Wrong = namedtuple('Wrong', 'name file right wrong')

WRONG = [
    Wrong('of events that are due at once the last scheduled comes first', 'core.py',
          'next(self._eid), event))', '-next(self._eid), event))'),
    Wrong('the end at a time is not urgent', 'core.py',
          'self.schedule(until, URGENT, ', 'self.schedule(until, NORMAL, '),
    Wrong('the begin of a process is not urgent', 'events.py',
          '        env.schedule(self, URGENT)', '        env.schedule(self, NORMAL)'),
    Wrong('an interruption is not urgent', 'events.py',
          '        self.env.schedule(self, URGENT)', '        self.env.schedule(self, NORMAL)'),
    Wrong('who is interrupted still goes on with what it waited for', 'events.py',
          'self.process._target.callbacks.remove(self.process._resume)', 'pass'),
    Wrong('a failure that a process waits for still ends the run', 'events.py',
          '                    event._defused = True\n', '                    pass\n'),
    Wrong('a failed member of a condition still ends the run', 'events.py',
          '            event._defused = True\n            self.fail', '            self.fail'),
    Wrong('a condition that has happened goes on to count', 'events.py',
          '        self._remove_check_callbacks()', '        pass'),
    Wrong('a condition that has happened leaves nested ones to count', 'events.py',
          '                event._remove_check_callbacks()', '                pass'),
    Wrong('a condition does not collect what nested ones have', 'events.py',
          'event._populate_value(value)', 'pass'),
    Wrong('a condition on all happens with the last but one', 'events.py',
          'return len(events) == count', 'return count >= max(len(events) - 1, 1)'),
    Wrong('a later put or request waits in front of an earlier one', 'resources/base.py',
          'resource.put_queue.append(self)', 'resource.put_queue.insert(0, self)'),
    Wrong('the requests are tried after a cancel', 'resources/base.py',
          'self.resource.put_queue.remove(self)',
          'self.resource.put_queue.remove(self); self.resource._trigger_put(None)'),
    Wrong('the gets are tried after a cancel', 'resources/base.py',
          'self.resource.get_queue.remove(self)',
          'self.resource.get_queue.remove(self); self.resource._trigger_get(None)'),
    Wrong('puts are tried beyond the first that is not served', 'resources/base.py',
          "Put queue invariant violated')\n\n            if not proceed:",
          "Put queue invariant violated')\n\n            if False:"),
    Wrong('no gets are tried after a put', 'resources/base.py',
          'self.callbacks.append(resource._trigger_get)', 'pass'),
    Wrong('of equal users the first is preempted', 'resources/resource.py',
          'sorted(self.users, key=lambda e: e.key)[-1]', 'max(self.users, key=lambda e: e.key)'),
    Wrong('a request preempts a user of the same priority', 'resources/resource.py',
          'if preempt.key > event.key:', 'if preempt.key[0] >= event.key[0]:'),
    Wrong('a preempted process gets the time of its request', 'resources/resource.py',
          'usage_since=preempt.usage_since', 'usage_since=preempt.time'),
    Wrong('a request that does not preempt waits like one that does', 'resources/resource.py',
          'self.key = (self.priority, self.time, not self.preempt)', 'self.key = (self.priority, self.time)'),
    Wrong('a container is never quite full', 'resources/container.py',
          'if self._capacity - self._level >= event.amount:', 'if self._capacity - self._level > event.amount:'),
    Wrong('one get of a container is served at a time', 'resources/container.py',
          'self._level -= event.amount\n            event.succeed()\n            return True',
          'self._level -= event.amount\n            event.succeed()\n            return False'),
    Wrong('a store gives the last item first', 'resources/store.py', 'self.items.pop(0)', 'self.items.pop()'),
    Wrong('one get of a filter store is tried at a time', 'resources/store.py',
          '                break\n        return True', '                break\n        return False'),
]


def write_copy(wrong, folder):
    """Writes a copy of SimPy with the wrong line into the folder."""
    source = os.path.dirname(importlib.util.find_spec('simpy').origin)
    shutil.copytree(source, os.path.join(folder, 'simpy'), ignore=shutil.ignore_patterns('__pycache__'))
    path = os.path.join(folder, 'simpy', wrong.file)
    with open(path, encoding='utf-8') as file:
        code = file.read()
    if code.count(wrong.right) != 1:
        sys.exit(f'This SimPy has not once the line of: {wrong.name}')
    with open(path, 'w', encoding='utf-8') as file:
        file.write(code.replace(wrong.right, wrong.wrong))


def texts_until_found(job):
    """How many random scenarios it took until the traces differed, or None. SimPy is not imported before this."""
    simq, seed, wrong = job
    with tempfile.TemporaryDirectory() as folder:
        write_copy(wrong, folder)
        sys.path.insert(0, folder)
        for tried, source in enumerate(random_sources(MOST, seed, None), 1):
            if check_text(simq, random_row(*source)).word == 'different':
                return wrong, tried
    return wrong, None


def main():
    """Prints how many texts each wrong machine took."""
    if len(sys.argv) not in (2, 3):
        sys.exit(__doc__)
    simq, seed = sys.argv[1], (sys.argv[2:] or ['0'])[0]
    require(simq)
    jobs = [(simq, seed, wrong) for wrong in WRONG]
    missed = 0
    with multiprocessing.Pool(maxtasksperchild=1) as pool:
        for wrong, tried in pool.imap(texts_until_found, jobs):
            print(f'{tried or "not found":>9}  {wrong.name}', flush=True)
            missed += tried is None
    sys.exit(1 if missed else 0)


if __name__ == '__main__':
    main()
