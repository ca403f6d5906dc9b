"""Prints a random scenario:  random_texts.py SEED [FLAVOUR]

The same seed and flavour give the same text. All loops are bounded, times and capacities are small, so that much happens at
once, and all forms of the language come up. A flavour says which of them come up most.
"""
import random
import sys

# What a flavour has more of: resources of these kinds, and these statements.
MORE = {
    'queues': (['resource'], ['with', 'count', 'release', 'timeout']),
    'priority': (['priority'], ['with', 'count', 'release', 'timeout']),
    'preemption': (['preemptive'], ['with', 'try', 'timeout', 'release']),
    'conditions': ([], ['condition', 'has', 'timer', 'fresh', 'trigger', 'wait', 'try']),
    'containers': (['container'], ['put', 'get', 'move', 'cancel', 'count']),
    'stores': (['store', 'pstore', 'fstore'], ['put', 'get', 'move', 'cancel', 'wait', 'timeout']),
    'interrupts': (['resource', 'store'], ['named_spawn', 'interrupt', 'try', 'timeout']),
    'chains': ([], ['chain', 'fresh', 'trigger', 'wait', 'condition']),
    'processes': ([], ['spawn', 'named_spawn', 'wait', 'finish', 'condition']),
    'drops': (['resource', 'preemptive', 'container'], ['named_spawn', 'drop', 'with', 'timeout', 'try']),
    'errors': (['container'], ['let', 'raise', 'try', 'catch_error', 'log']),
    'draws': (['resource'], ['draw', 'timeout', 'if', 'log', 'with']),
    'arrivals': (['resource', 'store'], ['timeout', 'with', 'put', 'get', 'log']),
    'mixed': ([], []),
}
FLAVOURS = list(MORE)

RESOURCES = ['resource', 'priority', 'preemptive', 'container', 'store', 'pstore', 'fstore']
SLOTS, MOVERS = RESOURCES[:3], RESOURCES[3:]
STATEMENTS = [
    'let', 'log', 'timeout', 'draw', 'raise', 'finish', 'loop', 'repeat', 'if', 'try', 'timer', 'fresh', 'wait', 'trigger',
    'condition', 'has', 'spawn', 'named_spawn', 'interrupt', 'drop', 'with', 'release', 'count', 'put', 'get', 'move', 'cancel',
    'chain', 'catch_error',
]
BLOCKS = ['loop', 'repeat', 'if', 'try', 'with', 'catch_error']
SELDOM = {
    'raise': 0.1, 'finish': 0.1, 'drop': 0.4, 'catch_error': 0.4, 'loop': 0.5, 'let': 0.5, 'log': 0.5,
}
OPERATORS = ['+', '-', '*', '/', '%', 'min', 'max', '<', '<=', '=']
EXTREMES = ['9223372036854775807', '-9223372036854775808', '4611686018427387904', '-1']
LETTERS = {'number': 'a', 'event': 'e', 'cond': 'c', 'proc': 'p', 'request': 'r', 'move': 'm'}


class Scenario:
    """A random text."""

    def __init__(self, seed, flavour):
        self.random = random.Random(f'{seed} {flavour}')
        self.flavour = flavour
        more_resources, more_statements = MORE[flavour]
        self.resource_weights = [6 if kind in more_resources else 1 for kind in RESOURCES]
        self.statement_weights = [(4 if name in more_statements else 1) * SELDOM.get(name, 1) for name in STATEMENTS]
        self.version = 2 if flavour == 'chains' or self.chance(0.2) else 1
        self.resources = [(f'q{at}', self.random.choices(RESOURCES, self.resource_weights)[0])
                          for at in range(self.random.randint(1, 3))]
        self.events = [f'g{at}' for at in range(self.random.randint(1, 3))]
        self.processes = [(f'w{at}', self.parameters(at)) for at in range(self.random.randint(2, 4))]

    def chance(self, of):
        """Whether something happens that has this chance."""
        return self.random.random() < of

    def parameters(self, at):
        """The classes of the parameters of a process. The first process can always be started."""
        if self.flavour == 'arrivals' and at == 1:
            return ['number']
        classes = ['number', 'event', 'proc'] if at > 0 else ['number', 'event']
        return [self.random.choice(classes) for _ in range(self.random.randint(0, 2))]

    def small(self):
        """A small number, mostly from 0 to 4."""
        return str(self.random.choice([0, 0, 1, 1, 1, 2, 2, 3, 4, -1 if self.chance(0.1) else 5]))

    def declaration(self, name, kind):
        """The line of a resource."""
        if kind == 'container':
            capacity = self.random.choice(['inf', '3', '4', '6'])
            return f'container {name} {capacity} {self.random.randint(0, 3)}'
        least = 'inf' if kind.endswith('store') and self.chance(0.3) else self.random.choice([1, 1, 1, 2, 2, 3])
        return f'{kind} {name} {least}'

    def until(self):
        """The line that says when the run ends."""
        if self.version == 2 and self.chance(0.15):
            return f'until event {self.random.choice(self.events)}'
        return 'until empty' if self.chance(0.8) else f'until {self.random.randint(2, 20)}'

    def starts(self):
        """The lines of the starts. Each process that a text can start is started once or twice."""
        for name, classes in self.processes:
            if 'proc' not in classes:
                for _ in range(self.random.choice([1, 2, 2, 3, 4])):
                    given = [self.random.choice(self.events) if kind == 'event' else self.small() for kind in classes]
                    yield ' '.join(['start', name] + given)

    def journal(self):
        """The lines of what arrives."""
        if self.flavour == 'arrivals':
            yield 'journal'
            after = 0
            for serial in range(self.random.randint(1, 6)):
                after += self.random.choice([0, 0, 1, 3, 8, 100])
                yield f'after {after} 0 {serial} inn {self.small()}'

    def lines(self):
        """All lines of the text."""
        yield f'scenario {self.version}'
        yield self.until()
        if self.chance(0.5):
            yield f'seed {self.random.randint(0, 99)}'
        for name, kind in self.resources:
            yield self.declaration(name, kind)
        for name in self.events:
            yield f'event {name}'
        if self.flavour == 'arrivals':
            yield 'port inn w1'
        for at in range(len(self.processes)):
            yield from Process(self, at).text()
        yield from self.starts()
        yield from self.journal()


class Process:
    """A random process."""

    def __init__(self, scenario, at):
        self.scenario = scenario
        self.random = scenario.random
        self.chance = scenario.chance
        self.name, self.classes = scenario.processes[at]
        self.later = scenario.processes[at + 1:]
        self.given = {kind: [] for kind in LETTERS}
        self.ahead = []
        self.members = {}
        self.counters = 0
        self.spawns = 0
        self.lines = []
        self.open = []
        self.loops = 0
        self.depth = 0
        self.parameters = []
        for place, kind in enumerate(self.classes):
            name = f'x{place}'
            self.given[kind].append(name)
            self.parameters.append(name if kind == 'number' else f'{name}:{kind}')

    def text(self):
        """The lines of the process."""
        yield ' '.join(['process', self.name] + self.parameters)
        for _ in range(self.random.randint(1, 3)):
            if self.chance(0.85):
                self.do_try()
            else:
                self.block(self.random.randint(1, 3))
        for kind, name in self.ahead:
            self.give(kind, name)
        yield from self.lines
        yield 'end'

    def write(self, *words):
        """Appends a line."""
        self.lines.append(' '.join(words))

    # ---- words

    def fresh(self, kind):
        """A variable of this class that a line is about to give: a new one, or one that was given before."""
        free = [name for name in self.given[kind] if name[0] == LETTERS[kind] and name not in self.open]
        if free and (self.chance(0.4) or sum(map(len, self.given.values())) > 40):
            return self.random.choice(free)
        name = f'{LETTERS[kind]}{len(self.given[kind])}'
        self.given[kind].append(name)
        return name

    def variable(self, kind):
        """A variable that was given, or, seldom, one that is given further down. None where there is no such."""
        needed = {'proc': [], 'request': SLOTS, 'move': MOVERS}.get(kind, RESOURCES)
        if self.chance(0.02) and self.resource(*needed)[0]:
            name = f'{LETTERS[kind]}late'
            if (kind, name) not in self.ahead:
                self.ahead.append((kind, name))
            return name
        recent = self.given[kind][-4:]
        return self.random.choice(recent) if recent else None

    def give(self, kind, name):
        """Gives the variable something."""
        made = {'number': f'let {name} = 1', 'event': f'{name} = event', 'cond': f'{name} = all'}
        if kind in made:
            self.write(made[kind])
        elif kind == 'request':
            self.with_request(name)
        else:
            self.move(name)

    def number(self):
        """A literal, `now`, `val` or a variable."""
        if self.chance(0.6):
            return self.scenario.small()
        if self.chance(0.3):
            return self.random.choice(['now', 'val'])
        return self.variable('number') or self.scenario.small()

    def event(self):
        """An event of any class."""
        kind = self.random.choice(['event', 'event', 'cond', 'proc', 'request', 'move'])
        if self.chance(0.03):
            return 'me'
        return self.variable(kind) or self.random.choice(self.scenario.events)

    def plain_event(self):
        """An event that a process may trigger."""
        return self.chance(0.6) and self.variable('event') or self.random.choice(self.scenario.events)

    def resource(self, *kinds):
        """A resource of one of these kinds, and its kind; (None, None) where there is none."""
        found = [(name, kind) for name, kind in self.scenario.resources if kind in kinds]
        return self.random.choice(found) if found else (None, None)

    # ---- statements

    def block(self, count):
        """A number of statements."""
        for _ in range(count):
            name = self.random.choices(STATEMENTS, self.scenario.statement_weights)[0]
            if self.depth >= 3 and name in BLOCKS:
                name = 'timeout'
            getattr(self, 'do_' + name)()

    def inner(self):
        """The statements of a block."""
        self.depth += 1
        self.block(self.random.randint(1, 4))
        self.depth -= 1

    def do_let(self):
        a, b = self.number(), self.number()
        if self.chance(0.05):
            a = self.random.choice(EXTREMES)
        words = [a] if self.chance(0.1) else [a, self.random.choice(OPERATORS), b]
        self.write('let', self.fresh('number'), '=', *words)

    def do_log(self):
        self.write('log', self.number())

    def do_timeout(self):
        self.write('timeout', self.number())

    def do_draw(self):
        low = self.random.randint(-1, 2)
        high = self.number() if self.chance(0.1) else str(low + self.random.choice([0, 1, 2, 3, 5]))
        self.write('draw', self.fresh('number'), str(low), high)

    def do_raise(self):
        self.write('raise', self.number())

    def do_finish(self):
        self.write('finish', self.number())

    def do_timer(self):
        name = self.fresh('event')
        self.write(name, '= timeout', self.number(), self.number())
        return name

    def do_fresh(self):
        self.write(self.fresh('event'), '= event')

    def do_wait(self):
        self.write('wait', self.event())
        if self.chance(0.5):
            self.write('log val')

    def do_trigger(self):
        self.write('fail' if self.chance(0.15) else 'succeed', self.plain_event(), self.number())

    def do_condition(self):
        members = [self.member() for _ in range(self.random.choice([0, 1, 2, 2, 2, 3, 3]))]
        if members and self.chance(0.06):
            wide = self.fresh('cond')
            self.write(wide, '= all', *(members * 16)[:16])
            members = [wide] * self.random.choice([3, 4])
        name = self.fresh('cond')
        self.write(name, '=', self.random.choice(['all', 'any']), *members)
        if self.chance(0.6):
            self.write('wait', name)
        nested = [inner for member in members for inner in self.members.get(member, [])]
        self.members[name] = (members + nested)[-6:]
        for member in self.members[name][-3:]:
            if self.chance(0.4):
                self.tell_has(name, member)

    def member(self):
        """A member for a condition: a new timeout, a condition, or any event."""
        if self.chance(0.3):
            return self.do_timer()
        return self.chance(0.3) and self.variable('cond') or self.event()

    def do_has(self):
        condition = self.variable('cond')
        if condition:
            self.tell_has(condition, self.event())

    def tell_has(self, condition, event):
        """Logs whether the condition has the event."""
        answer = self.fresh('number')
        self.write('has', answer, condition, event)
        self.write('log', answer)

    def do_chain(self):
        if self.scenario.version == 2:
            source = self.random.choice(['event', 'event', 'cond', 'proc'])
            source = 'me' if self.chance(0.1) else self.variable(source) or self.plain_event()
            self.write('chain', source, self.plain_event())

    # ---- processes

    def spawned(self):
        """The words that spawn a process further down. None where that would be too many, or an argument is not there."""
        if not self.later or self.spawns >= 3 or self.loops > 1:
            return None
        name, classes = self.random.choice(self.later)
        made = {'number': self.number, 'event': self.plain_event,
                'proc': lambda: self.chance(0.7) and self.variable('proc') or 'me'}
        self.spawns += 1
        return ['spawn', name] + [made[kind]() for kind in classes]

    def do_spawn(self):
        words = self.spawned()
        if words:
            self.write(*words)

    def do_named_spawn(self):
        words = self.spawned()
        if words:
            self.write(self.fresh('proc'), '=', *words)

    def process(self):
        """A process that this one knows."""
        return 'me' if self.chance(0.05) else self.variable('proc')

    def to_process(self, word):
        """A line for another process, mostly so that its error is caught."""
        process = self.process()
        if process:
            guarded = self.chance(0.7)
            if guarded:
                self.write('try')
            self.write(word, process, self.number())
            if guarded:
                self.catch()
                self.write('end')

    def do_interrupt(self):
        self.to_process('interrupt')

    def do_drop(self):
        self.to_process('drop')

    # ---- resources

    def do_with(self):
        if self.resource(*SLOTS)[0]:
            self.with_request(self.fresh('request'))

    def with_request(self, name):
        """A `with`, whose request is mostly waited for."""
        resource, kind = self.resource(*SLOTS)
        words = [resource]
        if kind != 'resource':
            words.append(self.number() if self.chance(0.3) else self.scenario.small())
        if kind == 'preemptive':
            words.append(self.random.choice(['preempt', 'preempt', 'wait']))
        self.write('with', name, '= request', *words)
        self.open.append(name)
        if self.chance(0.8):
            self.write('wait', name)
        self.inner()
        self.open.remove(name)
        self.write('end')

    def do_release(self):
        if self.open:
            self.write('release', self.random.choice(self.open))

    def do_count(self):
        resource, _ = self.resource(*RESOURCES)
        name = self.fresh('number')
        self.write('count', name, resource)
        self.write('log', name)

    def amount(self):
        """An amount, seldom one that is refused."""
        return self.number() if self.chance(0.1) else str(self.random.randint(1, 4))

    def moved(self, word):
        """The words of a put or get. None where there is nothing to put into."""
        resource, kind = self.resource(*MOVERS)
        if resource is None:
            return None
        if kind == 'container':
            return [word, resource, self.amount()]
        if word == 'put':
            return ['put', resource, self.number()] + ([self.scenario.small()] if kind == 'pstore' else [])
        low = self.random.randint(0, 3)
        return ['get', resource] + ([str(low), str(low + self.random.randint(-1, 3))] if kind == 'fstore' else [])

    def do_put(self):
        words = self.moved('put')
        if words:
            self.write(*words)

    def do_get(self):
        words = self.moved('get')
        if words:
            self.write(*words)
            if self.chance(0.5):
                self.write('log val')

    def do_move(self):
        if self.moved('put'):
            name = self.fresh('move')
            self.move(name)
            if self.chance(0.3):
                self.write('timeout', self.scenario.small())
                self.write('cancel', name)

    def move(self, name):
        """Makes a put or get that is not waited for."""
        words = self.moved(self.random.choice(['put', 'put', 'get']))
        self.write(name, '=', *words)

    def do_cancel(self):
        move = self.variable('move')
        if move:
            self.write('cancel', move)

    # ---- blocks

    def do_loop(self):
        self.counters += 1
        counter, is_over = f'n{self.counters}', f'o{self.counters}'
        self.write('let', counter, '= 0')
        self.write('loop')
        self.write('let', counter, '=', counter, '+ 1')
        self.write('let', is_over, '=', str(self.random.randint(1, 3)), '<', counter)
        self.write('if', is_over)
        self.write('break')
        self.write('end')
        self.turns()

    def do_repeat(self):
        times = str(self.random.randint(0, 3))
        if self.chance(0.2):
            times = self.fresh('number')
            self.write('let', times, '=', self.number(), 'min 3')
        self.write('repeat', times)
        self.turns()

    def turns(self):
        """The rest of a loop, which a `break` may end."""
        self.loops += 1
        self.inner()
        if self.chance(0.2):
            self.write('if', self.number())
            self.write('break')
            self.write('end')
        self.loops -= 1
        self.write('end')

    def do_if(self):
        test = self.number()
        if self.chance(0.5):
            words = [self.number(), self.random.choice(OPERATORS[-3:]), self.number()]
            test = self.fresh('number')
            self.write('let', test, '=', *words)
        self.write('if', test)
        self.inner()
        if self.chance(0.5):
            self.write('else')
            self.inner()
        self.write('end')

    def do_try(self):
        self.write('try')
        self.inner()
        if self.chance(0.5):
            self.inner()
        self.catch()
        if self.chance(0.3):
            self.inner()
        self.write('end')

    def catch(self):
        """The second part of a `try`, which logs what was caught."""
        kind, value = self.fresh('number'), self.fresh('number')
        self.write('catch', kind, value)
        self.write('log', kind)
        self.write('log', value)

    def do_catch_error(self):
        self.write('try')
        name = self.fresh('number')
        self.write('let', name, '=', self.number())
        self.write(self.random.choice([
            f'timeout {self.random.choice(EXTREMES)}', f'let {name} = {self.random.choice(EXTREMES)} * 2',
            f'let {name} = {name} % 0', f'draw {name} 2 1', 'interrupt me 1', f'drop me {name}', f'raise {name}']))
        self.catch()
        self.write('end')


def random_text(seed, flavour):
    """The text of a seed and a flavour."""
    return '\n'.join(Scenario(seed, flavour).lines()) + '\n'


def main():
    """Prints the text that the words of the command name."""
    if len(sys.argv) not in (2, 3) or sys.argv[2:] not in [[]] + [[flavour] for flavour in FLAVOURS]:
        sys.exit(f'{__doc__}\nFlavours: {" ".join(FLAVOURS)}')
    print(random_text(sys.argv[1], sys.argv[2] if len(sys.argv) == 3 else 'mixed'), end='')


if __name__ == '__main__':
    main()
