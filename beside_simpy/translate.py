"""Prints a scenario as the SimPy program that does the same:  translate.py TEXT

The text has to be a scenario: what `simq check` does not answer by `ok` is not translated. The program runs where SimPy is
installed and `traced.py` and `pcg64.py` are beside it.
"""
import keyword
import re
import sys

# What a program may take from `traced.py`.
SHARED = ['Environment', 'Failure', 'PreemptiveResource', 'cancel', 'chain', 'has', 'kind_and_value', 'number',
          'priority_item', 'quotient', 'remainder', 'whole', 'within']

# Names that a program has for itself.
RESERVED = set(keyword.kwlist + SHARED + 'simpy env thrown range int len min max Exception'.split())

RESOURCES = ('resource', 'priority', 'preemptive', 'container', 'store', 'pstore', 'fstore', 'event')

CALCULATIONS = {
    '+': 'whole({} + {})', '-': 'whole({} - {})', '*': 'whole({} * {})', '/': 'quotient({}, {})', '%': 'remainder({}, {})',
    'min': 'min({}, {})', 'max': 'max({}, {})', '<': 'int({} < {})', '<=': 'int({} <= {})', '=': 'int({} == {})',
}


def is_assignment(words):
    """Whether the line is `x = ..`."""
    return len(words) > 2 and words[1] == '=' and words[0] not in ('let', 'with')


def given_by(words):
    """The variables that a line gives, `val` among them."""
    if is_assignment(words):
        return words[:1]
    if words[0] in ('let', 'count', 'has', 'draw', 'with'):
        return words[1:2]
    if words[0] == 'catch':
        return words[1:3]
    return ['val'] if words[0] in ('timeout', 'wait', 'put', 'get') else []


def used_by(words):
    """The words of a line among which the variables are that it uses."""
    given = given_by(words)
    return words[1:] if given == ['val'] or is_assignment(words) else words[1 + len(given):]


def holds_event(words):
    """Whether the variable that a line gives holds an event, and no number."""
    return is_assignment(words) or words[0] == 'with'


def python_names(names, taken):
    """A name in Python for each of these names, such that none is taken."""
    found = {}
    for name in names:
        python = name
        while python in taken or (python != name and python in names):
            python += '_'
        found[name] = python
    return found


def opens_block(words):
    """Whether the line begins a block, which an `end` ends."""
    return words[0] in ('with', 'loop', 'repeat', 'if', 'try')


def lines_of_process(lines):
    """The lines of the process that has just begun, without its `end`."""
    depth = 1
    for words in lines:
        depth += opens_block(words) - (words == ['end'])
        if depth == 0:
            return
        yield words


class NoProgram(Exception):
    """There is no program for a scenario; the message says why."""


class Text:
    """What a text declares, and the lines of its processes."""

    def __init__(self, text):
        self.head, self.declared, self.ports, self.processes, self.starts, self.arrivals = {}, {}, {}, {}, [], []
        lines = (line.split('#')[0].split() for line in text.splitlines())
        lines = filter(None, lines)
        for words in lines:
            if words[0] == 'poster':
                break
            self.take(words, lines)
        self.names = python_names(list(self.declared) + list(self.processes), RESERVED)

    def take(self, words, lines):
        """Takes a line of the text, and, where a process begins, its lines."""
        if words[0] == 'process':
            self.processes[words[1]] = [words] + list(lines_of_process(lines))
        elif words[0] == 'start':
            self.starts.append(words)
        elif words[0] == 'after':
            self.arrivals.append(words)
        elif words[0] == 'port':
            self.ports[words[1]] = words[2]
        elif words[0] in RESOURCES:
            self.declared[words[1]] = words
        else:
            self.head[words[0]] = words

    def kind(self, resource):
        """The word that declares a resource."""
        return self.declared[resource][0]

    def is_event(self, word):
        """Whether the word is a declared event."""
        return word in self.declared and self.kind(word) == 'event'


class Process:
    """A process as a function of Python."""

    def __init__(self, text, lines):
        self.text = text
        (_, self.word, *parameters), *self.lines = lines
        self.classes = {}
        for parameter in parameters:
            name, _, kind = parameter.partition(':')
            self.classes[name] = kind != ''
        self.parameters = list(self.classes)
        for words in self.lines:
            for name in given_by(words):
                self.classes.setdefault(name, holds_event(words))
        self.uses_val = any('val' in words for words in self.lines)
        self.classes.setdefault('val', False)
        self.names = python_names(list(self.classes), RESERVED | set(text.names.values()))
        self.names.update({'now': 'env.now', 'val': 'val', 'me': 'env.active_process'})
        self.written = []
        self.blocks = []
        self.scopes = {}

    # ---- words

    def number(self, word):
        """A literal, `now`, `val` or a variable."""
        return str(int(word)) if word[0] in '-0123456789' else self.names[word]

    def numbers(self, words):
        """Several of these."""
        return [self.number(word) for word in words]

    def event(self, word):
        """A declared event, `me` or a variable."""
        return self.text.names[word] if self.text.is_event(word) else self.names[word]

    def events(self, words):
        """A list of these."""
        return ', '.join(self.event(word) for word in words)

    def argument(self, word):
        """A number or an event."""
        return self.number(word) if word[0] in '-0123456789' else self.event(word)

    def resource(self, word):
        """A declared resource."""
        return self.text.names[word]

    # ---- lines

    def write(self, line):
        """Appends a line at the present depth."""
        self.written.append('    ' * (len(self.blocks) + 1) + line)

    def wait(self, event):
        """Waits for the event; `val` is its value, where the process uses that."""
        self.write(f'val = number((yield {event}))' if self.uses_val else f'yield {event}')

    def close(self):
        """Ends the innermost block, or a part of it, which may be empty."""
        if self.written[-1].endswith(':'):
            self.write('pass')
        return self.blocks.pop()

    def open(self, line, block):
        """Begins a block."""
        self.write(line)
        self.blocks.append(block)

    def uses(self):
        """For each line and each variable in it: the variable, whether the line only gives it, and the blocks around it."""
        blocks = 0
        around = []
        for words in self.lines:
            if words[0] in ('end', 'else', 'catch'):
                around = around[:-1]
            if words[0] in ('else', 'catch'):
                blocks += 1
                around = around + [blocks]
            given, others = given_by(words), used_by(words)
            for name in self.classes:
                if name in given or name in others:
                    yield name, name not in others, around
            if opens_block(words):
                blocks += 1
                around = around + [blocks]

    def not_surely_given(self):
        """The variables that may be used before a line gives them. The others have all their uses below the first line
        that gives them, in the same block."""
        first = {}
        unsure = set()
        for name, is_given, around in self.uses():
            given, block = first.setdefault(name, (is_given, around))
            if not given or around[:len(block)] != block:
                unsure.add(name)
        return [name for name in self.classes
                if name in unsure and name not in self.parameters and (name != 'val' or self.uses_val)]

    def function(self):
        """The lines of the function."""
        for name in self.not_surely_given():
            self.write(f'{self.names[name]} = {"env.nothing" if self.classes[name] else 0}')
        for words in self.lines:
            self.statement(words)
        if not any('yield' in line.split() or '(yield' in line for line in self.written):
            self.write('yield from ()')
        parameters = ', '.join(self.names[name] for name in self.parameters)
        return [f'def {self.text.names[self.word]}({parameters}):'] + self.written

    def statement(self, words):
        """Writes a statement: the method has its first word, or the one after the sign of equality."""
        if is_assignment(words):
            value = getattr(self, 'new_' + words[2])(*words[3:])
            self.write(f'{self.names[words[0]]} = {value}')
        else:
            getattr(self, 'do_' + words[0])(*words[1:])

    # ---- what makes an event

    def new_timeout(self, delay, value=None):
        given = '' if value is None else f', {self.number(value)}'
        return f'env.timeout({self.number(delay)}{given})'

    def new_event(self):
        return 'env.event()'

    def new_all(self, *events):
        return f'env.all_of([{self.events(events)}])'

    def new_any(self, *events):
        return f'env.any_of([{self.events(events)}])'

    def new_spawn(self, process, *arguments):
        return f'env.process({self.text.names[process]}({", ".join(map(self.argument, arguments))}))'

    def new_put(self, resource, *values):
        given = ', '.join(self.numbers(values))
        if self.text.kind(resource) == 'pstore':
            given = 'priority_item({1}, {0})'.format(*self.numbers(values))
        return f'{self.resource(resource)}.put({given})'

    def new_get(self, resource, *values):
        given = ', '.join(self.numbers(values))
        if self.text.kind(resource) == 'fstore':
            given = f'within({given})'
        return f'{self.resource(resource)}.get({given})'

    # ---- statements that wait

    def do_timeout(self, delay):
        self.wait(self.new_timeout(delay))

    def do_wait(self, event):
        self.wait(self.event(event))

    def do_put(self, *words):
        self.wait(self.new_put(*words))

    def do_get(self, *words):
        self.wait(self.new_get(*words))

    # ---- statements that do not

    def do_let(self, name, _, a, operator=None, b=None):
        value = self.number(a)
        if operator is not None:
            value = CALCULATIONS[operator].format(value, self.number(b))
        self.write(f'{self.names[name]} = {value}')

    def do_log(self, value):
        self.write(f'env.log({self.number(value)})')

    def do_draw(self, name, low, high):
        self.write(f'{self.names[name]} = env.draw({self.number(low)}, {self.number(high)})')

    def do_count(self, name, resource):
        held = {'container': '{}.level', 'store': 'len({}.items)', 'pstore': 'len({}.items)', 'fstore': 'len({}.items)'}
        value = held.get(self.text.kind(resource), '{}.count').format(self.resource(resource))
        self.write(f'{self.names[name]} = {value}')

    def do_has(self, name, condition, event):
        self.write(f'{self.names[name]} = has({self.names[condition]}, {self.event(event)})')

    def do_spawn(self, *words):
        self.write(self.new_spawn(*words))

    def do_succeed(self, event, value):
        self.write(f'{self.event(event)}.succeed({self.number(value)})')

    def do_fail(self, event, code):
        self.write(f'{self.event(event)}.fail(Failure({self.number(code)}))')

    def do_chain(self, source, target):
        self.write(f'chain({self.event(source)}, {self.event(target)})')

    def do_interrupt(self, process, cause):
        self.write(f'{self.event(process)}.interrupt({self.number(cause)})')

    def do_drop(self, process, value):
        self.write(f'{self.event(process)}.drop({self.number(value)})')

    def do_release(self, request):
        self.write(f'{self.scopes[request]}.release({self.names[request]})')

    def do_cancel(self, move):
        self.write(f'cancel({self.names[move]})')

    def do_raise(self, code):
        self.write(f'raise Failure({self.number(code)})')

    def do_finish(self, value):
        self.write(f'return {self.number(value)}')

    def do_break(self):
        self.write('break')

    # ---- blocks

    def do_with(self, name, _, __, resource, priority=None, preference=None):
        given = ''
        if priority is not None:
            given = f'priority={self.number(priority)}'
        if preference is not None:
            given += f', preempt={preference == "preempt"}'
        self.scopes[name] = self.resource(resource)
        self.open(f'with {self.resource(resource)}.request({given}) as {self.names[name]}:', 'with')

    def do_loop(self):
        self.open('while True:', 'loop')

    def do_repeat(self, times):
        self.open(f'for _ in range({self.number(times)}):', 'repeat')

    def do_if(self, test):
        self.open(f'if {self.number(test)}:', 'if')

    def do_else(self):
        self.close()
        self.open('else:', 'if')

    def do_try(self):
        self.open('try:', 'try')

    def do_catch(self, kind, value):
        self.close()
        self.open('except Exception as thrown:', 'catch')
        self.write(f'{self.names[kind]}, {self.names[value]} = kind_and_value(thrown)')

    def do_end(self):
        self.close()


def declaration(text, words):
    """The line that makes a resource or an event."""
    kind, name, *limits = words
    python = text.names[name]
    if kind == 'event':
        return f'{python} = env.event()'
    if kind == 'container':
        capacity = '2 ** 62' if limits[0] == 'inf' else int(limits[0])
        return f'{python} = simpy.Container(env, capacity={capacity}, init={int(limits[1])})'
    made = {'resource': 'simpy.Resource', 'priority': 'simpy.PriorityResource', 'preemptive': 'PreemptiveResource',
            'store': 'simpy.Store', 'pstore': 'simpy.PriorityStore', 'fstore': 'simpy.FilterStore'}[kind]
    capacity = '' if limits[0] == 'inf' else f', capacity={int(limits[0])}'
    return f'{python} = {made}(env{capacity})'


def start(text, words):
    """The line that makes a process before the run."""
    _, name, *arguments = words
    given = ', '.join(text.names[word] if word in text.names else str(int(word)) for word in arguments)
    return f'env.process({text.names[name]}({given}))'


def arrival(text, words):
    """The line that says what arrives at a port."""
    _, after, _, _, port, value = words
    return f'env.arrive({int(after)}, {port!r}, {text.names[text.ports[port]]}, {int(value)})'


def run(text, words):
    """The last line. SimPy makes a float of the time at which a run ends."""
    if words[1] == 'empty':
        return 'env.run()'
    if words[1] == 'event':
        return f'env.run(until={text.names[words[2]]})'
    time = int(words[1])
    if int(float(time)) != time:
        raise NoProgram('an end at a time that no float is')
    return f'env.run(until={time})'


def imports(lines):
    """The first lines: what the others name."""
    named = set(re.findall(r'\w+', '\n'.join(lines)))
    first = ['import simpy'] if 'simpy' in named else []
    return first + ['from traced import ' + ', '.join(name for name in SHARED if name in named), '']


def translate(scenario):
    """The program for a scenario."""
    text = Text(scenario)
    seed = int(text.head['seed'][1]) if 'seed' in text.head else ''
    lines = [f'env = Environment({seed})']
    lines += [declaration(text, words) for words in text.declared.values()]
    for process in text.processes.values():
        lines += ['', ''] + Process(text, process).function()
    lines += ['', '']
    lines += [start(text, words) for words in text.starts]
    lines += [arrival(text, words) for words in text.arrivals]
    lines.append(run(text, text.head['until']))
    return '\n'.join(imports(lines) + lines) + '\n'


def main():
    """Prints the program for the text that the first word names."""
    if len(sys.argv) != 2:
        sys.exit(__doc__)
    with open(sys.argv[1], encoding='latin-1') as file:
        print(translate(file.read()), end='')


if __name__ == '__main__':
    main()
