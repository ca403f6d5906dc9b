"""Runs texts by simq and by SimPy, and compares the traces byte for byte.

compare.py SIMQ                             the examples and the worked rows
compare.py SIMQ TEXT..                      these texts
compare.py SIMQ --random 1000 [--seed 7] [--flavour stores]    random scenarios

With `-` in the place of SIMQ the examples and rows are compared with the answers that the project keeps.
"""
import argparse
import contextlib
import importlib.util
import io
import multiprocessing
import os
import signal
import subprocess
import sys
import time
from collections import Counter, namedtuple

from random_texts import FLAVOURS, random_text
from translate import NoProgram, translate
from worked_rows import Row, all_examples, all_rows

LIMIT = '10000000'
SECONDS = 120

# What came of a text: `same`, `different`, or why it was left out; and the lines of both traces.
Outcome = namedtuple('Outcome', 'word simq simpy')


class Enough(BaseException):
    """As many lines as are wanted were printed, or SimPy's run took too long."""


class Lines(io.StringIO):
    """What a program prints, up to a number of lines."""

    def __init__(self, most):
        super().__init__()
        self.left = most

    def write(self, text):
        if self.left != 0:
            super().write(text)
            self.left -= text == '\n'
        if self.left == 0:
            raise Enough


def stop_run(*_):
    """Ends a run of SimPy that took too long."""
    raise Enough


def simpy_trace(text, most=-1):
    """The lines that the translated text prints, up to a number of lines."""
    program = compile(translate(text), 'scenario', 'exec')
    printed = Lines(most)
    signal.signal(signal.SIGALRM, stop_run)
    signal.setitimer(signal.ITIMER_REAL, SECONDS, 1)
    try:
        with contextlib.redirect_stdout(printed):
            exec(program, {'__name__': 'scenario'})
    except Enough:
        pass
    except Exception as error:
        printed.writelines([f'{type(error).__name__}: {error}\n'])
    finally:
        signal.setitimer(signal.ITIMER_REAL, 0)
    return printed.getvalue().splitlines()


def simq_run(simq, text, limit):
    """The status and the lines of a run by simq."""
    run = subprocess.run([simq, 'run', limit], input=text.encode('latin-1'), capture_output=True, check=False)
    return run.returncode, run.stdout.decode('latin-1').splitlines()


def compared(row, status, lines):
    """What comes of a text, for which simq answered these lines."""
    if status not in (0, 4, 5):
        return Outcome('no scenario' if status == 3 else 'no answer of `run`', lines, [])
    if status == 5:
        lines = lines[:-1]
    if not row.is_whole and status == 5:
        return Outcome('an answer without its trace', lines, [])
    try:
        found = simpy_trace(row.text, len(lines) if status == 5 else -1)
    except NoProgram as reason:
        return Outcome(str(reason), lines, [])
    except SyntaxError:
        return Outcome('more nested blocks than Python has', lines, [])
    if not row.is_whole:
        found = found[-len(lines):]
    return Outcome('same' if found == lines else 'different', lines, found)


def check_text(simq, row):
    """Runs a text by both; without simq its answer is that of the row."""
    if simq == '-':
        return compared(row, row.status, row.answer.splitlines())
    status, lines = simq_run(simq, row.text, row.limit)
    return compared(row._replace(is_whole=True), status, lines)


def check_job(job):
    """Makes the text of a job, if it is a random one, and runs it. The traces are handed on where they differ."""
    simq, source = job
    row = source if isinstance(source, Row) else random_row(*source)
    outcome = check_text(simq, row)
    return outcome.word, (row, outcome) if outcome.word == 'different' else None


def random_row(seed, flavour):
    """A random scenario."""
    return Row(f'random text {seed} of {flavour}', LIMIT, random_text(seed, flavour), None, '', True)


# ---- a difference

def first_difference(outcome):
    """The number of the first line that differs, from 0."""
    for at, (one, other) in enumerate(zip(outcome.simq, outcome.simpy)):
        if one != other:
            return at
    return min(len(outcome.simq), len(outcome.simpy))


def print_difference(row, outcome):
    """Prints both traces from the line before the first that differs."""
    at = max(first_difference(outcome) - 1, 0)
    print(f'{row.name} differs at line {at + 2} of the trace')
    for name, lines in (('simq', outcome.simq), ('SimPy', outcome.simpy)):
        print(f'-- {name}')
        print('\n'.join(lines[at:at + 20]))


def ends_of_blocks(lines):
    """Pairs of the first and last line of each block."""
    open_at = []
    for at, words in enumerate(line.split() for line in lines):
        if words and words[0] in ('process', 'with', 'loop', 'repeat', 'if', 'try') and '=' not in words[1:2]:
            open_at.append(at)
        elif words == ['end'] and open_at:
            yield open_at.pop(), at


def smaller_texts(lines):
    """The lines without some of them: many at first, then single ones, then the frames of blocks."""
    size = len(lines) // 2
    while size > 0:
        for at in range(0, len(lines) - size + 1, max(size // 2, 1)):
            yield lines[:at] + lines[at + size:]
        size //= 2
    for first, last in ends_of_blocks(lines):
        yield lines[:first] + lines[last + 1:]
        yield lines[:first] + lines[first + 1:last] + lines[last + 1:]
        if 'catch' in lines[last - 1]:
            yield lines[:first] + lines[first + 1:last - 1] + lines[last + 1:]


def made_smaller(simq, row):
    """The text without lines, as long as the difference stays."""
    lines = row.text.splitlines()
    while True:
        for smaller in smaller_texts(lines):
            if check_text(simq, row._replace(text='\n'.join(smaller) + '\n')).word == 'different':
                lines = smaller
                break
        else:
            return row._replace(text='\n'.join(lines) + '\n')


def report(simq, row, outcome):
    """Prints a difference, and the smallest text found that still has one."""
    print_difference(row, outcome)
    if simq == '-':
        print(f'-- text\n{row.text}', end='')
        return
    small = made_smaller(simq, row)
    print(f'-- the text, made smaller\n{small.text}', end='')
    print_difference(small, check_text(simq, small))


# ---- many texts

def progress(counts, total, begun):
    """Prints how far the comparison is."""
    print(f'{sum(counts.values())} of {total} texts, {counts["same"]} the same, {time.time() - begun:.1f} s', flush=True)


def compare_all(simq, sources, jobs):
    """Compares all texts, and tells whether there was no difference. It stops at the first."""
    counts = Counter()
    begun = time.time()
    with multiprocessing.Pool(jobs) as pool:
        for word, difference in pool.imap_unordered(check_job, ((simq, source) for source in sources), 8):
            counts[word] += 1
            if difference:
                progress(counts, len(sources), begun)
                report(simq, *difference)
                return False
            done = sum(counts.values())
            if done < len(sources) and done % max(len(sources) // 10, 100) == 0:
                progress(counts, len(sources), begun)
    progress(counts, len(sources), begun)
    for word, count in counts.most_common():
        print(f'{count} {word}' if word == 'same' else f'{count} left out: {word}')
    return True


def text_row(path):
    """A text from a file."""
    with open(path, encoding='latin-1') as file:
        return Row(path, LIMIT, file.read(), None, '', True)


def random_sources(count, seed, flavour):
    """The seeds and flavours of random scenarios."""
    flavours = [flavour] if flavour else FLAVOURS
    return [(f'{seed}.{at}', flavours[at % len(flavours)]) for at in range(count)]


def arguments():
    """The words of the command."""
    parser = argparse.ArgumentParser(description=__doc__, formatter_class=argparse.RawDescriptionHelpFormatter)
    parser.add_argument('simq', metavar='SIMQ')
    parser.add_argument('texts', metavar='TEXT', nargs='*')
    parser.add_argument('--random', type=int, metavar='N')
    parser.add_argument('--seed', default='0')
    parser.add_argument('--flavour', choices=FLAVOURS)
    parser.add_argument('--jobs', type=int, default=os.cpu_count())
    return parser.parse_args()


def require(simq):
    """Ends the program where SimPy or simq is not there, and says how to get it."""
    if importlib.util.find_spec('simpy') is None:
        sys.exit('SimPy is not there. On Debian: apt-get install python3-simpy3, and run this by /usr/bin/python3.')
    if simq != '-' and not os.access(simq, os.X_OK):
        sys.exit(f'There is no program {simq}. To build it, in crates/simq: rt run -- run 1000'
                 ' <../../examples/two_clocks.scn; then it is out/simq there.')


def main():
    """Compares what the command names; the status is 1 where there was a difference."""
    given = arguments()
    require(given.simq)
    if given.random:
        sources = random_sources(given.random, given.seed, given.flavour)
    elif given.texts:
        sources = [text_row(path) for path in given.texts]
    else:
        sources = list(all_examples()) + list(all_rows())
    sys.exit(0 if compare_all(given.simq, sources, given.jobs) else 1)


if __name__ == '__main__':
    main()
