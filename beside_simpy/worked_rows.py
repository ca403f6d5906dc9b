"""The worked rows of the project: texts with the answers that its rules give for them."""
import glob
import os
import re
from collections import namedtuple

HERE = os.path.dirname(os.path.abspath(__file__))
FOLDER = os.path.join(HERE, '..', 'crates', 'sim_rows')
EXAMPLES = os.path.join(HERE, '..', 'examples')

Row = namedtuple('Row', 'name limit text status answer is_whole')


def unescaped(line, turn):
    """What a line says, whose backslashes have a meaning."""
    if '\\' not in line:
        return line + '\n'

    def meant(found):
        letter = found.group(1)
        if letter[0] == 'x':
            return chr(int(letter[1:], 16))
        return {'r': '\r', 't': '\t', '#': str(turn)}.get(letter, letter)

    joined = line.endswith('\\') and not line.endswith('\\\\')
    said = re.sub(r'\\(x..|.)', meant, line[:-1] if joined else line)
    return said if joined else said + '\n'


def repeated(lines, times):
    """What a block says that is repeated."""
    if not any('\\#' in line for line in lines):
        return ''.join(unescaped(line, 0) for line in lines) * times
    return ''.join(unescaped(line, turn + 1) for turn in range(times) for line in lines)


def said_by(lines):
    """What the lines of a text or an answer say: files in their places, and blocks as often as they are repeated."""
    said = []
    block = None
    for line in lines:
        if line.startswith('\\file '):
            with open(os.path.join(FOLDER, 'data', line[6:]), encoding='latin-1') as file:
                said.append(file.read())
        elif line.startswith('\\repeat '):
            times, block = int(line[8:]), []
        elif line == '\\end':
            said.append(repeated(block, times))
            block = None
        elif block is not None:
            block.append(line)
        else:
            said.append(unescaped(line, 0))
    return ''.join(said)


def rows_of(path):
    """The rows of a file that are runs."""
    with open(path, encoding='latin-1') as file:
        parts = ('\n' + file.read()).split('\n== ')[1:]
    for part in parts:
        name, *lines = part.split('\n')
        marks = [at for at, line in enumerate(lines) if line.startswith('--')]
        words = lines[marks[0]][2:].split()
        status = lines[marks[1]][2:].split()
        if words[:1] == ['run'] and len(words) == 2:
            text = said_by(lines[marks[0] + 1:marks[1]])
            answer = said_by(line for line in lines[marks[1] + 1:] if line)
            yield Row(f'{os.path.basename(path)}: {name}', words[1], text, int(status[0]), answer, len(status) == 1)


def all_rows():
    """The rows of all files that are runs."""
    for path in sorted(glob.glob(os.path.join(FOLDER, 'data', '*.rows'))):
        yield from rows_of(path)


def all_examples():
    """The examples, each with the trace beside it as the answer."""
    for path in sorted(glob.glob(os.path.join(EXAMPLES, '*.scn'))):
        with open(path, encoding='latin-1') as file:
            text = file.read()
        with open(path[:-4] + '.trace', encoding='latin-1') as file:
            answer = file.read()
        status = 4 if re.search(r'^end (crash|starved) ', answer, re.M) else 0
        if '\nend ' not in answer:
            status = None
        yield Row(os.path.basename(path), '10000000', text, status, answer, True)
