"""What the tools share: a command's words, and the texts of an input and of a release (docs/FORMATS.md) as values."""
import csv
import inspect
import re
import signal
import sys
from collections import defaultdict
from types import SimpleNamespace

QUARTER = re.compile(r'([0-9]{4})-?[Qq]([1-4])')
YEAR = re.compile(r'([0-9]{4})')
VALUE = re.compile(r'-?[0-9]+')
RANGES = {'ind': (1, 10**9), 'bench': (-10**12, 10**12), 'price': (1, 10**9)}


class Usage(Exception):
    """The words are of no form that the command has."""


class Fault(ValueError):
    """A file isn't what it should be. The text says which, and why."""


def call(work, words):
    """Calls `work` with the words, one for each of its parameters."""
    try:
        inspect.signature(work).bind(*words)
    except TypeError:
        raise Usage from None
    work(*words)


def run(work, usage):
    """Calls `work` with the words of the command. A fault ends with status 1, wrong words with 2."""
    signal.signal(signal.SIGPIPE, signal.SIG_DFL)
    try:
        call(work, sys.argv[1:])
    except Usage:
        print(usage.strip(), file=sys.stderr)
        sys.exit(2)
    except (OSError, ValueError, ImportError) as fault:
        sys.exit(f'{sys.argv[0]}: {fault}')


def records(name):
    """The fields of each line of a file that isn't empty, a comment or long."""
    with open(name, encoding='utf-8-sig', errors='replace', newline='\n') as file:
        for line in file:
            line = line.removesuffix('\n').removesuffix('\r')
            if line and line[0] != '#' and len(line.encode()) <= 256:
                yield next(csv.reader([line]))


def period(kind, text):
    """A quarter, or a benchmark's year, as a release spells it; nothing where the text isn't one."""
    spelled = (YEAR if kind == 'bench' else QUARTER).fullmatch(text)
    return spelled and 'Q'.join(spelled.groups())


def read_input(name):
    """The last value for each kind, item and period, of the lines that have the form and the range of an input."""
    values = {}
    for kind, item, when, value, *_ in (fields for fields in records(name) if len(fields) in (4, 5)):
        least, most = RANGES.get(kind, (1, 0))
        if period(kind, when) and VALUE.fullmatch(value) and least <= int(value) <= most:
            values[kind, item, period(kind, when)] = int(value)
    return values


def read_release(name):
    """The items of a release by name, each with its cells v, k and c by quarter, its years a and its line g."""
    rows = list(records(name))
    if len(rows) < 2 or rows[0][:1] != ['release'] or rows[-1] != ['end', *rows[0][1:]]:
        raise Fault(f'{name} is no whole release')
    items = defaultdict(lambda: SimpleNamespace(number=rows[0][1], v={}, k={}, c={}, a={}, g=None))
    for word, item, *rest in rows[1:-1]:
        cells = [int(text) if VALUE.fullmatch(text) else text for text in rest]
        if word == 'g':
            items[item].g = cells
        else:
            getattr(items[item], word)[rest[0]] = cells[1:] if word == 'a' else cells[1]
    return items


def item_of(release, name):
    """One item of a release."""
    items = read_release(release)
    if name not in items:
        raise Fault(f'{release} has no item {name}')
    return items[name]


def leaf_of(inputs, release, name):
    """A benchmarked leaf, from an input and the release that was made from it; its benchmarks by the year, counted from 0."""
    given, item = read_input(inputs), item_of(release, name)
    if not item.g:
        raise Fault(f'{name} has no benchmarked year in {release}')
    count, scale, gap = item.g
    values = list(item.v.values())
    indicators = [given.get(('ind', name, quarter)) for quarter in item.v]
    whole_years = list(item.a)[:len(values) // 4]
    benchmarks = {y: given[('bench', name, year)] for y, year in enumerate(whole_years) if ('bench', name, year) in given}
    if None in indicators or len(benchmarks) != count \
            or any(benchmark != sum(values[4 * y:4 * y + 4]) for y, benchmark in benchmarks.items()):
        raise Fault(f'{release} was not made from {inputs}: the indicators or benchmarks of {name} differ')
    return SimpleNamespace(quarters=list(item.v), indicators=indicators, values=values, benchmarks=benchmarks,
                           gap=gap / 100**scale)
