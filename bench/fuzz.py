#!/usr/bin/python3 -B
"""Drives the built program with changed examples and with files of its own, and compares it with the second reading.

    bench/fuzz.py SEED COUNT PROGRAM [FIRST [numbers]]

The run of each number from FIRST (or 1) on is drawn from SEED and its number alone, so one run can be repeated. With
`numbers` numbers alone are changed, and most lines keep their form. A run is one command: `batch`, `check`, `live`,
or words of any form. Compared are the status, the report, standard error and every file; a run of `live` is judged,
and `batch` of its journal has to give its report. It prints a line for each run that isn't as docs/FORMATS.md says,
with the folder where its files are kept, and at the end how many runs of each command ended with which status. It
ends with 0, or with 1 where a run was faulty.
"""
import os
import random
import shutil
import subprocess
import sys
import tempfile
from collections import Counter
from pathlib import Path

from compiling import Release, Year, gap_of, record, verdict_on
from judging import Run
from reading import MOST_TEXT, form_of, read_plan, taken_and_refused

EXAMPLES = Path(__file__).resolve().parent.parent / 'examples'
PAIRS = ['first-release', 'manual', 'missing', 'prices', 'three-years', 'two-items', 'two-desks', 'total']
SECONDS = 60
EDGES = [0, 1, 2, 3, 10**9 - 1, 10**9, 10**9 + 1, 10**12, 10**12 + 1, 10**15, 10**15 + 1, 10**16, 10**36, 10**36 + 1,
         2**31, 2**32, 2**63 - 1, 2**63, 2**64 - 1, 2**64, 2**127 - 1, 2**127, 2**128, 10**41]
SCRAPS = [b'\r', b'\n', b'\n\n', b',', b'"', b'""', b'#', b'-', b'Q', b'q', b' ', b'\0', b'\xff', b'\xef\xbb\xbf', b'0',
          b'9', b'release\n', b'sync\n', b'cert,FOOD\n', b'release,TOTAL\n', b'start,2021\n', b'end\n',
          b'a' * 256, b'a' * 300]


# Texts.

def read(name):
    """The bytes of an example."""
    return (EXAMPLES / name).read_bytes()


def first_of(*names):
    """The bytes of the first of these examples that is there."""
    return read(next(name for name in names if (EXAMPLES / name).exists()))


class Samples:
    """The examples that runs begin with, and the function that changes a text."""

    def __init__(self, change):
        self.change = change
        self.pairs = [(read(f'{pair}/plan.csv'),
                       first_of(f'{pair}/input.csv', f'{pair}/journal.csv', 'prices/input.csv')) for pair in PAIRS]
        names = 'certificate/food', 'manual/certificate', 'missing/certificate'
        self.certificates = [read(f'{name}.csv') for name in names]


def number_near(draw, number):
    """A spelling of a number that may be this one, one beside it, or one at an end of some range."""
    kind = draw.randrange(8)
    if kind < 3:
        number += draw.choice([-1, 1])
    elif kind < 6:
        number = draw.choice(EDGES) * draw.choice([1, 1, -1])
    elif kind == 6:
        return draw.choice([b'', b'-', b'-0', b'00', b'+1', b'1.5', b' 1', b'1e3', b'9' * 200])
    return b'%s%s%d' % (b'-' * (number < 0), b'0' * draw.choice([0, 0, 0, 1, 30]), abs(number))


def changed_field(draw, field):
    """A field in place of this one."""
    if field.lstrip(b'-').isdigit() and len(field) < 40:
        return number_near(draw, int(field))
    return draw.choice([b'"%s"' % field, field + b'x', field[:-1], b'', field.lower(), field.replace(b'Q', b'-q'),
                        b'"' + field, b'NONE', b'2085Q1', b'2021Q5', b'20211', b'16', b'17', b'N' * 32, b'N' * 33])


def changed_line(draw, line):
    """A line in place of this one."""
    fields = line.split(b',')
    kind = draw.randrange(8)
    if kind < 6:
        at = draw.randrange(len(fields))
        fields[at] = changed_field(draw, fields[at])
    elif kind == 6:
        fields.insert(draw.randrange(len(fields) + 1), draw.choice([b'', b'1', b'16', b'17', b'0', b'x']))
    else:
        fields.pop(draw.randrange(len(fields)))
    return b','.join(fields) + draw.choice([b'', b'', b'', b'\r'])


def changed_bytes(draw, text):
    """A text with a piece changed, wherever its lines end."""
    at = draw.randrange(len(text) + 1)
    to = min(len(text), at + draw.choice([0, 1, 1, 2, 40]))
    return draw.choice([text[:at] + draw.choice(SCRAPS) + text[to:], text[:at] + text[to:], text[:at], text[at:],
                        text[:at] + bytes([draw.randrange(256)]) + text[to:]])


def changed(draw, text):
    """A text with a few changes."""
    for _ in range(draw.choice([1, 1, 1, 2, 3, 6])):
        lines = text.split(b'\n')
        at, to = draw.randrange(len(lines)), draw.randrange(len(lines))
        kind = draw.randrange(10)
        if kind < 4:
            lines[at] = changed_line(draw, lines[at])
        elif kind == 4:
            lines[at], lines[to] = lines[to], lines[at]
        elif kind == 5:
            lines.insert(to, lines[at])
        elif kind == 6:
            lines.pop(at)
        text = b'\n'.join(lines) if kind < 7 else changed_bytes(draw, text)
    return text


def changed_numbers(draw, text):
    """A text in which a few numbers are others, and every line keeps its form."""
    lines = text.split(b'\n')
    for _ in range(draw.choice([1, 1, 2, 4])):
        at = draw.randrange(len(lines))
        fields = lines[at].split(b',')
        place = draw.randrange(len(fields))
        digits = fields[place].lstrip(b'-')
        if digits.isdigit() and len(digits) < 40:
            number = int(fields[place]) + draw.choice([-1, 1, 10, 1000])
            fields[place] = b'%d' % draw.choice([number, number, draw.choice([1, -1]) * draw.choice(EDGES)])
        elif digits[4:5] == b'Q' and digits[:4].isdigit():
            fields[place] = b'%04d' % (int(digits[:4]) + draw.choice([-1, 1, 4, 63, 64])) + digits[4:]
        elif draw.random() < 0.1:
            fields[0] += b'x' * draw.choice([200, 257])
        lines[at] = b','.join(fields)
    return b'\n'.join(lines)


def made_plan(draw):
    """A plan of a few items."""
    start = draw.choice([1900, 1999, 2021, 2021, 2021, 2137, 2200])
    lines, names = [record(b'start', start)], []
    if draw.random() < 0.6:
        lines.append(record(b'reference', start + draw.choice([0, 1, 1, 2, 3, 5, 63])))
    for number in range(draw.choice([0, 1, 1, 1, 2, 3, 3, 4, 6])):
        parent = draw.choice(names) if names and draw.random() < 0.6 else b''
        names.append(draw.choice([b'N%d', b'FOOD%d', b'a_.-%d']) % number)
        lines.append(record(b'item', names[-1], parent))
    return b''.join(lines)


def made_input(draw, plan):
    """Lines for the leaves of a plan: indicators, benchmarks and prices of some years, in some order."""
    lines = []
    for name in sorted(plan.leaves):
        years, size = draw.choice([1, 1, 1, 2, 2, 3, 3, 4, 5, 8]), 10**draw.randrange(10)
        kept, priced = draw.choice([0.3, 0.6, 1, 1]), draw.choice([0, 0.9, 1, 1])
        signs = draw.choice([[1], [1], [1, -1], [0, 1]])
        for quarter in range(4 * years - draw.choice([0, 0, 0, 1, 2, 3])):
            when = b'%dQ%d' % (plan.start + quarter // 4, quarter % 4 + 1)
            value = draw.choice([1, size, draw.randint(1, size), draw.randint(1, 10**9)])
            lines.append(record(b'ind', name, when, value))
            if draw.random() < priced:
                lines.append(record(b'price', name, when, draw.choice([1, 10**6, 10**9, draw.randint(1, 10**9)])))
        most = min(10**12, draw.choice([10, 10**4, 10 * size, 10**12]))
        for year in range(years):
            if draw.random() < kept:
                value = draw.choice(signs) * draw.choice([most, draw.randint(0, most)])
                lines.append(record(b'bench', name, plan.start + year, value))
    if draw.random() < 0.3:
        draw.shuffle(lines)
    return b''.join(lines)


def made_certificate(draw):
    """A certificate of a series that needn't be a good one, with its gap."""
    start, years, scale = draw.choice([1900, 2021, 2200]), draw.choice([1, 1, 2, 2, 3, 5, 9]), draw.randrange(16)
    size = draw.choice([1, 100, 10**9])
    ind = [draw.choice([size, draw.randint(1, size)]) for _ in range(4 * years + draw.randrange(4))]
    bounds = [10**16 * i // 10**scale for i in ind]
    values = [draw.choice([bound, -bound, 0, draw.randint(-bound, bound)]) for bound in bounds]
    places = sorted(draw.sample(range(years), draw.randint(1, years)))
    for place in places:
        if abs(sum(values[4 * place:4 * place + 4])) > 10**12:
            values[4 * place:4 * place + 4] = [max(-10**11, min(10**11, value))
                                               for value in values[4 * place:4 * place + 4]]
    multipliers = [draw.choice([0, 10**15, -10**15, draw.randint(-10**15, 10**15)]) for _ in places[1:]]
    front = draw.choice([0, 9, 262144])
    return certificate_text(start, scale, ind, values, places, multipliers, front)


def certificate_text(start, scale, ind, values, places, multipliers, front=1):
    """The certificate of a series, with its true gap; the benchmarks are the sums of its years at these places."""
    parts = [Year(place, ind[4 * place:4 * place + 4], sum(values[4 * place:4 * place + 4])) for place in places]
    quarters = [b'%04dQ%d' % (start + t // 4, t % 4 + 1) for t in range(len(ind))]
    lines = [record(b'cert', b'FOOD', front), record(b'scale', scale), record(b'start', start)]
    lines += [record(b'i', *pair) for pair in zip(quarters, ind)]
    lines += [record(b'b', start + part.place, part.bench) for part in parts]
    lines += [record(b'x', *pair) for pair in zip(quarters, values)]
    lines += [record(b'u', start + place, multiplier) for place, multiplier in zip(places, multipliers)]
    return b''.join(lines) + record(b'gap', gap_of(ind, parts, 10**scale, multipliers, values)) + b'end\n'


# What a command has to leave.

def expected_batch(files, names):
    """The status, the report and the output of `batch`; no output where it stays as it was."""
    plan_name, input_name, output_name = names
    if plan_name not in files:
        return 4, b'open,%s\n' % plan_name, None
    if len(files[plan_name]) > MOST_TEXT:
        return 8, b'toomuch,%s\n' % plan_name, None
    plan = read_plan(files[plan_name])
    if plan.refusal:
        return 3, b'plan,%d,%s\n' % plan.refusal, None
    for name in (input_name, output_name):
        if name not in files and (name == input_name or b'/' in name):
            return 4, b'open,%s\n' % name, None
    taken, report = taken_and_refused(plan, files[input_name])
    return 0, report, Release(plan, taken).text()


def expected_check(files, names):
    """The status and the report of `check`."""
    if names[0] not in files:
        return 4, b'open,%s\n' % names[0]
    if len(files[names[0]]) > MOST_TEXT:
        return 8, b'toomuch,%s\n' % names[0]
    verdict = verdict_on(files[names[0]])
    return 0 if verdict == b'yes\n' else 7, verdict


def expected_live(files, names):
    """The status and the report of `live` until the desks are served; nothing where they are."""
    if names[0] not in files:
        return 4, b'open,%s\n' % names[0]
    if len(files[names[0]]) > MOST_TEXT:
        return 8, b'toomuch,%s\n' % names[0]
    plan = read_plan(files[names[0]])
    if plan.refusal:
        return 3, b'plan,%d,%s\n' % plan.refusal
    for place, name in enumerate(names[2:] + names[1:2]):
        is_read = place % 2 == 0 and place < len(names) - 2
        if name not in files and (is_read or b'/' in name):
            return 4, b'open,%s\n' % name
    return None


# Runs.

def draw_files(draw, samples):
    """A plan, an input and a certificate, each an example or made, and mostly changed."""
    plan, lines = draw.choice(samples.pairs)
    if draw.random() < 0.6:
        plan = made_plan(draw)
        lines = made_input(draw, read_plan(plan)) if read_plan(plan).refusal is None else lines
    if draw.random() < 0.25:
        plan = samples.change(draw, plan)
    if draw.random() < 0.7:
        lines = samples.change(draw, lines)
    return plan, lines


def draw_desks(draw, samples, plan, lines):
    """The lines of one to four desks, with questions among them."""
    desks = [[] for _ in range(draw.choice([1, 1, 2, 2, 3, 4]))]
    known = read_plan(plan).names or [b'FOOD']
    for line in lines.split(b'\n'):
        desk = draw.choice(desks)
        desk.append(line)
        if draw.random() < 0.12:
            name = draw.choice([*known, b'NONE'])
            desk.append(draw.choice([b'sync', b'sync', b'release', b'release,' + name, *[b'cert,' + name] * 2]))
    texts = [b'\n'.join(desk) for desk in desks]
    return [samples.change(draw, text) if draw.random() < 0.3 else text for text in texts]


def draw_words(draw):
    """Words of any form."""
    pool = [b'batch', b'check', b'live', b'plan', b'input', b'output', b'cert', b'none', b'none/x', b'journal', b'in1',
            b'out1', b'in2', b'out2', b'--workers', b'0', b'2', b'16', b'17', b'', b'-', b'-x', b'--', b'\xff',
            b'--help', b'\xc3\xa9']
    desk = [b'live', b'plan', b'journal', b'in1', b'out1']
    right = draw.choice([[b'batch', b'plan', b'input', b'output'], [b'check', b'cert'], desk,
                         [*desk, b'in2', b'out2', b'--workers', b'2']])
    for _ in range(draw.randrange(4)):
        at = draw.randrange(len(right) + 1)
        kind = draw.randrange(4)
        if kind < 2 and at < len(right):
            right[at] = draw.choice(pool)
        elif kind == 2 and at < len(right):
            right.pop(at)
        else:
            right.insert(at, draw.choice(pool))
    return right


def draw_run(draw, samples):
    """The words and the files of a run."""
    plan, lines = draw_files(draw, samples)
    files = {b'plan': plan, b'input': lines}
    if draw.random() < 0.5:
        files[b'output'] = b'what stood here before\n' * 5000
    command = draw.choices([b'batch', b'check', b'live', b'words'], [50, 20, 22, 8])[0]
    if command in (b'check', b'words'):
        text = made_certificate(draw) if draw.random() < 0.5 else draw.choice(samples.certificates)
        files[b'cert'] = samples.change(draw, text) if draw.random() < 0.7 else text
    if command == b'words':
        files[b'in1'], files[b'in2'] = lines, lines
        return draw_words(draw), files
    if command == b'live':
        desks = draw_desks(draw, samples, plan, lines)
        files.update((b'in%d' % number, text) for number, text in enumerate(desks, 1))
        pairs = [word for number in range(1, len(desks) + 1) for word in (b'in%d' % number, b'out%d' % number)]
        workers = draw.choice([[], [b'--workers', b'%d' % draw.randrange(5)]])
        return [b'live', b'plan', b'journal', *pairs, *workers], files
    return {b'batch': [b'batch', b'plan', b'input', b'output'], b'check': [b'check', b'cert']}[command], files


class Driver:
    """Runs the program in a folder of its own."""

    def __init__(self, program, folder):
        self.program, self.folder = program, os.fsencode(folder)

    def run(self, words):
        """What the program answers: its status, its report and its standard error."""
        try:
            ended = subprocess.run([self.program, *words], cwd=self.folder, stdin=subprocess.DEVNULL,
                                   capture_output=True, timeout=SECONDS)
        except subprocess.TimeoutExpired:
            return None, b'', b''
        return ended.returncode, ended.stdout, ended.stderr

    def files(self):
        """The files of the folder."""
        found = {}
        for name in os.listdir(self.folder):
            with open(os.path.join(self.folder, name), 'rb') as file:
                found[name] = file.read()
        return found

    def lay(self, files):
        """Lays these files into the folder, and no others."""
        for name in os.listdir(self.folder):
            os.unlink(os.path.join(self.folder, name))
        for name, text in files.items():
            with open(os.path.join(self.folder, name), 'wb') as file:
                file.write(text)

    def faults(self, words, files):
        """The status of a run, and what isn't as it has to be."""
        self.lay(files)
        status, report, errors = self.run(words)
        if status is None:
            return status, ["it doesn't end"]
        wrong = [f'standard error has {errors[:80]!r}'] if errors else []
        form = form_of(words) if words else None
        left = self.files()
        if form:
            return status, wrong + self.compare(form, files, status, report, left)
        return status, wrong + self.compare_all(files, left, (2, b'usage\n'), (status, report))

    def compare(self, form, files, status, report, left):
        """What is wrong with a run of words that have a form."""
        if form.command == b'live':
            early = expected_live(files, form.names)
            if early:
                return self.compare_early(form.names, files, early, (status, report), left)
            return self.judge(form.names, files, status, report, left)
        if form.command == b'check':
            return self.compare_all(files, left, expected_check(files, form.names), (status, report))
        *early, output = expected_batch(files, form.names)
        files = files if output is None else files | {form.names[2]: output}
        return self.compare_all(files, left, tuple(early), (status, report))

    def compare_all(self, files, left, expected, ended):
        """What differs in the status, the report and the files."""
        wrong = [f'it ends with {ended} in place of {expected}'[:400]] if ended != expected else []
        names = sorted(name for name in files | left if files.get(name) != left.get(name))
        return wrong + [f'the file {name.decode()!r} differs' for name in names]

    def compare_early(self, names, files, expected, ended, left):
        """The same of a run of `live` that didn't come to its desks: what it was to write is as it was, or empty."""
        for name in (names[1], *names[3::2]):
            if left.get(name) == b'':
                files = files | {name: b''}
        return self.compare_all(files, left, expected, ended)

    def judge(self, names, files, status, report, left):
        """What is wrong with a run of `live` whose desks were served."""
        desks = [(files[name], left.get(answers, b'')) for name, answers in zip(names[2::2], names[3::2])]
        written = {names[1], *names[3::2]}
        wrong = Run(files[names[0]], left.get(names[1], b'')).judge(report, desks)
        wrong += self.compare_all({name: files[name] for name in files if name not in written},
                                  {name: left[name] for name in left if name not in written}, 0, status)
        again = self.run([b'batch', names[0], names[1], b'again'])
        if again != (0, b'', b'') or self.files().get(b'again') != report:
            wrong.append('batch of the journal gives another release')
        return wrong

    def keep(self, words, files):
        """Keeps the files and the words of a run, and answers where."""
        folder = tempfile.mkdtemp(prefix='qna-fuzz-')
        self.lay(files)
        shutil.copytree(self.folder, os.fsencode(folder), dirs_exist_ok=True)
        Path(folder, 'words').write_bytes(b'\n'.join(words) + b'\n')
        return folder


def main(seed, count, program, first='1', numbers=''):
    """Makes the runs, and answers the status to end with."""
    samples, counts, faulty = Samples(changed_numbers if numbers else changed), Counter(), 0
    with tempfile.TemporaryDirectory() as folder:
        driver = Driver(os.path.abspath(program), folder)
        for number in range(int(first), int(first) + int(count)):
            words, files = draw_run(random.Random(f'{seed} {number}'), samples)
            status, wrong = driver.faults(words, files)
            form = form_of(words) if words else None
            counts[form.command.decode() if form else 'words', status] += 1
            if wrong:
                faulty += 1
                print(f'run {number}, in {driver.keep(words, files)}: {"; ".join(wrong)}', flush=True)
            if number % 5000 == 0:
                print(f'{number} runs, {faulty} faulty', file=sys.stderr, flush=True)
    for (command, status), times in sorted(counts.items(), key=str):
        print(f'{command} ended with {status}: {times}')
    print(f'{count} runs of seed {seed}, {faulty} of them faulty')
    return 1 if faulty else 0


if __name__ == '__main__':
    if len(sys.argv) not in (4, 5, 6) or sys.argv[5:] not in ([], ['numbers']):
        sys.exit(__doc__)
    sys.exit(main(*sys.argv[1:]))
