#!/usr/bin/python3 -B
"""Takes the built program to every limit of docs/FORMATS.md and one past it.

    bench/limits.py PROGRAM

It prints a line for each case: `ok`, or `FAILED` with what isn't as it has to be; then the memory that each command
took at its fullest; and at last how many cases passed and failed. What a case has to leave is written beside it, and
the second reading says it too, but for files of 2^30 bytes, which are holes on the disk. It ends with 0 where all
passed, else with 1. It wants 2 GB of memory, and GNU's `time` for what is told of memory.
"""
import os
import subprocess
import sys
import tempfile

from compiling import record
from fuzz import Driver, certificate_text

PLAN = b'start,2000\nitem,FOOD,\n'
TIME = '/usr/bin/time'
HUGE = 2**30


def padded(text, size):
    """A text with comments before it, up to this size."""
    missing = size - len(text)
    last = b'#' * (missing % 128 - 1) + b'\n' if missing % 128 else b''
    return (b'#' * 127 + b'\n') * (missing // 128) + last + text


def batch(plan=PLAN, lines=b''):
    """The words and the files of `batch`."""
    return [b'batch', b'plan', b'input', b'output'], {b'plan': plan, b'input': lines}


def check(text):
    """The same of `check`."""
    return [b'check', b'cert'], {b'cert': text}


def live(desks, *more, plan=PLAN):
    """The same of `live`, from the lines of its desks."""
    pairs = [word for number in range(1, len(desks) + 1) for word in (b'in%d' % number, b'out%d' % number)]
    files = {b'in%d' % number: text for number, text in enumerate(desks, 1)}
    return [b'live', b'plan', b'journal', *pairs, *more], {b'plan': plan} | files


# The cases: a name, the words and files, the status, and how the report begins; an empty beginning is an empty report.

def plan_cases():
    """Limits of a plan."""
    for size, status, report in (2**20, 0, b''), (2**20 + 1, 8, b'toomuch,plan\n'):
        yield f'a plan of {size} bytes', *batch(padded(PLAN, size)), status, report
        desks = live([b''], plan=padded(PLAN, size))
        yield f'a plan of desks of {size} bytes', *desks, status, report or b'release,0\nend,0\n'
    for size, status, report in (256, 0, b''), (257, 3, b'plan,1,form\n'):
        yield f'a plan with a line of {size} bytes', *batch(b'#' * size + b'\n' + PLAN), status, report
    for year in 1900, 1899, 2200, 2201:
        status, report = (0, b'') if 1900 <= year <= 2200 else (3, b'plan,1,year\n')
        yield f'the first year {year}', *batch(b'start,%d\n' % year), status, report
    for year in 2000, 1999, 2063, 2064:
        status, report = (0, b'') if 2000 <= year <= 2063 else (3, b'plan,2,year\n')
        plan = b'start,2000\nreference,%d\n' % year
        yield f'the reference year {year} of a plan from 2000', *batch(plan), status, report
    for size, status, report in (32, 0, b''), (33, 3, b'plan,2,form\n'):
        yield f'a name of {size} bytes', *batch(b'start,2000\nitem,%s,\n' % (b'N' * size)), status, report
    for count, status, report in (512, 0, b''), (513, 3, b'plan,514,toomany\n'):
        roots = b''.join(record(b'item', b'N%d' % n, b'') for n in range(count))
        chain = b''.join(record(b'item', b'N%d' % n, b'N%d' % (n - 1) if n else b'') for n in range(count))
        lowest = b''.join(record(b'ind', b'N511', b'2000Q%d' % q, 5) for q in range(1, 5)) + b'bench,N511,2000,20\n'
        yield f'{count} items', *batch(b'start,2000\n' + roots), status, report
        yield f'{count} items, one under another', *batch(b'start,2000\n' + chain, lowest), status, report


def line_cases():
    """Limits of an input's lines."""
    for size, report in (256, b''), (257, b'1,no,long\n'):
        yield f'an input with a comment of {size} bytes', *batch(lines=b'#' * size + b'\n'), 0, report
        line = b'ind,FOOD,2000Q1,%0*d' % (size - 16, 7)
        yield f'an input with a value in a line of {size} bytes', *batch(lines=line), 0, report
        yield f'the same with a carriage return and a mark', *batch(lines=b'\xef\xbb\xbf' + line + b'\r\n'), 0, report
    ends = [(b'ind', b'2000Q1', 1, b'zero', 10**9), (b'price', b'2000Q1', 1, b'range', 10**9),
            (b'bench', b'2000', -10**12, b'range', 10**12)]
    for kind, period, least, cause, most in ends:
        for value, report in (least, b''), (least - 1, b'1,no,%s\n' % cause), (most, b''), (most + 1, b'1,no,range\n'):
            yield f'the value {value} of {kind.decode()}', *batch(lines=record(kind, b'FOOD', period, value)), 0, report
    for kind in b'ind', b'price', b'bench':
        for year, report in (2000, b''), (1999, b'1,no,range\n'), (2063, b''), (2064, b'1,no,range\n'):
            period = b'%d' % year if kind == b'bench' else b'%dQ%d' % (year, 4 if year > 2000 else 1)
            line = record(kind, b'FOOD', period, 5)
            yield f'the period {period.decode()} of {kind.decode()}', *batch(lines=line), 0, report
    for quarter, report in (1, b''), (0, b'1,no,form\n'), (4, b''), (5, b'1,no,form\n'):
        yield f'quarter {quarter} of a year', *batch(lines=record(b'ind', b'FOOD', b'2000Q%d' % quarter, 5)), 0, report
    for number, report in (1, b''), (0, b'1,no,form\n'), (16, b''), (17, b'1,no,form\n'):
        yield f'{number} as the fifth field', *batch(lines=record(b'ind', b'FOOD', b'2000Q1', 5, number)), 0, report


def whole_series(years):
    """The indicators, prices and benchmarks of these years."""
    quarters = [(b'%dQ%d' % (2000 + y, q), y, q) for y in range(years) for q in range(1, 5)]
    ind = [record(b'ind', b'FOOD', when, 10**9 - 7 * q * y) for when, y, q in quarters]
    price = [record(b'price', b'FOOD', when, 10**6 + 1000 * y) for when, y, _ in quarters]
    bench = [record(b'bench', b'FOOD', 2000 + y, (-1)**y * 10**12) for y in range(years)]
    return b''.join(ind + price + bench)


def series_cases():
    """Series as long as they can be, and one year more."""
    yield '64 years of one item', *batch(lines=whole_series(64)), 0, b''
    yield '65 years of one item', *batch(lines=whole_series(65)), 0, b'257,no,range\n'


def certificate_cases():
    """Limits of a certificate."""
    ind, values = [100] * 8, [227, 236, 255, 282, 318, 345, 364, 373]
    text = certificate_text(2000, 12, ind, values, [0, 1], [363636363636])
    changes = [('a front of', b'cert,FOOD,1\n', b'cert,FOOD,%d\n', 0, 262144, b'yes', 1),
               ('a scale of', b'scale,12\n', b'scale,%d\n', 0, 15, b'no,', 2),
               ('an indicator of', b'i,2000Q1,100\n', b'i,2000Q1,%d\n', 1, 10**9, b'no,', 4),
               ('a benchmark of', b'b,2000,1000\n', b'b,2000,%d\n', -10**12, 10**12, b'no,sum,2000', 12),
               ('a value of', b'x,2000Q1,227\n', b'x,2000Q1,%d\n', -10**6, 10**6, b'no,sum,2000', 14),
               ('a multiplier of', b'u,2000,363636363636\n', b'u,2000,%d\n', -10**15, 10**15, b'no,gap', 22),
               ('a gap of', b'gap,163636363636363636364\n', b'gap,%d\n', 0, 10**36, b'no,gap', 23)]
    for name, old, new, least, most, verdict, line in changes:
        for number in least, least - 1, most, most + 1:
            report = verdict if least <= number <= most else b'no,range,%d\n' % line
            changed = text.replace(old, new % number)
            yield f'a certificate with {name} {number}', *check(changed), 0 if report == b'yes' else 7, report
    for year, report in (1900, b'yes'), (1899, b'no,range,3'), (2200, b'yes'), (2201, b'no,range,3'):
        changed = certificate_text(year, 12, ind, values, [0, 1], [1])
        yield f'a certificate from {year} on', *check(changed), 0 if report == b'yes' else 7, report
    for quarters, report in (256, b'yes'), (257, b'no,range,260\n'):
        long = certificate_text(2000, 0, [10**9] * quarters, [10**9 // 4] * quarters, range(0, 64, 2), [10**15] * 31)
        yield f'a certificate of {quarters} quarters', *check(long), 0 if report == b'yes' else 7, report
    for size, report in (256, b'yes'), (257, b'no,shape,1\n'):
        changed = b'#' * size + b'\n' + text
        yield f'a certificate with a line of {size} bytes', *check(changed), 0 if report == b'yes' else 7, report
    for size, status, report in (2**20, 0, b'yes'), (2**20 + 1, 8, b'toomuch,cert\n'):
        yield f'a certificate of {size} bytes', *check(padded(text, size)), status, report


def desk_cases():
    """Limits of `live`."""
    line = b'ind,FOOD,2000Q1,5\n'
    for count, status, report in (16, 0, b'release,16'), (17, 2, b'usage\n'):
        yield f'{count} desks', *live([line + b'sync\nrelease\n'] * count), status, report
    for word in b'0', b'16', b'0' * 18 + b'16', b'17', b'0' * 19 + b'16':
        status, report = (0, b'release,1') if int(word) <= 16 and len(word) <= 20 else (2, b'usage\n')
        yield f'{word.decode()} workers', *live([line], b'--workers', word), status, report
    desks = [line * 100 + b'sync\ncert,FOOD\n'] * 16
    yield '16 desks and 16 workers', *live(desks, b'--workers', b'16'), 0, b'release,1600'
    ahead = line * 1024 + b'release\n' + line + b'release\n'
    yield '1024 unpublished inputs, and one more', *live([ahead], b'--workers', b'0'), 0, b'release,1025'
    for size, count in (256, 1), (257, 0):
        desks = live([b'ind,FOOD,2000Q1,%0*d' % (size - 16, 7)])
        yield f'a desk with a line of {size} bytes', *desks, 0, b'release,%d' % count


def full_cases():
    """As many inputs as are accepted, and one more."""
    line = b'ind,FOOD,2000Q1,5\n'
    for count, report in (2**18, b''), (2**18 + 1, b'262145,no,full\n'):
        yield f'{count} inputs', *batch(lines=line * count), 0, report
        yield f'{count} inputs of a desk', *live([line * count]), 0, b'release,262144\n'
    desks = [line * (2**14 + 1) + b'sync\n'] * 16
    yield '262160 inputs of 16 desks, with 16 workers', *live(desks, b'--workers', b'16'), 0, b'release,262144\n'


# Files of 2^30 bytes: holes on the disk, with a line at their start, and a line feed as one of the last bytes.

def lay_huge(driver, size, feed_at):
    """A file that has so many bytes, and a line feed at this place."""
    with open(os.path.join(driver.folder, b'huge'), 'wb') as file:
        file.write(b'ind,FOOD,2000Q1,5\n')
        file.seek(feed_at)
        file.write(b'\n')
        file.truncate(size)


def huge_cases(driver):
    """Inputs of 2^30 bytes and one more, the last line with its line feed or without."""
    words = [b'batch', b'plan', b'huge', b'output']
    cells = b''.join(record(word, b'FOOD', b'2000Q1', b'missing') for word in (b'v', b'k', b'c'))
    whole = b'release,1\n' + cells + record(b'a', b'FOOD', 2000, *[b'missing'] * 4) + b'end,1\n'
    desk = [b'live', b'plan', b'journal', b'huge', b'output']
    for size, feed_at, report, answers in ((HUGE, HUGE - 1, b'2,no,long\n', b'ok,1\nno,long\n'),
                                           (HUGE, HUGE - 9, b'2,no,long\n', b'ok,1\nno,long\nno,form\n'),
                                           (HUGE + 1, HUGE - 1, b'2,no,long\n', b'ok,1\nno,long\n'),
                                           (HUGE + 1, HUGE, b'', b'ok,1\n')):
        past = size > HUGE
        report += b'3,no,form\n' if feed_at == HUGE - 9 else b'toomuch,huge\n' if past else b''
        driver.lay({b'plan': PLAN})
        lay_huge(driver, size, feed_at)
        ended, left = driver.run(words), read_file(driver, b'output')
        yield f'an input of {size} bytes', ended == (8 if past else 0, report, b'') and left == (b'' if past else whole)
        ended, left = driver.run(desk), read_file(driver, b'output')
        yield f'a desk of {size} bytes', ended == (8 if past else 0, whole, b'') and left == answers


def read_file(driver, name):
    """The bytes of a file of the driver's folder."""
    with open(os.path.join(driver.folder, name), 'rb') as file:
        return file.read()


# Memory.

def fullest():
    """A plan of 512 items with 455 leaves, and 262,080 lines for them: all that 64 years have."""
    names, lines = [b'N%03d' % n for n in range(512)], []
    parents = [b'', *(names[(n - 1) // 9] for n in range(1, 512))]
    plan = b'start,2000\nreference,2031\n' + b''.join(record(b'item', *pair) for pair in zip(names, parents))
    for n, name in enumerate(names[57:]):
        for y in range(64):
            for q in range(1, 5):
                when = b'%dQ%d' % (2000 + y, q)
                lines.append(record(b'ind', name, when, 10**8 + 99 * y * q + n))
                lines.append(record(b'price', name, when, 10**6 + n * q))
            lines.append(record(b'bench', name, 2000 + y, 9 * 10**11 - 10**9 * y))
    return plan, lines


def peak(driver, name, words):
    """A line that tells the most memory that a run took, and its status."""
    note = os.path.join(driver.folder, b'note')
    command = [TIME, '-q', '-f', '%M', '-o', note, driver.program, *words]
    ended = subprocess.run(command, cwd=driver.folder, stdin=subprocess.DEVNULL, stdout=subprocess.DEVNULL)
    with open(note) as file:
        print(f'{name}: status {ended.returncode}, {int(file.read().split()[-1]) / 1024:.0f} MiB at most', flush=True)


def tell_memory(driver):
    """Tells the most memory that the commands took at their limits."""
    plan, lines = fullest()
    desks = [b''.join(lines[n::16]) + b'sync\nrelease\nrelease\n' for n in range(16)]
    words, files = live(desks, b'--workers', b'16', plan=plan)
    quarters = [10**9] * 256
    cert = padded(certificate_text(2000, 0, quarters, quarters, range(64), [10**15] * 63), 2**20)
    driver.lay(files | {b'input': b''.join(lines), b'cert': cert, b'none': b'start,2000\n'})
    lay_huge(driver, HUGE, HUGE - 1)
    peak(driver, 'no word', [])
    peak(driver, 'batch, an empty plan and 2^30 bytes', [b'batch', b'none', b'huge', b'output'])
    peak(driver, f'batch, 512 items, 64 years, {len(lines)} inputs', [b'batch', b'plan', b'input', b'output'])
    peak(driver, 'check, 2^20 bytes, 256 quarters, 64 years', [b'check', b'cert'])
    peak(driver, 'live, the same inputs, 16 desks that ask for the release, 16 workers', words)
    peak(driver, 'live, the same, no worker', words[:-1] + [b'0'])


def passed(driver, words, files, status, report):
    """What is wrong with a case, by its own expectation and by the second reading."""
    ended, wrong = driver.faults(words, files)
    driver.lay(files)
    said = driver.run(words)[1]
    if ended != status or not said.startswith(report) or not report and said:
        wrong.append(f'it ends with {ended} and {said[:60]!r}')
    return wrong


def main(program):
    """Runs all cases, and answers the status to end with."""
    counts = [0, 0]
    with tempfile.TemporaryDirectory() as folder:
        driver = Driver(os.path.abspath(program), folder)
        for cases in plan_cases, line_cases, series_cases, certificate_cases, desk_cases, full_cases:
            for name, words, files, status, report in cases():
                tell(counts, name, passed(driver, words, files, status, report))
        for name, is_right in huge_cases(driver):
            tell(counts, name, [] if is_right else ['it leaves something else'])
        if os.path.exists(TIME):
            tell_memory(driver)
    print(f'{counts[0]} passed, {counts[1]} failed')
    return 1 if counts[1] else 0


def tell(counts, name, wrong):
    """Prints and counts a case."""
    counts[1 if wrong else 0] += 1
    print(f'FAILED  {name}: {"; ".join(wrong)}' if wrong else f'ok      {name}', flush=True)


if __name__ == '__main__':
    if len(sys.argv) != 2:
        sys.exit(__doc__)
    sys.exit(main(sys.argv[1]))
