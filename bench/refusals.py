#!/usr/bin/python3 -B
"""Refuses the built program each request of memory and each call of the system in turn, and looks at what it leaves.

    bench/refusals.py PROGRAM

A small library (bench/refusing.c, built by `cc`) stands between the program and the C library. In each run it refuses
one request of memory, opening, reading, writing or thread, or this one and all of its kind behind it; or it lets one
reading or writing move a single byte. The commands are `batch` of a total of two leaves with refused lines, `check`
of a certificate, and `live` with two desks, by two workers and by none. Each run has to end, to write nothing to
standard error, and to leave what docs/FORMATS.md says of its status: whole texts at 0, else beginnings; where one
call alone was refused, no more than one text is cut, or no desk was served. It prints a line for each run that isn't
so, then for each command and kind how many calls there were, and how many runs ended with which status. It ends with
0 where all was so, else with 1.
"""
import os
import subprocess
import sys
import tempfile
from collections import Counter
from itertools import product
from pathlib import Path

from compiling import Release
from fuzz import SECONDS, Driver, read
from judging import Run
from reading import judged, lines_of, read_plan, taken_and_refused

OLD = b'what stood here before\n' * 400
DESKS = [b'live', b'plan', b'journal', b'in1', b'out1', b'in2', b'out2', b'--workers']
COMMANDS = {
    'batch': ([b'batch', b'plan', b'input', b'output'],
              {b'plan': read('total/plan.csv'), b'output': OLD,
               b'input': read('prices/input.csv') + b'no\nind,NONE,2021Q1,5\n'}),
    'check': ([b'check', b'cert'], {b'cert': read('certificate/food.csv')}),
    'live': ([*DESKS, b'2'], {b'plan': read('two-desks/plan.csv'), b'in1': read('two-desks/food.csv'),
                              b'in2': read('two-desks/serv.csv'), b'journal': OLD}),
}
COMMANDS['live, no worker'] = [*DESKS, b'0'], COMMANDS['live'][1]
STATUSES = {'memory': (0, 1), 'open': (4,), 'read': (5,), 'write': (6,), 'short': (0,), 'thread': (0,)}


class Refuser(Driver):
    """Runs the program with the library before it."""

    def __init__(self, program, folder, library):
        super().__init__(program, folder)
        self.library = library

    def refuse(self, words, files, kind, at, all_behind=False):
        """How a run ends in which this call is refused, the files that it leaves, and its calls of the kind."""
        self.lay(files)
        environment = os.environ | {'LD_PRELOAD': self.library, 'REFUSE_KIND': kind, 'REFUSE_AT': str(at),
                                    'REFUSE_ALL': str(int(all_behind)), 'REFUSE_COUNT': 'count'}
        try:
            ended = subprocess.run([self.program, *words], cwd=self.folder, stdin=subprocess.DEVNULL,
                                   capture_output=True, timeout=SECONDS, env=environment)
        except subprocess.TimeoutExpired:
            return (None, b'', b''), self.files(), 0
        left = self.files()
        return (ended.returncode, ended.stdout, ended.stderr), left, int(left.pop(b'count', b'0'))


def begins(text, piece):
    """Whether a text begins with this piece."""
    return text.startswith(piece)


# What may be left.

def is_lawful_batch(files, status, report, left, one_alone):
    """Whether `batch` may leave this."""
    plan = read_plan(files[b'plan'])
    taken, lines = taken_and_refused(plan, files[b'input'])
    text, output = Release(plan, taken).text(), left[b'output']
    if any(left[name] != files[name] for name in (b'plan', b'input')):
        return False
    if status == 0:
        return output == text and report == lines
    if status == 1:
        return output in (OLD, b'') and begins(lines, report) or begins(text, output) and report == lines
    if status in (4, 5) and output == OLD:
        names = [b'/dev/null', b'plan', b'input', b'output'] if status == 4 else [b'plan']
        return report in [b'%s,%s\n' % (b'open' if status == 4 else b'read', name) for name in names]
    if status == 5:
        return output == b'' and report.endswith(b'read,input\n') and begins(lines, report[:-len(b'read,input\n')])
    if output == b'' and begins(lines, report):
        return True
    return begins(text, output) and begins(lines + b'write,output\n', report) and (report != lines or not one_alone)


def is_lawful_check(files, status, report, left, one_alone):
    """Whether `check` may leave this, of a certificate that is right."""
    told = {0: [b'yes\n'], 1: [b'', b'y', b'ye', b'yes'], 4: [b'open,cert\n', b'open,/dev/null\n'], 5: [b'read,cert\n'],
            6: [b'', b'y', b'ye', b'yes']}
    return left == files and report in told[status]


def is_lawful_live(files, status, report, left, one_alone):
    """Whether `live` may leave this."""
    journal, outs = left[b'journal'], [left.get(b'out1', b''), left.get(b'out2', b'')]
    if any(left[name] != files[name] for name in (b'plan', b'in1', b'in2')):
        return False
    if status != 0 and journal in (OLD, b'') and not any(outs) and is_early(status, report):
        return True
    desks = [(files[b'in1'], outs[0]), (files[b'in2'], outs[1])]
    if status == 0:
        return not Run(files[b'plan'], journal).judge(report, desks)
    return any(is_told_by(files[b'plan'], whole, journal, report, desks, one_alone)
               for whole in [journal, *rebuilt(read_plan(files[b'plan']), desks)])


def is_early(status, report):
    """Whether a run may report this that hasn't come to its desks."""
    names = {4: [b'/dev/null', b'plan', b'in1', b'out1', b'in2', b'out2', b'journal'], 5: [b'plan']}.get(status, [])
    word = b'open' if status == 4 else b'read'
    return status == 1 and not report or report in [b'%s,%s\n' % (word, name) for name in names]


def is_told_by(plan, whole, journal, report, desks, one_alone):
    """Whether this whole journal explains what was written of it, of its release and of the answers."""
    run = Run(plan, whole)
    if not begins(whole, journal) or run.judge(None, desks, True):
        return False
    release = run.release(len(run.taken)).text()
    cut = len(run.judge(None, desks)) + (journal != whole) + (report != release)
    none_served = not whole and not any(answers for _, answers in desks)
    return begins(release, report) and (cut <= 1 or none_served or not one_alone)


def rebuilt(plan, desks):
    """The journals that the answers tell, where each desk may have more inputs, in its order, that it wasn't told of."""
    told, untold = {}, []
    for desk, (text, answers) in enumerate(desks, 1):
        places = [int(answer[3:]) for answer in answers.split(b'\n')[:-1] if begins(answer, b'ok,')]
        said = [judged(plan, line) for line in lines_of(text)]
        inputs = [b'%s,%d\n' % (taken[4], desk) for what, taken in said if what == 'taken']
        told.update(zip(places, inputs))
        untold.append(inputs[len(places):])
    for counts in product(*[range(len(inputs) + 1) for inputs in untold]):
        every = range(1, len(told) + sum(counts) + 1)
        free = [place for place in every if place not in told]
        if len(free) == sum(counts):
            for more in merged([inputs[:count] for inputs, count in zip(untold, counts)]):
                journal = told | dict(zip(free, more))
                yield b''.join(journal[place] for place in every)


def merged(lists):
    """All lists of what these lists hold, each of them in its order."""
    if not any(lists):
        yield []
    for at, chosen in enumerate(lists):
        if chosen:
            for rest in merged([*lists[:at], chosen[1:], *lists[at + 1:]]):
                yield [chosen[0], *rest]


LAWFUL = {'batch': is_lawful_batch, 'check': is_lawful_check, 'live': is_lawful_live}


# The runs.

def try_all(refuser, command, kind, all_behind):
    """Refuses each call of a kind in turn: how many there are, how the runs end, and what is wrong."""
    words, files = COMMANDS[command]
    count = refuser.refuse(words, files, 'read' if kind == 'short' else kind, 0)[2]
    if kind == 'short':
        count += refuser.refuse(words, files, 'write', 0)[2]
    statuses, wrong = Counter(), []
    for at in range(1, count + 1):
        (status, report, errors), left, made = refuser.refuse(words, files, kind, at, all_behind)
        statuses[status] += 1
        allowed = STATUSES[kind] if made >= at else (0,)
        is_lawful = LAWFUL[words[0].decode()]
        if status not in allowed or errors or not is_lawful(files, status, report, left, not all_behind):
            wrong.append(f'call {at}: status {status}, report {report[-40:]!r}, standard error {errors[:80]!r}')
    return count, statuses, wrong


def main(program):
    """Makes all runs, and answers the status to end with."""
    faulty = total = 0
    with tempfile.TemporaryDirectory() as tools, tempfile.TemporaryDirectory() as folder:
        library = os.path.join(tools, 'refusing.so')
        source = Path(__file__).with_name('refusing.c')
        subprocess.run(['cc', '-O2', '-shared', '-fPIC', '-o', library, source], check=True)
        refuser = Refuser(os.path.abspath(program), folder, library)
        for command in COMMANDS:
            for kind in STATUSES:
                for all_behind in (False, True) if kind != 'short' else (False,):
                    count, statuses, wrong = try_all(refuser, command, kind, all_behind)
                    for line in wrong:
                        print(f'FAILED  {command}, {kind}{", all behind" * all_behind}: {line}')
                    faulty, total = faulty + len(wrong), total + count
                    ends = ', '.join(f'status {status} {times}' for status, times in sorted(statuses.items(), key=str))
                    if count:
                        print(f'{command}, {kind}{", all behind" * all_behind}: {count} calls; {ends}', flush=True)
    print(f'{total} runs, {faulty} of them faulty')
    return 1 if faulty else 0


if __name__ == '__main__':
    if len(sys.argv) != 2:
        sys.exit(__doc__)
    sys.exit(main(sys.argv[1]))
