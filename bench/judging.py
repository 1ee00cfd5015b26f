#!/usr/bin/python3 -B
"""Judges a finished run of `live` by a second reading of docs/FORMATS.md, and asks the program nothing.

    bench/judging.py PLAN JOURNAL REPORT IN OUT [IN OUT ..]

It tells what isn't as docs/LIVE.md says, a line each, and ends with 1; or `lawful`, and ends with 0. Judged are: the
journal, which has the accepted lines of each desk in its order, and nothing else; the report, which is the release of
the journal; and the answers, one to each line that isn't passed over: the refusal, the input's place, or the text of
a front that this desk may be shown.
"""
import re
import sys
from collections import deque

from compiling import Release, record
from reading import MOST_INPUTS, judged, lines_of, read_plan, taken_and_refused

MOST_BEHIND = 1024


class Ended(Exception):
    """The answers are read as far as they go: they end within a lawful answer, or go on with another one."""


class Run:
    """What a run left: the plan, the journal, and the releases of its beginnings."""

    def __init__(self, plan, journal):
        self.plan, self.journal, self.releases = read_plan(plan), journal, {}
        self.taken, self.refused = taken_and_refused(self.plan, journal)

    def release(self, front):
        """The release of the first inputs of the journal."""
        if front not in self.releases:
            self.releases[front] = Release(self.plan, self.taken[:front])
        return self.releases[front]

    def places(self, desk):
        """The places in the journal that a desk's inputs have, and their lines."""
        return [(place, line) for place, line in enumerate(lines_of(self.journal), 1) if line.endswith(b',%d' % desk)]

    def judge(self, report, desks, are_cut=False):
        """What is wrong with the report and the answers of the desks, each with its lines; cut desks may break off."""
        wrong = [f'journal: line {self.refused.split(b",")[0].decode()} is refused'] if self.refused else []
        if self.journal != b''.join(line + b'\n' for line in lines_of(self.journal)):
            wrong.append("journal: its lines don't end as they have to")
        if sum(len(self.places(desk)) for desk in range(1, len(desks) + 1)) != len(self.taken):
            wrong.append('journal: it has lines of no desk')
        if report is not None and report != self.release(len(self.taken)).text():
            wrong.append("report: it isn't the release of the journal")
        for number, (lines, answers) in enumerate(desks, 1):
            fault = Answers(self, number, answers, are_cut).judge(lines)
            wrong += [f'desk {number}, {fault}'] if fault else []
        return wrong


class Answers:
    """The answers of a desk, as far as they are read."""

    def __init__(self, run, desk, answers, is_cut):
        self.run, self.desk, self.answers, self.is_cut = run, desk, answers, is_cut
        self.places, self.at, self.own, self.front, self.fault = deque(run.places(desk)), 0, 0, 0, None
        # from where the answers break off the journal alone tells which lines were taken
        self.has_broken_off = False

    def judge(self, text):
        """What is wrong with the answers to these lines, or nothing."""
        number = 0
        try:
            for number, line in enumerate(lines_of(text), 1):
                self.answer(*judged(self.run.plan, line))
        except Ended:
            return self.fault and f'line {number}: {self.fault}'
        if self.at < len(self.answers) or self.places:
            return 'it has more answers, or more inputs, than lines'
        return None

    def fail(self, fault):
        """Ends the reading."""
        self.fault = fault
        raise Ended

    def expect(self, answer):
        """Reads this answer, as far as answers were written."""
        if self.has_broken_off:
            return
        if self.answers.startswith(answer, self.at):
            self.at += len(answer)
            return
        rest = self.answers[self.at:]
        if not (self.is_cut and answer.startswith(rest)):
            self.fail(f'{rest[:60]!r} in place of {answer[:60]!r}')
        self.break_off()

    def break_off(self):
        """Takes note that no more was written."""
        self.has_broken_off, self.at = True, len(self.answers)

    def answer(self, what, said):
        """Reads the answer to one line."""
        if what == 'refused':
            self.expect(record(b'no', said))
        if what == 'taken':
            self.answer_input(said)
        if what == 'asked':
            self.answer_question(*said)

    def answer_input(self, said):
        """Reads the place of an accepted input."""
        if not self.places and len(self.run.taken) == MOST_INPUTS:
            return self.expect(b'no,full\n')
        if not self.places and self.is_cut and self.at == len(self.answers):
            raise Ended
        if not self.places:
            self.fail('the input is not in the journal')
        place, line = self.places[0]
        if line != b'%s,%d' % (said[4], self.desk) or place <= max(self.own, self.front):
            self.fail(f'the journal has {line!r} at {place}, after {self.own} and front {self.front}')
        self.expect(record(b'ok', place))
        self.own = place
        self.places.popleft()

    def answer_question(self, word, name):
        """Reads the text of a front."""
        if name is not None and name not in (self.run.plan.leaves if word == b'cert' else self.run.plan.names):
            return self.expect(b'no,unknown\n')
        certificates = [b'cert,%s' % (name or b''), b'nocert,%s' % (name or b'')]
        words = {b'sync': [b'synced'], b'release': [b'release']}.get(word, certificates)
        front = None if self.has_broken_off else self.front_behind(words)
        if front is None:
            return
        least = max(self.front, self.own if word == b'sync' else self.own - MOST_BEHIND)
        if not least <= front <= len(self.run.taken):
            self.fail(f'front {front} after {self.own} and front {self.front}')
        if word == b'sync':
            self.expect(record(b'synced', front))
        else:
            release = self.run.release(front)
            self.expect(release.certificate(name) if word == b'cert' else release.text(name))
        self.front = front

    def front_behind(self, words):
        """The front that stands behind one of these words in the next line, or none where it was not written."""
        head, end, _ = self.answers[self.at:].partition(b'\n')
        for word in words:
            found = re.fullmatch(re.escape(word) + rb',(0|[1-9][0-9]*)', head)
            if found and end:
                return int(found[1])
        if self.is_cut and not end and any((word + b',').startswith(head[:len(word) + 1]) for word in words):
            return self.break_off()
        self.fail(f'{head[:60]!r} in place of a front')


def judge_files(plan, journal, report, *desks):
    """Judges the files of a run."""
    texts = [open(name, 'rb').read() for name in (plan, journal, report, *desks)]
    return Run(*texts[:2]).judge(texts[2], list(zip(texts[3::2], texts[4::2])))


if __name__ == '__main__':
    if len(sys.argv) < 6 or len(sys.argv) % 2:
        sys.exit(__doc__)
    faults = judge_files(*sys.argv[1:])
    print('\n'.join(faults) or 'lawful')
    sys.exit(1 if faults else 0)
