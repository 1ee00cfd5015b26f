"""A second reading of docs/FORMATS.md: what words, plans, lines and certificates say.

It shares no code with the program."""
import re
from types import SimpleNamespace

MARK = b'\xef\xbb\xbf'
NAME = re.compile(rb'[A-Za-z0-9_.-]{1,32}')
YEAR = re.compile(rb'[0-9]{4}')
QUARTER = re.compile(rb'([0-9]{4})-?[Qq]([1-4])')
NUMBER = re.compile(rb'-?[0-9]+')
FIELD = re.compile(rb'"((?:[^"]|"")*)(?:"([^,]*))?|([^,]*)')
INPUTS = {b'ind': (QUARTER, 1, 10**9), b'price': (QUARTER, 1, 10**9), b'bench': (YEAR, -10**12, 10**12)}
MOST_INPUTS, MOST_ITEMS, MOST_LINE, MOST_TEXT, YEARS = 262144, 512, 256, 2**20, 64


def lines_of(text):
    """The lines of a text, without their ends."""
    lines = text.removeprefix(MARK).split(b'\n')
    if lines[-1] == b'':
        lines.pop()
    return [line.removesuffix(b'\r') for line in lines]


def is_passed_over(line):
    """Whether a line is empty or a comment."""
    return len(line) <= MOST_LINE and line[:1] in (b'', b'#')


def fields_of(line):
    """The fields of the one record in a line, or nothing."""
    line = line.removeprefix(MARK)
    if not line or b'\r' in line:
        return None
    fields, at = [], 0
    while True:
        quoted, behind, plain = (found := FIELD.match(line, at)).groups()
        fields.append(plain if quoted is None else quoted.replace(b'""', b'"') + (behind or b''))
        at = found.end() + 1
        if at > len(line):
            return fields


# The words.

def form_of(words):
    """The command that the words name, with its files; or nothing."""
    plain, workers = list(words), b'2'
    if b'--workers' in plain[1:] and plain[0] == b'live':
        at = plain.index(b'--workers')
        workers = plain[at + 1] if at + 1 < len(plain) else b''
        del plain[at:at + 2]
    names = plain[1:]
    if not are_texts(words) or any(word[:1] == b'-' for word in plain) or b'' in names or len(set(names)) < len(names):
        return None
    if plain[:1] == [b'live'] and len(names) % 2 == 0 and 4 <= len(names) <= 34:
        if not re.fullmatch(rb'[0-9]{1,20}', workers) or int(workers) > 16:
            return None
    elif (plain[:1], len(names)) not in (([b'batch'], 3), ([b'check'], 1)):
        return None
    return SimpleNamespace(command=plain[0], names=names)


def are_texts(words):
    """Whether all words are UTF-8."""
    try:
        return [word.decode() for word in words] is not None
    except UnicodeDecodeError:
        return False


# The plan.

def read_plan(text):
    """The plan of a text. Where it is refused, `refusal` has the number of its first refused line and the cause."""
    plan = SimpleNamespace(start=None, reference=None, names=[], parents=[], refusal=None)
    lines = lines_of(text)
    for number, line in enumerate(lines, 1):
        if not is_passed_over(line):
            cause = plan_cause(plan, line)
            if cause:
                plan.refusal = number, cause
                return plan
    if plan.start is None:
        plan.refusal = len(lines) + 1, b'nostart'
        return plan
    plan.base = (plan.reference or plan.start) - plan.start
    plan.leaves = {name for name in plan.names if name not in plan.parents}
    return plan


def plan_cause(plan, line):
    """Takes a line into a plan, or answers why it is refused."""
    fields = fields_of(line) if len(line) <= MOST_LINE else None
    if not fields or {b'start': 2, b'reference': 2, b'item': 3}.get(fields[0]) != len(fields):
        return b'form'
    word, value = fields[:2]
    if not (NAME if word == b'item' else YEAR).fullmatch(value):
        return b'form'
    if word != b'start' and plan.start is None:
        return b'nostart'
    return item_cause(plan, value, fields[2]) if word == b'item' else year_cause(plan, word.decode(), int(value))


def item_cause(plan, name, parent):
    """Takes an item into a plan, or answers why it is refused."""
    if name in plan.names:
        return b'twice'
    if parent and parent not in plan.names:
        return b'noparent'
    if len(plan.names) == MOST_ITEMS:
        return b'toomany'
    plan.names.append(name)
    plan.parents.append(parent)
    return None


def year_cause(plan, word, year):
    """Takes the first year or the reference year into a plan, or answers why it is refused."""
    if getattr(plan, word) is not None:
        return b'twice'
    first, last = (1900, 2200) if word == 'start' else (plan.start, plan.start + YEARS - 1)
    if not first <= year <= last:
        return b'year'
    setattr(plan, word, year)
    return None


# The lines of an input or a desk.

def judged(plan, line):
    """What a line says: `passed`, `refused` with a cause, `asked` with a word and a name, or `taken` with an input."""
    if is_passed_over(line):
        return 'passed', None
    if len(line) > MOST_LINE:
        return 'refused', b'long'
    fields = fields_of(line) or [b'']
    if (fields[0], len(fields)) in ((b'sync', 1), (b'release', 1), (b'release', 2), (b'cert', 2)):
        return 'asked', (fields + [None])[:2]
    if fields[0] not in INPUTS or len(fields) not in (4, 5):
        return 'refused', b'form'
    return judged_input(plan, *fields)


def judged_input(plan, kind, name, when, value, party=b'1'):
    """The same of a line that begins as an input does: the input is its kind, name, period, value and spelling."""
    spelling, least, most = INPUTS[kind]
    period = spelling.fullmatch(when)
    if not period or not NUMBER.fullmatch(value) or not NUMBER.fullmatch(party) or not 1 <= int(party) <= 16:
        return 'refused', b'form'
    if name not in plan.leaves:
        return 'refused', b'unknown'
    value, year = int(value), int(when[:4]) - plan.start
    if kind == b'ind' and value == 0:
        return 'refused', b'zero'
    if not 0 <= year < YEARS or not least <= value <= most:
        return 'refused', b'range'
    place = year if kind == b'bench' else 4 * year + int(period[2]) - 1
    spelled = when[:4] if kind == b'bench' else b'%sQ%s' % period.groups()
    return 'taken', (kind, name, place, value, b'%s,%s,%s,%d' % (kind, name, spelled, value))


def taken_and_refused(plan, text):
    """The accepted inputs of an input's text, and the lines that report its refused ones."""
    taken, report = [], []
    for number, line in enumerate(lines_of(text), 1):
        what, said = judged(plan, line)
        if what == 'taken' and len(taken) == MOST_INPUTS:
            what, said = 'refused', b'full'
        if what == 'taken':
            taken.append(said)
        if what == 'refused':
            report.append(b'%d,no,%s\n' % (number, said))
    return taken, b''.join(report)


# The certificate.

class Broken(Exception):
    """The form of a certificate is broken at the line of this number."""


class Certificate:
    """A certificate's numbers, and the first of its lines that has a number out of range."""

    def __init__(self, text):
        lines = lines_of(text)
        self.rest = [(number, line) for number, line in enumerate(lines, 1) if not is_passed_over(line)]
        self.behind, self.odd = len(lines) + 1, None
        self.read_head()
        self.ind = self.read_quarters(b'i', self.odd_indicator)
        self.places, self.bench = self.read_benchmarks()
        self.need(self.bench)
        self.values = self.read_quarters(b'x', self.odd_value, len(self.ind))
        self.need(len(self.values) == len(self.ind))
        self.multipliers = [self.read_multiplier(place) for place in self.places[:-1]]
        self.gap = self.read_number(b'gap', 0, 10**36)
        self.need(self.next_fields() == [b'end'])
        self.rest.pop(0)
        self.need(not self.rest)

    def need(self, holds):
        """The form is broken at the next line, unless this holds."""
        if not holds:
            raise Broken(self.rest[0][0] if self.rest else self.behind)

    def next_fields(self):
        """The fields of the next line."""
        line = self.rest[0][1] if self.rest else b''
        return fields_of(line) if len(line) <= MOST_LINE else None

    def take(self, is_odd):
        """Takes the next line, and notes it where it is the first with a number out of range."""
        number = self.rest.pop(0)[0]
        if is_odd and self.odd is None:
            self.odd = number

    def read_head(self):
        """The item and the front, the scale, and the first year."""
        fields = self.next_fields()
        self.need(fields and len(fields) == 3 and fields[0] == b'cert')
        self.need(NAME.fullmatch(fields[1]) and NUMBER.fullmatch(fields[2]))
        self.take(not 0 <= int(fields[2]) <= MOST_INPUTS)
        self.scale = self.read_number(b'scale', 0, 15)
        fields = self.next_fields()
        self.need(fields and len(fields) == 2 and fields[0] == b'start' and YEAR.fullmatch(fields[1]))
        self.start = int(fields[1])
        self.take(not 1900 <= self.start <= 2200)

    def read_number(self, word, least, most):
        """The number of a line of one."""
        fields = self.next_fields()
        self.need(fields and len(fields) == 2 and fields[0] == word and NUMBER.fullmatch(fields[1]))
        self.take(not least <= int(fields[1]) <= most)
        return int(fields[1])

    def value_at(self, word, spelling, period):
        """The number of the next line, where it is of this word and period."""
        fields = self.next_fields()
        if not fields or len(fields) != 3 or fields[0] != word or not NUMBER.fullmatch(fields[2]):
            return None
        found = spelling.fullmatch(fields[1])
        return int(fields[2]) if found and b'Q'.join(found.groups() or (found[0],)) == period else None

    def read_quarters(self, word, is_odd, most=None):
        """The numbers of the next lines, quarter by quarter."""
        numbers = []
        while most is None or len(numbers) < most:
            period = b'%04dQ%d' % (self.start + len(numbers) // 4, len(numbers) % 4 + 1)
            number = self.value_at(word, QUARTER, period)
            if number is None:
                break
            numbers.append(number)
            self.take(is_odd(numbers))
        return numbers

    def odd_indicator(self, numbers):
        """Whether the last indicator is out of range, or one too many."""
        return not 1 <= numbers[-1] <= 10**9 or len(numbers) == 4 * YEARS + 1

    def odd_value(self, numbers):
        """Whether the last value of the series is out of range."""
        if self.odd is not None:
            return False
        return abs(numbers[-1]) > 10**16 * self.ind[len(numbers) - 1] // 10**self.scale

    def read_benchmarks(self):
        """The places of the benchmarked years, and their benchmarks."""
        places, numbers = [], []
        for place in range(len(self.ind) // 4):
            number = self.value_at(b'b', YEAR, b'%04d' % (self.start + place))
            if number is not None:
                places.append(place)
                numbers.append(number)
                self.take(abs(number) > 10**12)
        return places, numbers

    def read_multiplier(self, place):
        """The multiplier that stands behind the benchmarked year of this place."""
        number = self.value_at(b'u', YEAR, b'%04d' % (self.start + place))
        self.need(number is not None)
        self.take(abs(number) > 10**15)
        return number
