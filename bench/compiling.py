"""A second reading of docs/FORMATS.md: what is compiled of accepted inputs, in whole numbers of any size.

It shares no code with the program."""
from itertools import accumulate
from types import SimpleNamespace

from reading import Broken, Certificate

MISSING, NOBASE, NOLINK, RANGE = b'missing', b'nobase', b'nolink', b'range'
SWEEPS = 192


def floor(top, bottom):
    return top // bottom


def ceiling(top, bottom):
    return -(-top // bottom)


def rounded(top, bottom):
    """The nearest whole number, halves up."""
    return (2 * top + bottom) // (2 * bottom)


def total(cells):
    """The sum of cells, or the first mark among them."""
    for mark in (MISSING, NOBASE, RANGE):
        if mark in cells:
            return mark
    return sum(cells)


def shared_out(whole, parts, bottom):
    """A whole number over four quarters, of which each has its part over the bottom, about."""
    shares = [floor(part, bottom) for part in parts]
    lost = sorted(range(4), key=lambda quarter: (shares[quarter] * bottom - parts[quarter], quarter))
    for quarter in lost[:whole - sum(shares)]:
        shares[quarter] += 1
    return shares


# The values of a leaf.

class Year:
    """A benchmarked year: its place, its indicators, their sum, the sums before each, and its benchmark."""

    def __init__(self, place, ind, bench):
        self.place, self.ind, self.bench, self.sum = place, ind, bench, sum(ind)
        self.before = [0, *accumulate(ind)][:4]

    def changes(self, left, right):
        """The four ratio changes, each as what stands above the year's sum."""
        return [left * (self.sum - before) + right * before for before in self.before]

    def levels(self, unit, left, right):
        """The four levels, each as what stands above the unit and the year's sum."""
        steps = [0, *(floor(change, self.sum) for change in self.changes(left, right)[1:])]
        moved = list(accumulate(steps))
        first = unit * self.bench - sum(ind * step for ind, step in zip(self.ind, moved))
        return [first + self.sum * step for step in moved]


def scale_of(years):
    """The greatest scale that the benchmarks allow."""
    return max(k for k in range(16) if all(10**k * abs(year.bench) <= 10**13 * year.sum for year in years))


def ways_of(years):
    """How many changes lead from each benchmarked year to the next."""
    return [1 + 4 * (after.place - this.place - 1) for this, after in zip(years, years[1:])]


def weights_of(years):
    """What a multiplier's residual is divided by, for each two years."""
    return [1000 * way + sum(ceiling(1000 * before**2, this.sum**2) for before in this.before[1:])
            + sum(ceiling(1000 * (after.sum - before)**2, after.sum**2) for before in after.before[1:])
            for way, this, after in zip(ways_of(years), years, years[1:])]


def swept(years, unit, weights, multipliers):
    """The multipliers after one more sweep."""
    around = [0, *multipliers, 0]
    ends = [(floor(levels[0], year.sum), floor(levels[3], year.sum))
            for year, left, right in zip(years, around, around[1:]) for levels in [year.levels(unit, left, right)]]
    moved = [now + floor(1000 * (after[0] - this[1] - way * now), weight)
             for now, way, this, after, weight in zip(multipliers, ways_of(years), ends, ends[1:], weights)]
    return [max(-10**15, min(10**15, number)) for number in moved]


def multipliers_of(years, unit):
    """The multipliers after all sweeps; a sweep that moves nothing is the last that counts."""
    weights, multipliers = weights_of(years), [0] * (len(years) - 1)
    for _ in range(SWEEPS):
        before, multipliers = multipliers, swept(years, unit, weights, multipliers)
        if before == multipliers:
            break
    return multipliers


def years_of(ind, bench):
    """The benchmarked years: those that have a benchmark and all four indicators."""
    return [Year(place, ind[4 * place:4 * place + 4], bench[place]) for place in range(len(ind) // 4) if place in bench]


def values_of(ind, years, unit, multipliers):
    """The values of a leaf."""
    around, values = [0, *multipliers, 0], {}
    levels = [year.levels(unit, left, right) for year, left, right in zip(years, around, around[1:])]
    for year, level in zip(years, levels):
        shares = shared_out(year.bench, [i * part for i, part in zip(year.ind, level)], unit * year.sum)
        values.update(zip(range(4 * year.place, 4 * year.place + 4), shares))
    for way, this, after, end, begin in zip(ways_of(years), years, years[1:], levels, levels[1:]):
        first, last = floor(end[3], this.sum), floor(begin[0], after.sum)
        for k in range(1, way):
            t = 4 * this.place + 3 + k
            values[t] = rounded(ind[t] * (first + floor(k * (last - first), way)), unit)
    for t, i in enumerate(ind):
        if t not in values:
            year, level = (years[0], levels[0][0]) if t < 4 * years[0].place else (years[-1], levels[-1][3])
            values[t] = rounded(i * level, unit * year.sum)
    return [values[t] for t in range(len(ind))]


def changes_of(quarters, years, multipliers):
    """The change that the multipliers stand for at each quarter, as a fraction."""
    around, changes = [0, *multipliers, 0], []
    for year, left, right in zip(years, around, around[1:]):
        changes += [(left, 1)] * (4 * year.place - len(changes))
        changes += [(change, year.sum) for change in year.changes(left, right)]
    return changes + [(0, 1)] * (quarters - len(changes))


def gap_of(ind, years, unit, multipliers, values):
    """The gap of a series."""
    changes, gap = changes_of(len(ind), years, multipliers), 0
    for t in range(1, len(ind)):
        now, before = (unit * values[t], ind[t]), (unit * values[t - 1], ind[t - 1])
        low = floor(*now) - ceiling(*before) - ceiling(*changes[t])
        high = ceiling(*now) - floor(*before) - floor(*changes[t])
        gap += max(abs(low), abs(high))**2
    return gap


# The volumes and the chain of an item.

def base_quarters(t):
    """The quarters of the year at whose average prices a quarter's volume stands."""
    first = 4 * max(t // 4 - 1, 0)
    return range(first, first + 4)


def volumes_of(values, prices):
    """A leaf's volumes at previous-year prices."""
    known = {t: rounded(value * 10**6, prices[t]) for t, value in enumerate(values) if value != MISSING and t in prices}
    return [volume_of(t, values, known) for t in range(len(values))]


def volume_of(t, values, quantities):
    """The volume of a quarter, from the quantities of the quarters that have one."""
    base = base_quarters(t)
    if t not in quantities or any(s not in quantities for s in base):
        return MISSING
    value, quantity = sum(values[s] for s in base), sum(quantities[s] for s in base)
    if max(abs(value), *(abs(quantities[s]) for s in (t, *base))) > 10**15:
        return RANGE
    if quantity <= 0:
        return NOBASE
    volume = rounded(quantities[t] * value, quantity)
    return RANGE if abs(volume) > 10**15 else volume


def by_year(cells):
    """The sum of each year that has one of the cells' quarters."""
    return [total((cells[t:t + 4] + [MISSING] * 3)[:4]) for t in range(0, len(cells), 4)]


def is_number(cell):
    return not isinstance(cell, bytes)


def link_between(value, volume):
    """The mark of the link between a year of this value and the next, of this volume; or nothing."""
    if not is_number(volume) or not is_number(value):
        return value if is_number(volume) else volume
    if volume <= 0 or value <= 0:
        return NOLINK
    return RANGE if value > 10**18 else None


def level_at(base, values):
    """The level of the reference year, and its drift."""
    value = values[base] if base < len(values) else MISSING
    if not is_number(value):
        return value, value
    mark = NOLINK if value <= 0 else RANGE if value > 10**15 else None
    return (mark, mark) if mark else (10**4 * value, 0)


def linked(level, drift, mark, top, bottom):
    """A level and its drift, over a link with this mark or else this ratio."""
    mark = mark if is_number(level) else level
    if mark:
        return mark, mark
    level, drift = rounded(level * top, bottom), ceiling(drift * top, bottom) + 1
    return (level, drift) if max(abs(level), drift) <= 10**19 else (RANGE, RANGE)


def levels_of(values, volumes, base):
    """The level and the drift of each year."""
    levels = {base: level_at(base, values)}
    value = lambda y: values[y] if y < len(values) else MISSING
    volume = lambda y: volumes[y] if y < len(volumes) else MISSING
    for y in range(base + 1, len(values)):
        levels[y] = linked(*levels[y - 1], link_between(value(y - 1), volume(y)), volume(y), value(y - 1))
    for y in range(base - 1, -1, -1):
        levels[y] = linked(*levels[y + 1], link_between(value(y), volume(y + 1)), value(y), volume(y + 1))
    return [levels[y] for y in range(len(values))]


def chained_of(volumes, values, sums, levels):
    """The chained volume of each quarter; the values, sums and levels are those of the years."""
    chained = []
    for t, volume in enumerate(volumes):
        y = t // 4
        if not is_number(volume):
            chained.append(volume)
        elif is_number(values[y]) and is_number(sums[y]):
            chained.append(shared_quarter(t, volumes, sums[y], levels[y][0]))
        elif y == 0:
            chained.append(values[y] if is_number(sums[y]) else sums[y])
        else:
            chained.append(linked_quarter(volume, values[y - 1], levels[y - 1][0]))
    return chained


def shared_quarter(t, volumes, whole, level):
    """The share of a quarter in the level of its year."""
    if not is_number(level) or whole <= 0:
        return NOLINK if is_number(level) else level
    first = t - t % 4
    return shared_out(level, [level * volume for volume in volumes[first:first + 4]], whole)[t % 4]


def linked_quarter(volume, value, level):
    """A quarter's volume linked to the year before, of this value and level."""
    for cell in (level, value):
        if not is_number(cell):
            return cell
    if not 0 < value <= 10**18:
        return NOLINK if value <= 0 else RANGE
    chained = rounded(level * volume, value)
    return RANGE if abs(chained) > 10**19 else chained


# The release.

def leaf_of(given):
    """A leaf's values, volumes and certificate, from its inputs by kind and period."""
    ind = []
    while len(ind) in given[b'ind']:
        ind.append(given[b'ind'][len(ind)])
    years = years_of(ind, given[b'bench'])
    if not years:
        return SimpleNamespace(values=[MISSING] * len(ind), volumes=[MISSING] * len(ind), proof=None)
    scale = scale_of(years)
    multipliers = multipliers_of(years, 10**scale)
    values = values_of(ind, years, 10**scale, multipliers)
    gap = gap_of(ind, years, 10**scale, multipliers, values)
    proof = SimpleNamespace(scale=scale, ind=ind, years=years, multipliers=multipliers, gap=gap)
    return SimpleNamespace(values=values, volumes=volumes_of(values, given[b'price']), proof=proof)


class Release:
    """What is compiled of accepted inputs by a plan, as text."""

    def __init__(self, plan, taken):
        given = {name: {b'ind': {}, b'bench': {}, b'price': {}} for name in plan.leaves}
        for kind, name, period, value, _ in taken:
            given[name][kind][period] = value
        self.plan, self.front = plan, len(taken)
        self.leaves = {name: leaf_of(given[name]) for name in plan.leaves}
        self.under = self.leaves_under()
        self.parts = {name: self.item_text(name) for name in plan.names}

    def leaves_under(self):
        """The leaves under each item; under a leaf it is itself alone."""
        under = {name: [leaf] for name, leaf in self.leaves.items()}
        for name, parent in reversed(list(zip(self.plan.names, self.plan.parents))):
            if parent:
                under.setdefault(parent, []).extend(under[name])
        return under

    def cells_of(self, name, which):
        """An item's values or volumes, as sums over its leaves."""
        lists = [getattr(leaf, which) for leaf in self.under[name]]
        longest = max(map(len, lists))
        return [total([cells[t] if t < len(cells) else MISSING for cells in lists]) for t in range(longest)]

    def item_text(self, name):
        """The lines of an item."""
        values, volumes = self.cells_of(name, 'values'), self.cells_of(name, 'volumes')
        year_values, year_volumes = by_year(values), by_year(volumes)
        levels = levels_of(year_values, year_volumes, self.plan.base)
        chained = chained_of(volumes, year_values, year_volumes, levels)
        lines = [record(word, name, self.quarter(t), cell)
                 for word, cells in ((b'v', values), (b'k', volumes), (b'c', chained)) for t, cell in enumerate(cells)]
        lines += [record(b'a', name, self.plan.start + y, value, volume, *level)
                  for y, (value, volume, level) in enumerate(zip(year_values, year_volumes, levels))]
        proof = self.leaves[name].proof if name in self.leaves else None
        return b''.join(lines + ([record(b'g', name, len(proof.years), proof.scale, proof.gap)] if proof else []))

    def quarter(self, t):
        return b'%dQ%d' % (self.plan.start + t // 4, t % 4 + 1)

    def text(self, name=None):
        """The release, or the block of one item."""
        parts = self.parts.values() if name is None else [self.parts[name]]
        return record(b'release', self.front) + b''.join(parts) + record(b'end', self.front)

    def certificate(self, name):
        """The certificate of a leaf, or the line that it has none."""
        leaf = self.leaves[name]
        if not leaf.proof:
            return record(b'nocert', name, self.front)
        quarters = [self.quarter(t) for t in range(len(leaf.values))]
        years = [self.plan.start + part.place for part in leaf.proof.years]
        lines = [record(b'cert', name, self.front), record(b'scale', leaf.proof.scale)]
        lines += [record(b'start', self.plan.start)]
        lines += [record(b'i', *pair) for pair in zip(quarters, leaf.proof.ind)]
        lines += [record(b'b', year, part.bench) for year, part in zip(years, leaf.proof.years)]
        lines += [record(b'x', *pair) for pair in zip(quarters, leaf.values)]
        lines += [record(b'u', *pair) for pair in zip(years, leaf.proof.multipliers)]
        return b''.join(lines + [record(b'gap', leaf.proof.gap), record(b'end')])


def record(*fields):
    """A line of these fields."""
    return b','.join(field if isinstance(field, bytes) else b'%d' % field for field in fields) + b'\n'


# The verdict on a certificate.

def verdict_on(text):
    """What `check` has to report of a text."""
    try:
        said = Certificate(text)
    except Broken as broken:
        return record(b'no', b'shape', *broken.args)
    if said.odd is not None:
        return record(b'no', b'range', said.odd)
    years = years_of(said.ind, dict(zip(said.places, said.bench)))
    for year in years:
        if sum(said.values[4 * year.place:4 * year.place + 4]) != year.bench:
            return record(b'no', b'sum', said.start + year.place)
    gap = gap_of(said.ind, years, 10**said.scale, said.multipliers, said.values)
    return b'yes\n' if gap == said.gap else record(b'no', b'gap', said.gap, gap)
