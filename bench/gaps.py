#!/usr/bin/env python3
"""gaps.py PROGRAM [SEED [LEAVES]]: how near the printed gaps of random leaves come to their limits.

Makes LEAVES leaves (1,000) of 2 to 64 years: indicators of one to nine digits that drift, jump or stay, benchmarks near
the indicators, far from them, of either sign or 0, some of them missing, at both ends and between. Runs `batch` on up to
512 of them at a time, reads the lines `g` of the release, and computes each limit from the scale and the indicators alone.

Prints the number of leaves, how many gaps are above their limits (none should be) and the greatest ratio of a gap to its
limit, with its leaf. Ends with 1 where a gap is above its limit or a run doesn't end with 0."""
import os
import random
import subprocess
import sys
import tempfile

START = 2000


def indicators_of(draw, quarters):
    size = 10 ** draw.randint(0, 8)
    kind = draw.randrange(4)
    base = draw.randint(size, 10 * size)
    run = []
    for quarter in range(quarters):
        if kind == 0:
            base = max(1, base + draw.randint(-base // 20 - 1, base // 20 + 1))
            run.append(base)
        elif kind == 1:
            run.append(draw.randint(1, 10 * size))
        elif kind == 2:
            run.append(base)
        else:
            run.append(base if draw.random() < 0.9 else draw.randint(1, 10 ** 9))
    return [min(10 ** 9, max(1, indicator)) for indicator in run]


def benchmark_of(draw, total):
    kind = draw.randrange(6)
    if kind < 3:
        return total + draw.randint(-total // 10 - 1, total // 10 + 1)
    if kind == 3:
        return draw.randint(-10 ** 12, 10 ** 12)
    if kind == 4:
        return draw.choice((0, 1, -1, 10 ** 12, -10 ** 12))
    return -total


def leaf_of(draw):
    years = draw.randint(2, 64)
    indicators = indicators_of(draw, min(256, 4 * years + draw.randrange(4)))
    missing = draw.choice((0.0, 0.1, 0.5, 0.9))
    benchmarks = {}
    for year in range(years):
        if draw.random() >= missing:
            benchmark = benchmark_of(draw, sum(indicators[4 * year:4 * year + 4]))
            benchmarks[year] = max(-10 ** 12, min(10 ** 12, benchmark))
    return indicators, benchmarks


def limit_of(scale, indicators):
    def up(indicator):
        return -(-scale // indicator)

    return sum((up(one) + up(other) + 1024) ** 2 for one, other in zip(indicators, indicators[1:]))


def gaps_of(program, folder, leaves):
    plan, given, release = (os.path.join(folder, name) for name in ("plan.csv", "input.csv", "release.csv"))
    with open(plan, "w") as out:
        out.write(f"start,{START}\nreference,{START}\n")
        out.writelines(f"item,L{leaf},\n" for leaf in range(len(leaves)))
    with open(given, "w") as out:
        for leaf, (indicators, benchmarks) in enumerate(leaves):
            for quarter, indicator in enumerate(indicators):
                out.write(f"ind,L{leaf},{START + quarter // 4}Q{quarter % 4 + 1},{indicator}\n")
            for year, benchmark in benchmarks.items():
                out.write(f"bench,L{leaf},{START + year},{benchmark}\n")
    run = subprocess.run([program, "batch", plan, given, release], capture_output=True)
    if run.returncode or run.stdout or run.stderr:
        sys.exit(f"batch ended with {run.returncode}: {run.stdout.decode()}{run.stderr.decode()}")
    with open(release) as lines:
        for line in lines:
            if line.startswith("g,"):
                word, name, years, scale, gap = line.split(",")
                yield int(name[1:]), int(years), 10 ** int(scale), int(gap)


def main():
    program = os.path.abspath(sys.argv[1])
    draw = random.Random(int(sys.argv[2]) if len(sys.argv) > 2 else 1)
    count = int(sys.argv[3]) if len(sys.argv) > 3 else 1000
    leaves = [leaf_of(draw) for leaf in range(count)]
    above, most, with_gap = 0, (0.0, None), 0
    with tempfile.TemporaryDirectory() as folder:
        for first in range(0, count, 512):
            part = leaves[first:first + 512]
            for leaf, years, scale, gap in gaps_of(program, folder, part):
                with_gap += 1
                limit = limit_of(scale, part[leaf][0])
                above += gap > limit
                if gap / limit > most[0]:
                    most = (gap / limit, f"leaf {first + leaf}: {years} years, scale {len(str(scale)) - 1}, gap {gap}, limit {limit}")
    print(f"{count} leaves, {with_gap} with a gap, {above} above their limits; greatest ratio {most[0]:.4f} ({most[1]})")
    sys.exit(1 if above else 0)


main()
