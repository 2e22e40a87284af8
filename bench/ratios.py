"""Draws the ratios of bench/RESULTS.tsv over commits, as an SVG: one point per figure, and one line per bench that compares with
others.

Commits stand in the order of their first lines. The ratios stand on a logarithmic scale, and 1 is where both take as long.
Several figures of a bench and commit are drawn as their median."""

import html
import math
import statistics

# The benches that are drawn: each compares with something beside this project, or one worker with several.
DRAWN = {
    "changes: 10,000 changes to sqlite3": "#1f77b4",
    "observers: 10,000 changes and runs to sqlite3": "#d62728",
    "verify: verifying to DPDK's load": "#2ca02c",
    "verify: verifying to DPDK's load without machine code": "#98df8a",
    "verify: verifying to the kernel's verifier": "#006d2c",
    "machine: straight by one call to DPDK": "#9467bd",
    "machine: copying by one call to DPDK": "#c5b0d5",
    "machine: jumps by one call to DPDK": "#6a3d9a",
    "workers: changes, spread by 4 workers to one": "#ff7f0e",
    "workers: copies, spread by 4 workers to one": "#8c564b",
}
LEFT, TOP, HEIGHT, STEP, LEGEND = 50, 20, 300, 90, 420
MARKS = (0.1, 0.2, 0.5, 1, 2, 5)


def read(text):
    """The commits in order, and for each drawn bench its median ratio at each."""
    commits, ratios = [], {bench: {} for bench in DRAWN}
    for line in text.splitlines()[1:]:
        _, commit, _, bench, ratio, _ = line.split("\t")
        if bench in DRAWN and ratio != "-" and float(ratio) > 0:
            if commit not in commits:
                commits.append(commit)
            ratios[bench].setdefault(commit, []).append(float(ratio))
    return commits, {
        bench: {commit: statistics.median(known) for commit, known in of.items()} for bench, of in ratios.items()
    }


def height_of(ratio):
    """Where a ratio stands, from 5 at the top to 0.1 at the bottom; beyond, it stands at the edge."""
    low, high = math.log(MARKS[0]), math.log(MARKS[-1])
    return TOP + HEIGHT * min(1, max(0, (high - math.log(ratio)) / (high - low)))


def label(x, y, text, more=""):
    return f'<text x="{x:.0f}" y="{y:.0f}" {more}>{html.escape(text)}</text>'


def picture(text):
    commits, ratios = read(text)
    place = {commit: LEFT + STEP * (at + 0.5) for at, commit in enumerate(commits)}
    right = LEFT + STEP * max(1, len(commits))
    out = [
        f'<svg xmlns="http://www.w3.org/2000/svg" width="{right + LEGEND}" height="{TOP + HEIGHT + 40}"'
        ' font-family="sans-serif" font-size="11">',
        '<rect width="100%" height="100%" fill="white"/>',
    ]
    for mark in MARKS:
        y = height_of(mark)
        out.append(f'<path d="M{LEFT} {y:.1f}H{right}" stroke="{"#444" if mark == 1 else "#ddd"}"/>')
        out.append(label(LEFT - 6, y + 4, f"{mark:g}", 'text-anchor="end"'))
    for commit, x in place.items():
        out.append(label(x, TOP + HEIGHT + 18, commit, 'text-anchor="middle"'))
    for at, (bench, colour) in enumerate(DRAWN.items()):
        points = [(place[commit], height_of(ratios[bench][commit])) for commit in commits if commit in ratios[bench]]
        if points:
            way = " ".join(f"{x:.1f},{y:.1f}" for x, y in points)
            out.append(f'<polyline points="{way}" fill="none" stroke="{colour}"/>')
        out += [f'<circle cx="{x:.1f}" cy="{y:.1f}" r="3" fill="{colour}"/>' for x, y in points]
        y = TOP + 10 + 18 * at
        out.append(f'<circle cx="{right + 14}" cy="{y - 4}" r="3" fill="{colour}"/>')
        out.append(label(right + 24, y, bench + ("" if points else " (no figure)")))
    return "\n".join(out + ["</svg>"]) + "\n"
