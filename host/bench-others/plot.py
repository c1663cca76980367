#!/usr/bin/env python3
"""plot.py TIMES SVG: draws the times that `run` measured, and prints them as a table of docs/BENCHMARKS.md."""
import sys
from math import ceil, floor, log10

SIZES = {"tester": "tester: 32 commits, 511 entries", "full": "full: 4,096 commits, 65,535 entries"}
WHO = {  # and the colour of each
    "ours": "#1b6ca8",
    "ours, no check": "#8fc1e3",
    "Rust": "#c8553d",
    "Rust, no check": "#f0b6a8",
    "original": "#5a8f3c",
    "LMDB": "#7d4f9e",
    "SQLite": "#b08a2e",
}


def read(path):
    """The times by call, size and who; a call without its check is another who, where the difference can be told."""
    times = {}
    for line in open(path).read().splitlines()[1:]:
        call, size, who, whole, *check = line.split("\t")
        times[call, size, who] = float(whole)
        if check and not call.startswith("check"):
            without = float(whole) - float(check[0])
            if without > 0.02 * float(whole):
                times[call, size, who + ", no check"] = without
    return times


def number(x):
    return f"{x:,.0f}" if x >= 100 else f"{x:.1f}" if x >= 10 else f"{x:.2f}"


def table(times, calls):
    head = ["call", "size", "ours, µs", "without the check", "Rust, µs", "without the check", "ratio", "original on its stand-ins", "LMDB", "SQLite"]
    lines = ["| " + " | ".join(head) + " |", "|" + "---|" * len(head)]
    for call in calls:
        for size in SIZES:
            def cell(who):
                t = times.get((call, size, who))
                return "" if t is None else number(t)

            def less(who):
                whole = times.get((call, size, who))
                if whole is None or call.startswith("check"):
                    return ""
                return cell(who + ", no check") or f"under {number(0.02 * whole)}"
            ratio = times[call, size, "ours"] / times[call, size, "Rust"]
            row = [call, size, cell("ours"), less("ours"), cell("Rust"), less("Rust"), f"{ratio:.2f}", cell("original"), cell("LMDB"), cell("SQLite")]
            lines.append("| " + " | ".join(row) + " |")
    return "\n".join(lines)


def draw(times, calls):
    left, right, top, row = 165, 40, 64, 26
    panel, gap = 560, 56
    height = top + len(calls) * row
    low, high = floor(log10(min(times.values()))), ceil(log10(max(times.values())))
    width = left + panel + right
    total = 2 * (height + gap) + 10
    out = [f'<svg xmlns="http://www.w3.org/2000/svg" viewBox="0 0 {width} {total}" font-family="sans-serif" font-size="12">']
    out.append(f'<rect width="{width}" height="{total}" fill="white"/>')

    def place(t):
        return left + panel * (log10(t) - low) / (high - low)

    for k, (size, title) in enumerate(SIZES.items()):
        base = k * (height + gap)
        out.append(f'<text x="{left}" y="{base + 20}" font-size="15">{title}</text>')
        x = left
        for who, colour in WHO.items():
            out.append(f'<circle cx="{x + 5}" cy="{base + 38}" r="5" fill="{colour}"/><text x="{x + 14}" y="{base + 42}">{who}</text>')
            x += 26 + 7 * len(who)
        bottom = base + height
        for power in range(low, high + 1):
            at = place(10.0 ** power)
            label = f"{10 ** power:,}" if power >= 0 else f"{10.0 ** power:g}"
            out.append(f'<line x1="{at:.1f}" y1="{base + top - 12}" x2="{at:.1f}" y2="{bottom}" stroke="#ddd"/>')
            out.append(f'<text x="{at:.1f}" y="{bottom + 16}" text-anchor="middle">{label}</text>')
        out.append(f'<text x="{left + panel / 2}" y="{bottom + 33}" text-anchor="middle">microseconds, logarithmic</text>')
        for i, call in enumerate(calls):
            y = base + top + i * row
            out.append(f'<text x="{left - 10}" y="{y + 4}" text-anchor="end">{call}</text>')
            out.append(f'<line x1="{left}" y1="{y}" x2="{left + panel}" y2="{y}" stroke="#eee"/>')
            for who, colour in WHO.items():
                t = times.get((call, size, who))
                if t:
                    out.append(f'<circle cx="{place(t):.1f}" cy="{y}" r="5" fill="{colour}"><title>{call}, {who}: {number(t)} µs</title></circle>')
    out.append("</svg>")
    return "\n".join(out) + "\n"


def main():
    times = read(sys.argv[1])
    calls = list(dict.fromkeys(call for call, _, _ in times))
    open(sys.argv[2], "w").write(draw(times, calls))
    print(table(times, calls))


main()
