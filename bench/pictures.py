#!/usr/bin/env python3
"""Makes pipeline.svg and one-path.svg from the first table of RESULTS.md; with --check it compares
them with what lies here, and ends with status 1 if one differs."""

import sys
from pathlib import Path

HERE = Path(__file__).resolve().parent
NAMES = ("relabel", "setfiles 3.11", "setfiles 3.4")
COLOURS = ("#1b6ca8", "#d1782a", "#999999")


def rows():
    for line in (HERE / "RESULTS.md").read_text(encoding="utf-8").splitlines():
        cells = [cell.strip() for cell in line.strip("|").split("|")]
        if cells[0] in ("pipeline", "one path, ms"):
            yield cells[0], cells[1], [float(cell) for cell in cells[2:5]]


def picture(title, groups, count):
    """Bars of each group, all to one scale."""
    top = max(value for _, values in groups for value in values[:count])
    lines, y = [], 40
    for label, values in groups:
        lines.append(f'<text x="10" y="{y}">{label}</text>')
        for name, colour, value in list(zip(NAMES, COLOURS, values))[:count]:
            y += 20
            width = 400 * value / top
            lines.append(f'<rect x="120" y="{y - 12}" width="{width:.1f}" height="14" '
                         f'fill="{colour}"/>')
            lines.append(f'<text x="10" y="{y}">{name}</text>')
            lines.append(f'<text x="{width + 126:.1f}" y="{y}">{value:g}</text>')
        y += 28
    return (f'<svg xmlns="http://www.w3.org/2000/svg" width="600" height="{y}" '
            f'font-family="sans-serif" font-size="12">\n'
            f'<rect width="600" height="{y}" fill="white"/>\n'
            f'<text x="10" y="18" font-weight="bold">{title}</text>\n'
            + "\n".join(lines) + "\n</svg>\n")


def main():
    table = list(rows())
    sizes = [(f"{size} entries", values) for what, size, values in table if what == "pipeline"]
    path = [("/etc/passwd", values) for what, _, values in table if what != "pipeline"]
    pictures = {"pipeline.svg": picture("Whole pipeline, processor seconds", sizes, 2),
                "one-path.svg": picture("One path, milliseconds", path, 3)}
    status = 0
    for name, text in pictures.items():
        if "--check" not in sys.argv[1:]:
            (HERE / name).write_text(text, encoding="utf-8")
        elif not (HERE / name).exists() or (HERE / name).read_text(encoding="utf-8") != text:
            print(f"bench/{name}: differs from the table; run bench/pictures.py")
            status = 1
    sys.exit(status)


main()
