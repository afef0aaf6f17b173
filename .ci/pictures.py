#!/usr/bin/env python3
"""Draws the pictures of the pages as SVG files in docs/: what crates.txt and the tables of bench/README.md have is read from there.

    .ci/pictures.py          writes them anew
    .ci/pictures.py --check  fails, and names the file, where one differs from what this script draws
"""
import html
import os
import re
import sys

sys.dont_write_bytecode = True
sys.path.insert(0, os.path.dirname(os.path.abspath(__file__)))
import kit
import tables

WIDTH = 900
INK, LINE = "#1a1a1a", "#5b6470"
FILLS = {"program": "#dbe9f8", "laws": "#fbeec2", "tests": "#e6e6e6", "benches": "#dff0d8", "outside": "#ffffff", "door": "#dbe9f8", "sink": "#fbeec2"}


class Picture:
    """An SVG of WIDTH units, which grows downwards."""

    def __init__(self, title):
        self.title, self.parts, self.height = title, [], 0

    def add(self, part, bottom):
        self.parts.append(part)
        self.height = max(self.height, bottom)

    def text(self, x, y, words, size=13, anchor="start", bold=False):
        weight = ' font-weight="bold"' if bold else ""
        self.add(f'<text x="{x:g}" y="{y:g}" font-size="{size}" text-anchor="{anchor}"{weight}>{html.escape(words, quote=False)}</text>', y + 4)

    def box(self, x, y, width, height, fill, lines=(), dashed=False):
        """A box with lines of text in its middle; the first one is bold."""
        dash = ' stroke-dasharray="5 4"' if dashed else ""
        self.add(f'<rect x="{x:g}" y="{y:g}" width="{width:g}" height="{height:g}" rx="4" fill="{fill}" stroke="{LINE}"{dash}/>', y + height)
        first = y + height / 2 - 8.5 * (len(lines) - 1) + 4.5
        for at, line in enumerate(lines):
            self.text(x + width / 2, first + 17 * at, line, 13, "middle", at == 0)

    def arrow(self, points, words="", at=None, both=False, dashed=False, anchor="middle"):
        path = " ".join(f"{x:g},{y:g}" for x, y in points)
        start = ' marker-start="url(#back)"' if both else ""
        dash = ' stroke-dasharray="5 4"' if dashed else ""
        self.add(f'<polyline points="{path}" fill="none" stroke="{INK}" stroke-width="1.3" marker-end="url(#tip)"{start}{dash}/>', max(y for _, y in points))
        if words:
            self.text(*at, words, 12, anchor)

    def written(self):
        tip = '<marker id="tip" viewBox="0 0 8 8" refX="7.5" refY="4" markerWidth="8" markerHeight="8" orient="auto"><path d="M0 0 L8 4 L0 8 z"/></marker>'
        back = '<marker id="back" viewBox="0 0 8 8" refX="0.5" refY="4" markerWidth="8" markerHeight="8" orient="auto"><path d="M8 0 L0 4 L8 8 z"/></marker>'
        high = self.height + 12
        size = f'viewBox="0 0 {WIDTH} {high:g}" width="{WIDTH}" height="{high:g}"'
        head = f'<svg xmlns="http://www.w3.org/2000/svg" {size} font-family="DejaVu Sans, Verdana, sans-serif" fill="{INK}">'
        page = f'<rect width="{WIDTH}" height="{high:g}" fill="#ffffff"/>'
        return "\n".join([head, f"<title>{html.escape(self.title)}</title>", f"<defs>{tip}{back}</defs>", page, *self.parts, "</svg>", ""])


def length(words, size=12):
    """Returns about how wide a text is."""
    return len(words) * size * 0.58


def rows_within(names, width):
    """Returns names in rows that fit the width."""
    rows = [""]
    for name in names:
        longer = f"{rows[-1]}, {name}" if rows[-1] else name
        if length(longer) > width and rows[-1]:
            rows.append(name)
        else:
            rows[-1] = longer
    return rows


# ---- the crates by layer

def crates():
    """The crates of the program by layer, the highest on top, and what stands beside them."""
    kind, sheet = tables.kinds(), Picture("The crates by layer: the program, and what stands beside it")
    left, middle, right, top = 12, 560, 576, 40
    sheet.text(left, 24, tables.KINDS["program"], 14, bold=True)
    at = right
    for one, words in list(tables.KINDS.items())[1:]:
        sheet.add(f'<rect x="{at}" y="13" width="13" height="13" fill="{FILLS[one]}" stroke="{LINE}"/>', 26)
        sheet.text(at + 19, 24, words)
        at += 42 + length(words, 13)
    for layer, _, names in reversed(tables.layers()):
        own = [it for it in names if kind[it] == "program"]
        others = {one: [it for it in names if kind[it] == one] for one in list(tables.KINDS)[1:]}
        beside = [(one, rows_within(them, WIDTH - right - 28)) for one, them in others.items() if them]
        rows = rows_within(own, middle - left - 28) if own else []
        high = max(30 + 17 * len(rows), sum(14 + 17 * len(it) for _, it in beside) + 6 * max(0, len(beside) - 1), 32)
        if own:
            sheet.box(left, top, middle - left, high, FILLS["program"])
        sheet.text(left + 12, top + 19, layer, 13, bold=True)
        for row, words in enumerate(rows):
            sheet.text(left + 14, top + 38 + 17 * row, words, 12)
        y = top
        for at, (one, lines) in enumerate(beside):
            tall = high - (y - top) if at == len(beside) - 1 else 14 + 17 * len(lines)
            sheet.box(right, y, WIDTH - right - 12, tall, FILLS[one])
            for row, words in enumerate(lines):
                sheet.text(right + 12, y + 20 + 17 * row, words, 12)
            y += tall + 6
        top += high + 8
    return sheet


# ---- where the door stands

def cluster():
    """Where the door stands in a cluster."""
    sheet = Picture("Where the door stands: between clients and the API servers, with a log and a webhook")
    sheet.box(12, 60, 130, 70, FILLS["outside"], ["clients", "kubectl,", "controllers"])
    sheet.box(212, 60, 90, 70, FILLS["outside"], ["nginx", "ends TLS"])
    sheet.box(372, 30, 190, 130, FILLS["door"], ["apiaggd serve", "who asks, for what", "to which API", "at which level"])
    sheet.box(632, 30, 90, 130, FILLS["outside"], ["nginx", "begins TLS"])
    sheet.box(782, 20, 106, 56, FILLS["outside"], ["API server", "RBAC"])
    sheet.box(782, 104, 106, 66, FILLS["outside"], ["aggregated", "API servers"])
    sheet.arrow([(142, 95), (212, 95)], "https", (177, 88), both=True)
    sheet.arrow([(302, 95), (372, 95)], "http", (337, 88), both=True)
    sheet.arrow([(562, 95), (632, 95)], "http", (597, 88), both=True)
    sheet.arrow([(722, 52), (782, 52)], "https", (752, 45), both=True)
    sheet.arrow([(722, 136), (782, 136)], "https", (752, 129), both=True)
    sheet.box(300, 222, 176, 52, FILLS["sink"], ["audit log", "a file, a pipe, stdout"])
    sheet.box(496, 222, 176, 52, FILLS["sink"], ["audit webhook", "posts over http"])
    sheet.arrow([(436, 160), (436, 222)], "events", (442, 196), anchor="start")
    sheet.arrow([(530, 160), (530, 222)], "events", (536, 196), anchor="start")
    sheet.box(12, 198, 200, 76, FILLS["outside"], ["files, read once", "tokens, policy,", "APIServices, endpoints"], dashed=True)
    sheet.arrow([(212, 236), (250, 236), (250, 190), (392, 190), (392, 160)], dashed=True)
    return sheet


# ---- a run

def run():
    """A run of serve: its threads, and what they share."""
    sheet = Picture("A run of serve: bays and drainers are threads; the routes and the queues are shared")
    sheet.box(12, 92, 104, 196, FILLS["outside"], ["clients"])
    sheet.box(180, 14, 250, 52, FILLS["laws"], ["routes", "one table, shared by all bays"])
    for at, name in enumerate(("bay 0", "bay 1", "bay N - 1")):
        y = 92 + 70 * at
        sheet.box(180, y, 250, 56, FILLS["door"], [name, "door, dial, clock, diary, lanes"])
        sheet.arrow([(116, y + 28), (180, y + 28)], both=True)
        sheet.add(f'<line x1="430" y1="{y + 28}" x2="454" y2="{y + 28}" stroke="{INK}" stroke-width="1.3"/>', y + 28)
    sheet.add(f'<line x1="454" y1="120" x2="454" y2="260" stroke="{INK}" stroke-width="1.3"/>', 260)
    sheet.text(148, 84, "doors", 12, "middle")
    sheet.arrow([(305, 66), (305, 92)], both=True)
    sheet.text(316, 84, "look-ups, changes", 12)
    sheet.box(180, 330, 250, 46, FILLS["outside"], ["backends"])
    sheet.arrow([(305, 288), (305, 330)], "dials: one link for each request", (316, 314), both=True, anchor="start")
    for y, name in ((92, "log"), (232, "webhook")):
        sheet.box(530, y, 110, 56, FILLS["laws"], ["queue", f"of the {name}"])
        sheet.box(676, y, 86, 56, FILLS["door"], ["drainer", "a thread"])
        sheet.box(798, y, 90, 56, FILLS["sink"], [name])
        sheet.arrow([(454, y + 28), (530, y + 28)], "mode batch", (491, y + 20))
        sheet.arrow([(640, y + 28), (676, y + 28)])
        sheet.arrow([(762, y + 28), (798, y + 28)])
    sheet.text(454, 84, "lanes", 12, "middle")
    sheet.text(658, 84, "lines", 12, "middle")
    sheet.text(780, 84, "batches", 12, "middle")
    sheet.arrow([(454, 190), (843, 190), (843, 148)], dashed=True)
    sheet.arrow([(843, 190), (843, 232)], dashed=True)
    sheet.text(648, 182, "modes blocking and strict: a sink of each bay's own", 12, "middle")
    return sheet


# ---- rates

def rates():
    """Bars of the first table of bench/README.md whose columns are requests a second."""
    head, rows = None, []
    for line in tables.text_of("bench/README.md").splitlines():
        cells = [it.strip() for it in line.strip("|").split("|")] if line.startswith("|") else []
        if head is None and cells[:2] == ["server", "clients"] and any("a second" in it for it in cells):
            head = cells
        elif head and cells and not re.fullmatch("-+", cells[0]):
            rows.append(cells)
        elif head and not cells:
            break
    if not rows:
        raise tables.Wrong("bench/README.md: no table of servers, clients and requests a second")
    asked = [at for at, it in enumerate(head) if "a second" in it]
    sheet, left, gap = Picture("Requests a second, from the first table of bench/README.md"), 210, 22
    wide = (WIDTH - left - 12) / len(asked) - gap
    for column, at in enumerate(asked):
        sheet.text(left + column * (wide + gap), 22, head[at].replace("`", ""), 13, bold=True)
    top = 34
    for clients in dict.fromkeys(row[1] for row in rows):
        sheet.text(12, top + 14, f"{clients} clients", 13, bold=True)
        top += 22
        for row in (it for it in rows if it[1] == clients):
            sheet.text(12, top + 14, row[0], 12)
            for column, at in enumerate(asked):
                most = max(float(it[at].replace(",", "")) for it in rows)
                share = float(row[at].replace(",", "")) / most * (wide - 62)
                x = left + column * (wide + gap)
                fill = "#3f7fbf" if "door" in row[0] else "#b5bcc6"
                sheet.add(f'<rect x="{x:.1f}" y="{top + 2}" width="{share:.1f}" height="15" fill="{fill}"/>', top + 17)
                sheet.text(round(x + share + 5, 1), top + 14, row[at], 12)
            top += 21
        top += 8
    return sheet


PICTURES = {"docs/cluster.svg": cluster, "docs/run.svg": run, "docs/crates.svg": crates, "docs/rates.svg": rates}


def main():
    words = sys.argv[1:]
    if words not in ([], ["--check"]):
        print(__doc__.strip(), file=sys.stderr)
        return 2
    status = 0
    try:
        for path, draw in PICTURES.items():
            text, was = draw().written(), None
            if os.path.isfile(f"{kit.TOP}/{path}"):
                was = tables.text_of(path)
            if text != was and words:
                kit.tell(f"{path}: the picture differs from its sources: '.ci/pictures.py' draws it")
                status = 1
            elif text != was:
                with open(f"{kit.TOP}/{path}", "w", encoding="utf-8") as file:
                    file.write(text)
    except (tables.Wrong, OSError, ValueError) as why:
        kit.tell(f"pictures: {why}")
        return 1
    return status


if __name__ == "__main__":
    sys.exit(main())
