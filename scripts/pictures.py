#!/usr/bin/env python3
"""Draws the pictures of docs/pictures/ from what the repository says, as SVG: the crates with who stands on whom, a file's way through them,
and the speed beside others.

`scripts/pictures.py` writes them. `scripts/pictures.py --check` says whether those that stand there are what it makes, and exits with 1 where one
isn't. The last line is 'N passed, M failed'. The crates are those of crates.txt, without those of tests and what these alone use, and
lines that follow from others are left out. Each box of the way names a type that its crate has, or the script stops. The speed is README's table.
"""

import functools
import os
import random
import re
import sys
from html import escape

TOP = os.path.dirname(os.path.dirname(os.path.abspath(__file__)))
FOLDER = f"{TOP}/docs/pictures"
# A ground of its own, so that a picture reads on a light page and on a dark one.
GROUND, INK, SOFT, LINE = "#fbfaf7", "#1f2328", "#5b6370", "#8a93a0"
# What is drawn how, by kind, in the legend's order.
KINDS = {
    "primitive": ("stands on nothing of age", "#f6e3c0"),
    "library": ("a layer", "#d6e6f7"),
    "front": ("the names for users", "#a9cdf2"),
    "program": ("a program", "#d3ecd0"),
    "static": ("a library for C", "#e4d9f3"),
}
# The width of a letter of these sizes in a monospaced font, and the room that a name has in its box.
LETTER, INSET, HEIGHT = 7.9, 10, 28
GAP, RISE, MARGIN = 22, 64, 24


def crates():
    """The crates of crates.txt but those of tests, each with those that it uses, and the static ones."""
    found, static = {}, set()
    with open(f"{TOP}/crates.txt", encoding="utf-8") as file:
        for line in file:
            name, _, words = line.partition("#")[0].partition(":")
            if name.strip():
                found[name.split()[0]] = words.split()
                if "staticlib" in name.split():
                    static.add(name.split()[0])
    # (support for tests is what crates of tests alone use; the claims are for a reader, and only tests call them)
    tests = {it for it in found if it.endswith("_tests")}
    while more := {it for it in found if it not in {*tests, "age_claims"} and (above := {a for a in found if it in found[a]}) and above <= tests}:
        tests |= more
    return {it: [used for used in uses if used in found] for it, uses in found.items() if it not in tests}, static


def reduced(uses):
    """Of what each uses, what doesn't follow from the rest."""

    @functools.lru_cache(None)
    def below(name):
        return frozenset(it for used in uses[name] for it in {used, *below(used)})

    return {name: [it for it in used if not any(it in below(other) for other in used)] for name, used in uses.items()}, below


def levels(edges):
    """How high each stands: above all that it uses, and what uses nothing right below its lowest user."""

    @functools.lru_cache(None)
    def height(name):
        return 1 + max((height(it) for it in edges[name]), default=-1)

    found = {it: height(it) for it in edges}
    for name in edges:
        users = [found[it] for it in edges if name in edges[it]]
        if not edges[name] and users:
            found[name] = min(users) - 1
    return found


def rows_of(edges, level):
    """The rows of what is drawn, lowest first, and the links between neighbouring rows. A line over several rows is a chain of points, one chain for
    all lines from one crate."""
    rows = [[] for _ in range(max(level.values()) + 1)]
    links = []
    for name in edges:
        rows[level[name]].append((name, None))
    for low in edges:
        users = [it for it in edges if low in edges[it]]
        if users:
            for at in range(level[low] + 1, max(level[it] for it in users)):
                rows[at].append((low, at))
        for at in range(level[low] + 1, max((level[it] for it in users), default=0) + 1):
            source = (low, at - 1) if at - 1 > level[low] else (low, None)
            links += [(source, (it, None)) for it in users if level[it] == at]
            if any(level[it] > at for it in users):
                links.append((source, (low, at)))
    return rows, links


def crossings(rows, links):
    place = {it: at for row in rows for at, it in enumerate(row)}
    height = {it: at for at, row in enumerate(rows) for it in row}
    count = 0
    for at, (a, b) in enumerate(links):
        for c, d in links[at + 1 :]:
            if height[a] == height[c] and (place[a] - place[c]) * (place[b] - place[d]) < 0:
                count += 1
    return count


def ordered(rows, links):
    """The rows in an order with few crossings, the same in each run."""
    down, up = {}, {}
    for low, high in links:
        down.setdefault(high, []).append(low)
        up.setdefault(low, []).append(high)
    best, least = rows, crossings(rows, links)
    chance = random.Random(1)
    for _ in range(60):
        now = [chance.sample(row, len(row)) for row in rows]
        for sweep in range(12):
            near = down if sweep % 2 == 0 else up
            for at in range(len(now)) if near is down else reversed(range(len(now))):
                place = {it: i / max(1, len(row) - 1) for row in now for i, it in enumerate(row)}
                now[at] = sorted(now[at], key=lambda it: sum(place[n] for n in near.get(it, [it])) / len(near.get(it, [it])))
            count = crossings(now, links)
            if count < least:
                best, least = [list(row) for row in now], count
    return best


def width(node):
    return len(node[0]) * LETTER + 2 * INSET if node[1] is None else 4


def spread(row, wanted):
    """Places for a row in its order, as near to those that are wanted as its widths allow."""
    ahead, offsets = 0.0, []
    for at, it in enumerate(row):
        ahead += width(it) / 2 + (GAP + width(row[at - 1]) / 2 if at else 0)
        offsets.append(ahead)
    # Neighbours that would stand in the wrong order stand together at the mean of what they want.
    blocks = []
    for it, offset in zip(row, offsets):
        blocks.append([wanted[it] - offset, 1])
        while len(blocks) > 1 and blocks[-2][0] > blocks[-1][0]:
            last, count = blocks.pop()
            blocks[-1] = [(blocks[-1][0] * blocks[-1][1] + last * count) / (blocks[-1][1] + count), blocks[-1][1] + count]
    shifts = [shift for shift, count in blocks for _ in range(count)]
    return {it: shift + offset for it, shift, offset in zip(row, shifts, offsets)}


def places(rows, links):
    near = {it: [] for row in rows for it in row}
    for low, high in links:
        near[low].append(high)
        near[high].append(low)
    x = {}
    for row in rows:
        x |= spread(row, dict.fromkeys(row, 0))
    for _ in range(200):
        for row in rows:
            # (points of one chain pull at each other more, so that a long line is straight)
            x |= spread(row, {it: pulled(it, near[it], x) for it in row})
    return x


def pulled(node, others, x):
    weights = [4 if node[1] is not None and it[0] == node[0] else 1 for it in others]
    return sum(x[it] * w for it, w in zip(others, weights)) / sum(weights) if others else x[node]


def svg(wide, high, title, body):
    return "\n".join([
        f'<svg xmlns="http://www.w3.org/2000/svg" viewBox="0 0 {wide:.0f} {high:.0f}" width="{wide:.0f}" height="{high:.0f}" role="img">',
        f"<title>{escape(title)}</title>",
        f'<rect width="100%" height="100%" rx="8" fill="{GROUND}"/>',
        *body,
        "</svg>",
        "",
    ])


def text(x, y, words, size=13, anchor="middle", fill=INK, family="monospace", weight="normal"):
    return f'<text x="{x:.1f}" y="{y:.1f}" font-size="{size}" font-family="{family}" font-weight="{weight}" text-anchor="{anchor}" fill="{fill}">{escape(words)}</text>'


def plain(x, y, words, size=12, anchor="start", fill=SOFT, weight="normal"):
    return text(x, y, words, size, anchor, fill, "sans-serif", weight)


def box(x, y, wide, high, fill):
    return f'<rect x="{x:.1f}" y="{y:.1f}" width="{wide:.1f}" height="{high:.1f}" rx="5" fill="{fill}" stroke="{LINE}"/>'


def kind(name, static, below):
    if name in static:
        return "static"
    if os.path.exists(f"{TOP}/crates/{name}/src/main.rt"):
        return "program"
    if name == "age":
        return "front"
    return "library" if "age_error" in below(name) | {name} else "primitive"


def crates_picture():
    uses, static = crates()
    edges, below = reduced(uses)
    level = levels(edges)
    rows, links = rows_of(edges, level)
    rows = ordered(rows, links)
    x = places(rows, links)
    left = min(x[it] - width(it) / 2 for it in x) - MARGIN
    wide = max(x[it] + width(it) / 2 for it in x) + MARGIN - left
    high = len(rows) * RISE + 60
    y = {it: high - 40 - RISE / 2 - at * RISE for at, row in enumerate(rows) for it in row}
    x = {it: x[it] - left for it in x}
    body = []
    for low, high_end in links:
        a, b = (x[low], y[low] - (HEIGHT / 2 if low[1] is None else 0)), (x[high_end], y[high_end] + (HEIGHT / 2 if high_end[1] is None else 0))
        bend = (a[1] - b[1]) / 2
        body.append(f'<path d="M{a[0]:.1f},{a[1]:.1f} C{a[0]:.1f},{a[1] - bend:.1f} {b[0]:.1f},{b[1] + bend:.1f} {b[0]:.1f},{b[1]:.1f}" fill="none" stroke="{LINE}" stroke-width="1.4"/>')
    for it in x:
        if it[1] is None:
            body.append(box(x[it] - width(it) / 2, y[it] - HEIGHT / 2, width(it), HEIGHT, KINDS[kind(it[0], static, below)][1]))
            body.append(text(x[it], y[it] + 4.5, it[0]))
    at = MARGIN
    for words, fill in KINDS.values():
        body += [box(at, high - 34, 16, 16, fill), plain(at + 22, high - 21, words)]
        at += 34 + len(words) * 7.2
    body.append(plain(MARGIN, 24, "A crate stands on those that its lines lead down to, and on all that these stand on. Crates of tests, and what they alone use, are left out."))
    return svg(max(wide, at, 660), high, "The crates, and who stands on whom", body)


# The way out, the way back and a seek: the type (or a plain end), its crate, what it does there.
WAYS = [
    ("Out", [
        (None, "plaintext", ["bytes, however", "they are cut"]),
        ("Encryptor", "age_protocol", ["a file key, wrapped for", "each recipient; header, nonce"]),
        ("StreamWriter", "age_stream", ["pieces of 65,536 bytes,", "each sealed"]),
        ("ArmoredWriter", "age_armor", ["lines of base64,", "or the bytes as they are"]),
        (None, "file", ["the one text", "of the plaintext"]),
    ]),
    ("Back", [
        (None, "file", ["bare or", "in armor"]),
        ("ArmoredReader", "age_armor", ["armor or none, told by", "the first bytes"]),
        ("Decryptor", "age_protocol", ["header, the identities in", "turn, the header's MAC"]),
        ("StreamReader", "age_stream", ["opens a chunk whole", "before it gives a byte"]),
        (None, "plaintext", ["to a clean end,", "or refused"]),
    ]),
    ("A seek", [
        (None, "place p", ["of the", "plaintext"]),
        ("StreamReader", "age_stream", ["chunk p / 65,536; two", "opened chunks are kept"]),
        ("ArmoredReader", "age_armor", ["the line of that byte, from", "a mark before it"]),
        ("BufReader", "age_io", ["what it holds, or a seek", "of the device"]),
        (None, "device", ["a file, or bytes", "in memory"]),
    ]),
]
NARROW, BROAD, TALL, ARROW = 104, 204, 84, 30


def ways_picture():
    known, _ = crates()
    body, y = [], 16
    for heading, boxes in WAYS:
        body.append(plain(MARGIN, y + 16, heading, 14, fill=INK, weight="bold"))
        y += 28
        x = MARGIN
        for at, (name, where, words) in enumerate(boxes):
            if name is not None:
                if where not in known or not has_type(where, name):
                    sys.exit(f"pictures.py: {where} has no type {name} any more")
            wide = NARROW if name is None else BROAD
            if name is None:
                body.append(plain(x + wide / 2, y + 24, where, 13, "middle", INK, "bold"))
            else:
                body.append(box(x, y, wide, TALL, KINDS["library"][1]))
                body += [text(x + wide / 2, y + 20, name, 13, weight="bold"), text(x + wide / 2, y + 37, where, 11, fill=SOFT)]
            body += [plain(x + wide / 2, y + (42 if name is None else 57) + 16 * row, line, 12, "middle") for row, line in enumerate(words)]
            x += wide
            if at + 1 < len(boxes):
                middle = y + TALL / 2
                body.append(f'<path d="M{x + 5:.1f},{middle:.1f} H{x + ARROW - 9:.1f}" stroke="{SOFT}" stroke-width="1.6"/>')
                body.append(f'<path d="M{x + ARROW - 4:.1f},{middle:.1f} l-7,-4.5 v9 z" fill="{SOFT}"/>')
                x += ARROW
        y += TALL + 18
    return svg(x + MARGIN, y + 4, "A file's way through the crates: out, back, and a seek", body)


def has_type(crate, name):
    for at, _, files in os.walk(f"{TOP}/crates/{crate}/src"):
        for it in files:
            with open(os.path.join(at, it), encoding="utf-8") as file:
                if re.search(rf"^pub struct {name}\b", file.read(), re.MULTILINE):
                    return True
    return False


def speeds():
    """README's table: what was done, beside whom, both measures, and the ratio; a row of two measures is two."""
    with open(f"{TOP}/README.md", encoding="utf-8") as file:
        part = file.read().partition("\n## Speed and memory\n")[2].partition("\n## ")[0]
    found = []
    for line in part.splitlines():
        cells = [it.strip() for it in line.strip("|").split("|")] if line.startswith("|") else []
        if len(cells) == 4 and ", beside " in cells[0]:
            what, _, whom = cells[0].replace("`", "").rpartition(", beside ")
            unit = cells[1].split()[-1]
            mine, other, ratios = ([n.strip() for n in re.sub(r"[^\d.,\s]|(?<=\d),(?=\d{3}\b)", "", it.replace(unit, "")).split(", ")] for it in cells[1:])
            names = [what]
            if len(ratios) == 2 and (both := re.fullmatch(r"(\w+) and (\w+) (.*)", what)):
                names = [f"{both[1]} {both[3]}", f"{both[2]} {both[3]}"]
            if not len(names) == len(mine) == len(other) == len(ratios):
                sys.exit(f"pictures.py: a row of README's table of speed reads otherwise than the others: {line}")
            found += zip(names, [whom] * len(names), mine, other, [unit] * len(names), map(float, ratios))
    if not found:
        sys.exit("pictures.py: README's table of speed isn't found")
    return found


def speed_picture():
    rows = speeds()
    left, scale, step = 320, 190, 34
    most = max(ratio for *_, ratio in rows)
    wide = left + most * scale + 230
    high = 76 + step * len(rows) + 34
    body = [plain(MARGIN, 28, "The speed of sazh as a ratio to the other's: above 1 sazh is the faster", 14, fill=INK, weight="bold")]
    floor = 60 + step * len(rows)
    ticks = [it / 2 for it in range(int(most * 2) + 1)]
    for it in ticks:
        at = left + it * scale
        one = it == 1
        body.append(f'<path d="M{at:.1f},52 V{floor}" stroke="{INK if one else LINE}" stroke-width="{1.6 if one else 0.6}"/>')
        body.append(plain(at, floor + 18, f"{it:g}", 12, "middle", INK if one else SOFT))
    for at, (what, whom, mine, other, unit, ratio) in enumerate(rows):
        y = 60 + step * at
        end = left + ratio * scale
        body.append(plain(left - 12, y + 11, what, 13, "end", INK))
        body.append(plain(left - 12, y + 25, f"beside {whom}", 11, "end"))
        body.append(f'<rect x="{left}" y="{y + 3}" width="{ratio * scale:.1f}" height="20" rx="2" fill="{"#6aa7de" if ratio >= 1 else "#e0a860"}"/>')
        # (where the line of 1 would cross the words they stand on the ground's colour)
        words = f"{number(mine)} to {number(other)} {unit}"
        body.append(f'<rect x="{end + 4:.1f}" y="{y + 3}" width="{len(words) * 6.9 + 50:.1f}" height="20" fill="{GROUND}"/>')
        body += [plain(end + 9, y + 17.5, f"{ratio:.2f}", 12, fill=INK, weight="bold"), plain(end + 49, y + 17.5, words, 12)]
    body.append(plain(left + 1, floor + 38, "processor time, by bench/primitives.sh; the table in README says on what", 11))
    return svg(wide, high + 8, "The speed of sazh beside age, OpenSSL and Python", body)


def number(digits):
    return f"{int(digits):,}" if digits.isdigit() else digits


def main():
    if sys.argv[1:] not in ([], ["--check"]):
        sys.exit("usage: scripts/pictures.py [--check]")
    passed = failed = 0
    for name, make in (("crates", crates_picture), ("way", ways_picture), ("speed", speed_picture)):
        path, made = f"{FOLDER}/{name}.svg", make()
        if sys.argv[1:]:
            there = open(path, encoding="utf-8").read() if os.path.exists(path) else None
            if there != made:
                print(f"docs/pictures/{name}.svg isn't what scripts/pictures.py makes: run it, and look at the picture")
            passed, failed = passed + (there == made), failed + (there != made)
        else:
            os.makedirs(FOLDER, exist_ok=True)
            with open(path, "w", encoding="utf-8") as file:
                file.write(made)
            passed += 1
    print(f"{passed} passed, {failed} failed")
    return 1 if failed else 0


sys.exit(main())
