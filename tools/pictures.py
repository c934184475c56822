#!/usr/bin/env python3
"""Draws the pictures of the documents: docs/pictures/NAME.svg. Run it at the top of the repository; it takes no words."""
import math
import os

STYLE = """<style>
text { font-family: Helvetica, Arial, sans-serif; font-size: 14px; fill: #1b1b1b; }
.small { font-size: 12px; }
.bold { font-weight: bold; }
.proved { fill: #bfe3c4; stroke: #2f7d3a; }
.tested { fill: #f6dfa4; stroke: #a3740b; }
.trusted { fill: #d9dce1; stroke: #5d6673; }
.line { stroke: #5d6673; stroke-width: 1.5; fill: none; }
.mark { stroke: #1f5fae; stroke-width: 2; fill: none; }
.arrow { fill: #5d6673; }
.dashed { stroke-dasharray: 5 4; }
.level { stroke: #2f74d0; stroke-width: 2.5; }
.plain { fill: #1b1b1b; }
@media (prefers-color-scheme: dark) { .plain { fill: #e8e8e8; } .line { stroke: #a9b1bd; } .arrow { fill: #a9b1bd; } .mark { stroke: #7fb2ef; } }
</style>"""


def svg(width, height, parts):
    """A picture of these parts."""
    head = f'<svg xmlns="http://www.w3.org/2000/svg" viewBox="0 0 {width} {height}" width="{width}" height="{height}">'
    return "\n".join([head, STYLE, *parts, "</svg>"]) + "\n"


def text(x, y, words, kind="plain", anchor="middle"):
    return f'<text x="{x}" y="{y}" class="{kind}" text-anchor="{anchor}">{words}</text>'


def box(x, y, width, kind, title, notes, height=64):
    """A box with a title and a line or two of notes."""
    middle = x + width / 2
    first = y + 24 if notes else y + height / 2 + 5
    parts = [f'<rect x="{x}" y="{y}" width="{width}" height="{height}" rx="6" class="{kind}"/>', text(middle, first, title, "bold")]
    return parts + [text(middle, first + 18 * (at + 1), note, "small") for at, note in enumerate(notes)]


def arrow(x, y, to_x, to_y, kind="line"):
    """An arrow in any direction."""
    length = math.hypot(to_x - x, to_y - y)
    along_x, along_y = (to_x - x) / length, (to_y - y) / length
    back_x, back_y = to_x - 8 * along_x, to_y - 8 * along_y
    corners = [(back_x - 5 * along_y, back_y + 5 * along_x), (back_x + 5 * along_y, back_y - 5 * along_x), (to_x, to_y)]
    point = " ".join(f"{a:g},{b:g}" for a, b in corners)
    return [f'<path d="M{x:g} {y:g} L{back_x:g} {back_y:g}" class="{kind}"/>', f'<polygon points="{point}" class="arrow"/>']


def legend(x, y, *kinds):
    """What these colours say."""
    parts = []
    for at, kind in enumerate(kinds):
        parts += [f'<rect x="{x + at * 90}" y="{y}" width="16" height="16" rx="3" class="{kind}"/>', text(x + 22 + at * 90, y + 13, kind, "plain", "start")]
    return parts


def request():
    """The way of a request, coloured by what is proved, tested and trusted."""
    parts = []
    row = [
        ("trusted", "client", ["TCP, the system"]),
        ("tested", "worker", ["socket, deadlines"]),
        ("proved", "session", ["request, route, JSON"]),
        ("tested", "lock", ["one ask at a time"]),
        ("proved", "book", ["leases, rows, journal"]),
    ]
    width, gap, y = 148, 24, 30
    for at, (kind, title, notes) in enumerate(row):
        x = 10 + at * (width + gap)
        parts += box(x, y, width, kind, title, notes)
        if at:
            parts += arrow(x - gap, y + 32, x, y + 32)
    last = 10 + 4 * (width + gap)
    parts += box(10 + 3 * (width + gap), 130, width, "tested", "timers", ["evict, roll, update"])
    lock = 10 + 3 * (width + gap) + width / 2
    parts += arrow(lock, 130, lock, 94)
    parts += arrow(last + width / 2, 94, last + width / 2, 230)
    parts += box(last, 230, width, "proved", "journal", ["commands, replies"])
    parts += arrow(last, 262, last - gap - width + 0, 262)
    parts += box(last - gap - 2 * width, 230, width, "proved", "auditor", ["yes or no"])
    parts += box(10, 230, 2 * width + gap, "trusted", "the rule book: the lease machine", ["what all of these are proved against: read it"])
    parts += arrow(last - gap - 2 * width, 262, 10 + 2 * width + gap, 262)
    return svg(860, 310, parts + legend(10, 150, "proved", "tested", "trusted"))


def lease():
    """A lease on a line of time: registered, renewed, expired, evicted."""
    parts = ['<path d="M30 110 L830 110" class="line"/>']
    scale = lambda seconds: 60 + seconds * 2.75
    marks = [(0, "registered", "0 s"), (30, "renewed", "30 s"), (210, "deadline", "210 s"), (240, "evicted", "240 s")]
    for seconds, above, below in marks:
        x = scale(seconds)
        parts += [f'<path d="M{x} 98 L{x} 122" class="mark"/>', text(x, 88, above), text(x, 142, below, "small plain")]
    parts += [f'<rect x="{scale(0)}" y="104" width="{scale(210) - scale(0)}" height="12" class="proved"/>']
    parts += [f'<rect x="{scale(210)}" y="104" width="{scale(240) - scale(210)}" height="12" class="tested"/>']
    parts += [text(scale(120), 60, "held: 90 s after a registration, twice that after a heartbeat")]
    parts += [text(830, 176, "expired: a heartbeat revives it, an eviction that is permitted may take it", "plain", "end")]
    parts += [f'<path d="M{scale(225)} 160 L{scale(225)} 120" class="line"/>']
    return svg(860, 200, parts)


def override():
    """The override rule as a tree: which status an instance has."""
    parts = []
    rows = [
        (["reports DOWN, STARTING, UNKNOWN"], "what it reports"),
        (["an override row stands for its id"], "the row's status"),
        (["no peer sent it, and a lease is held", "that is UP or OUT_OF_SERVICE"], "the held status"),
    ]
    y = 20
    for at, (question, answer) in enumerate(rows):
        parts += box(60, y, 330, "trusted", question[0], question[1:])
        parts += arrow(390, y + 32, 520, y + 32)
        parts += [text(455, y + 24, "yes", "small plain")]
        parts += box(520, y, 200, "proved", answer, [])
        parts += arrow(225, y + 64, 225, y + 100)
        parts += [text(245, y + 86, "no", "small plain")]
        y += 100
    parts += box(60, y, 330, "proved", "what it reports", [])
    return svg(780, y + 84, parts)


def answers_of(name):
    """The lines of an example script with what each printed."""
    with open(f"examples/{name}.script", encoding="utf-8") as script, open(f"examples/{name}.out", encoding="utf-8") as out:
        return list(zip([line.split() for line in script if line.strip()], [line.split() for line in out]))


def evictions_of(name):
    """The evictions of an example: the moment, the last minute's heartbeats, the threshold, and how many were evicted."""
    evictions, seen = [], {}
    for said, printed in answers_of(name):
        if said[0] == "counts":
            seen = dict(zip(printed[::2], printed[1::2]))
        if said[0] == "evict":
            evictions.append((int(said[1]) // 1000, int(seen["last"]), int(seen["threshold"]), seen["permitted"], int(printed[1])))
    return evictions


def preservation():
    """Self-preservation in two example runs: each eviction with the last minute's heartbeats and the threshold."""
    parts, ground, scale, x = [], 230, 9, 90
    for name, title in [("preservation", "one of four is silent"), ("shrinking", "ten shops shrink to six")]:
        parts += [text(x + 150, 24, title, "bold plain"), text(x + 150, 42, f"examples/{name}.script", "small plain")]
        for moment, last, threshold, permitted, evicted in evictions_of(name):
            top, line = ground - last * scale, ground - threshold * scale
            kind = "proved" if permitted == "yes" else "tested"
            parts += [f'<rect x="{x + 30}" y="{top}" width="70" height="{last * scale}" class="{kind}"/>', text(x + 65, ground - 8, f"{last}", "bold")]
            parts += [f'<path d="M{x + 14} {line} L{x + 116} {line}" class="level dashed"/>', text(x + 120, line + 5, f"{threshold}", "plain", "start")]
            parts += [text(x + 65, ground + 20, f"{moment} s", "small plain"), text(x + 65, ground + 40, f"{evicted} evicted" if evicted else "nobody goes")]
            x += 170
        x += 60
    parts += [f'<path d="M30 {ground} L830 {ground}" class="line"/>']
    parts += [f'<rect x="60" y="292" width="16" height="16" rx="3" class="proved"/>', text(82, 305, "more heartbeats than the threshold: eviction is permitted", "plain", "start")]
    parts += [f'<rect x="470" y="292" width="16" height="16" rx="3" class="tested"/>', text(492, 305, "not more: nobody is evicted", "plain", "start")]
    parts += ['<path d="M690 300 L720 300" class="level dashed"/>', text(728, 305, "the threshold", "plain", "start")]
    return svg(860, 322, parts)


def threads():
    """A server's threads, and the locks that they take."""
    parts = [text(120, 24, "threads", "bold plain"), text(440, 24, "locks", "bold plain"), text(740, 24, "what lies behind them", "bold plain")]
    workers = [
        (40, "the door", ["accepts, and deals to the fewest"]),
        (150, "loops", ["1 to 16, and one of operators"]),
        (260, "the pool", ["2, for long requests"]),
        (370, "timers", ["evictor, bucket, threshold"]),
    ]
    for y, title, notes in workers:
        parts += box(20, y, 200, "tested", title, notes)
    rows = [
        (40, "mailboxes", "tested", ["one for each loop, with a waker"], "connections handed over"),
        (122, "the pool's queue", "tested", ["the pool waits here"], "connections for the pool"),
        (204, "the counts", "proved", ["who came, who is open"], "admission"),
        (286, "the book", "proved", ["held for one ask"], "the book and its ledgers"),
        (368, "schedules", "proved", ["timers wait here for their turn"], "when each timer is due"),
    ]
    for y, title, kind, notes, behind in rows:
        parts += box(330, y, 220, "tested", title, notes)
        parts += box(640, y, 200, kind, behind, [])
        parts += arrow(550, y + 32, 640, y + 32)
    takes = [(56, 60), (84, 226), (166, 76), (176, 150), (186, 240), (200, 308), (276, 166), (292, 318), (386, 330), (402, 400)]
    for out, to in takes:
        parts += arrow(220, out, 330, to)
    parts += arrow(220, 268, 330, 92)
    return svg(860, 470, parts + legend(20, 446, "proved", "tested"))


def tower():
    """The tower of statements, from the rule book up to the bytes, with the contract on each arrow."""
    left, middle, right = 20, 300, 580
    width, rows = 200, {"bytes": 20, "upper": 140, "lower": 260, "book": 380, "rules": 500}
    parts = []
    parts += box(left, rows["rules"], right + width - left, "proved", "the rule book: the lease machine and its laws", ["eu_model: Eureka's rules, and what holds of every run"])
    parts += box(middle, rows["book"], width, "proved", "registry", ["eu_core"])
    parts += box(middle, rows["lower"], width, "proved", "book", ["eu_book: registry, journal"])
    parts += box(left, rows["lower"], width, "proved", "auditor", ["eu_audit: yes or no"])
    parts += box(right, rows["lower"], width, "proved", "shared book", ["eu_shared: behind the lock"])
    parts += box(right, rows["upper"], width, "proved", "session", ["eu_session"])
    parts += box(left, rows["bytes"], width, "proved", "bytes of a journal", ["eu_journal_read"])
    parts += box(middle, rows["bytes"], width, "proved", "bytes of a script", ["eu_script"])
    parts += box(right, rows["bytes"], width, "proved", "bytes of a connection", ["eu_framing, eu_http"])
    steps = [
        (left, "rules", "lower", "audit", "line"),
        (left, "lower", "bytes", "read_journal", "line"),
        (middle, "rules", "book", "Registry::step", "line"),
        (middle, "book", "lower", "Book::apply", "line"),
        (middle, "lower", "bytes", "answer_script", "line"),
        (right, "lower", "upper", "the lock: tested", "line dashed"),
        (right, "upper", "bytes", "serve_session", "line"),
    ]
    for x, below, above, words, kind in steps:
        at, low, high = x + width / 2, rows[below], rows[above] + 64
        parts += arrow(at, low, at, high, kind) + [text(at + 12, (low + high) / 2 + 5, words, "plain", "start")]
    parts += arrow(middle + width, rows["lower"] + 32, right, rows["lower"] + 32) + [text((middle + width + right) / 2, rows["lower"] + 24, "Held::ask", "small plain")]
    return svg(800, 590, parts)


PICTURES = {"request": request, "lease": lease, "override": override, "preservation": preservation, "threads": threads, "tower": tower}

if __name__ == "__main__":
    os.makedirs("docs/pictures", exist_ok=True)
    for name, draw in PICTURES.items():
        with open(f"docs/pictures/{name}.svg", "w", encoding="utf-8") as out:
            out.write(draw())
