#!/usr/bin/env python3
"""Draws docs/pictures/hour.svg, an hour of self-preservation, from the journal of a run. Run it at the top of the repository; it runs ./eureka, or the program
that EUREKA names.

A hundred clients register and send a heartbeat each 30 s. Forty fall silent at minute 15; thirty of these come back at minute 35. Five others fall silent at
minute 48. Evictions come each 60 s. What is drawn is read off the journal, once `audit` has said yes to it; the script that it comes from says nothing of who goes."""
import json
import os
import subprocess
import sys
import tempfile

from pictures import svg, text

MINUTE = 60_000
BEAT = 30_000
SILENT = range(60, 100)
BACK = range(60, 90)
LATE = range(0, 5)


def is_silent(client, moment):
    """Whether a client sends nothing at this moment."""
    if client in LATE:
        return moment >= 48 * MINUTE
    return client in SILENT and moment >= 15 * MINUTE and (client not in BACK or moment < 35 * MINUTE)


def lines_of_hour():
    """The script: each line with its moment, in their order."""
    lines = []
    for client in range(100):
        first = client * BEAT // 100
        lines.append((first, f"register {first} SHOP s{client:02} 90 UP UNKNOWN - c"))
        lines += [(at, f"renew {at} SHOP s{client:02} - - c") for at in range(first + BEAT, 60 * MINUTE, BEAT) if not is_silent(client, at)]
    for minute in range(1, 61):
        end = minute * MINUTE
        lines += [(end, f"roll {end}"), (end, f"evict {end}")]
        if minute % 15 == 0:
            lines.append((end, f"update {end}"))
    lines.sort(key=lambda line: line[0])
    return ["open 1"] + [line for _, line in lines]


def journal_of_hour():
    """The lines of the journal that the program leaves of that script, and judges to be a run."""
    program = os.environ.get("EUREKA", "./eureka")
    with tempfile.TemporaryDirectory() as folder:
        file = os.path.join(folder, "journal")
        subprocess.run([program, "script", "--journal", file], input="\n".join(lines_of_hour()) + "\n", text=True, stdout=subprocess.DEVNULL, check=True)
        said = subprocess.run([program, "audit", "--journal", file], text=True, stdout=subprocess.PIPE, check=True).stdout
        print(said, end="")
        with open(file, encoding="utf-8") as journal:
            return [json.loads(line) for line in journal]


class Reader:
    """What the entries of a journal say, one after another."""

    def __init__(self, head):
        self.config, self.expected, self.last = head["config"], head["expected"], head["last"]
        self.deadlines, self.evictions = {}, []

    def threshold(self):
        return self.expected * 60 * self.config["percent"] // (self.config["interval"] * 100)

    def is_permitted(self):
        return not self.config["preservation"] or 0 < self.threshold() < self.last

    def take(self, asked, reply, victims):
        """One entry: the command with its moment, the reply, and the leases that it took."""
        moment, command, name = asked["moment"], asked["command"], asked["command"]["name"]
        if name == "Register":
            instance = command["instance"]
            key = (instance["key"]["app"], instance["key"]["id"])
            self.expected += 1 if key not in self.deadlines and self.expected else 0
            self.deadlines[key] = (moment + 1000 * instance["secs"], instance["secs"])
        elif name == "Renew" and reply["name"] == "Done":
            key = (command["key"]["app"], command["key"]["id"])
            secs = self.deadlines[key][1]
            self.deadlines[key] = (moment + 2000 * secs, secs)
        elif name == "Roll":
            self.last = reply["renewals"]
        elif name == "Update":
            self.expected = reply["clients"]
        elif name == "Evict":
            self.evict(moment, victims)

    def evict(self, moment, victims):
        """An eviction, which has to take as many of the leases that are due as it may."""
        due = {key for key, (deadline, _) in self.deadlines.items() if deadline < moment}
        held = len(self.deadlines)
        share = held - held * self.config["percent"] // 100
        taken = {(key["app"], key["id"]) for key in victims}
        assert taken <= due and len(taken) == len(victims) == (min(len(due), share) if self.is_permitted() else 0)
        self.evictions.append((moment // MINUTE, self.last, self.threshold(), self.is_permitted(), held, len(due), len(victims)))
        for key in taken:
            del self.deadlines[key]
        self.expected = max(0, self.expected - len(taken))


def evictions_of(journal):
    """The evictions of a journal: the minute, the last minute's heartbeats, the threshold, whether it may evict, and how many leases are held, are due, and go."""
    heads = [line for line in journal if line["line"] == "head"]
    reader, asked, reply, victims = Reader(heads[0]), None, None, []
    for line in journal:
        if line["line"] == "asked" or line is heads[1]:
            if asked:
                reader.take(asked, reply, victims)
            asked, victims = line, []
        elif line["line"] == "answered":
            reply = line["reply"]
        elif line["line"] == "victim":
            victims.append(line["key"])
    left = sum(1 for line in journal[journal.index(heads[1]):] if line["line"] == "lease")
    assert (reader.expected, reader.last, len(reader.deadlines)) == (heads[1]["expected"], heads[1]["last"], left)
    return reader.evictions


def picture(evictions):
    """The evictions of an hour: above the heartbeats of each minute and the threshold, below the leases."""
    left, minute, parts = 70, 12.5, []
    beats, leases = (lambda n: 210 - n * 0.8), (lambda n: 400 - n * 1.3)
    at = lambda n: left + n * minute
    for n, last, threshold, permitted, held, due, gone in evictions:
        kind = "proved" if permitted else "tested"
        x, wide = at(n - 1) + 1, minute - 2
        parts.append(f'<rect x="{x:g}" y="{beats(last):g}" width="{wide:g}" height="{210 - beats(last):g}" class="{kind}"/>')
        parts.append(f'<rect x="{x:g}" y="{leases(held):g}" width="{wide:g}" height="{400 - leases(held):g}" class="trusted"/>')
        if due:
            parts.append(f'<rect x="{x:g}" y="{leases(held):g}" width="{wide:g}" height="{leases(held - due) - leases(held):g}" class="{kind}"/>')
        if gone:
            parts.append(text(f"{x:g}", f"{leases(held) - 6:g}", f"−{gone}", "small plain", "start"))
    steps = "".join(f"{'L' if n > 1 else 'M'}{at(n - 1):g} {beats(threshold):g} L{at(n):g} {beats(threshold):g} " for n, _, threshold, *_ in evictions)
    parts.append(f'<path d="{steps.strip()}" class="level"/>')
    for y, scale, most, words in [(210, beats, 200, "heartbeats of each minute"), (400, leases, 100, "leases held")]:
        parts.append(f'<path d="M{left} {y} L{at(60):g} {y}" class="line"/>')
        parts += [text(left - 8, f"{scale(n) + 4:g}", n, "small plain", "end") for n in (0, most // 2, most)]
        parts.append(text(left, f"{scale(most) - 18:g}", words, "bold plain", "start"))
    for n, words in [(15, "40 fall silent"), (35, "30 come back"), (48, "5 fall silent")]:
        parts += [f'<path d="M{at(n):g} 36 L{at(n):g} 400" class="line dashed"/>', text(f"{at(n) + 5:g}", 44, words, "small plain", "start")]
    parts += [text(f"{at(n):g}", 418, f"{n} min" if n else "0", "small plain") for n in range(0, 61, 15)]
    parts += ['<rect x="70" y="434" width="16" height="16" rx="3" class="proved"/>', text(92, 447, "eviction is permitted", "plain", "start")]
    parts += ['<rect x="230" y="434" width="16" height="16" rx="3" class="tested"/>', text(252, 447, "not permitted: what expired is kept", "plain", "start")]
    parts += ['<path d="M530 442 L560 442" class="level"/>', text(568, 447, "the threshold", "plain", "start")]
    parts += [text(720, 447, "−n: evicted", "plain", "start")]
    return svg(860, 464, parts)


if __name__ == "__main__":
    if sys.argv[1:] == ["--script"]:
        print("\n".join(lines_of_hour()))
    else:
        drawn = picture(evictions_of(journal_of_hour()))
        with open("docs/pictures/hour.svg", "w", encoding="utf-8") as out:
            out.write(drawn)
