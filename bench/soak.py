#!/usr/bin/env python3
"""A soak: a fleet and hostile clients of each kind at one server for an hour, and its accounts at the end.

    bench/soak.py PROGRAM

PROGRAM is run as `PROGRAM serve` with four workers and a journal, until its input ends. CLIENTS (2000) clients renew a lease each 15 s and fetch the listing of all each 75 s, by
two connections each. Beside them run all the while: heads and bodies byte by byte over 400 connections each; bodies of 1 MiB that nest deep, or have long names; batches of 250
registrations; listings; new keys; 500 connections that say nothing; and requests that are cut off anywhere, some with a reset. Each of these does one thing, and waits a tenth of a second; after a new key half a second, and after a body of 1 MiB a second. So some 300 new keys are held at once, and the fleet's heartbeats are
enough for evictions.

MINUTES (60) says how long. Each minute prints the fleet's heartbeats with their percentiles in milliseconds, how many requests of the fleet failed, the server's memory in MiB, its descriptors, and the processors
that it took. At the end the server has to have as many descriptors as at the start, and no more than a quarter more memory than after ten minutes. The input is closed: it has to end by itself with exit status 0, tell how many sessions it served (which number nothing else knows, as
hostile clients may be refused), and leave a journal that `PROGRAM audit` says yes to.
PICTURE names a file for a picture of the minutes. It wants 12,000 descriptors and rustc.
"""
import itertools
import multiprocessing
import os
import random
import resource
import socket
import struct
import subprocess
import sys
import tempfile
import time

import floods

PORT = 18_791
MINUTES = int(os.environ.get("MINUTES", "60"))
CLIENTS = int(os.environ.get("CLIENTS", "2000"))
BEAT_SECONDS = 15
PAUSE = 0.1
TOP = os.path.dirname(os.path.dirname(os.path.abspath(__file__)))


def asks_slowly(port, requests, pause=PAUSE):
    """Sends these again and again, with a pause after each answer; of what has no end each once. A connection has a hundred of them at most."""
    while True:
        try:
            stream = floods.connect(port)
            for one in itertools.islice(requests, 90):
                stream.sendall(one)
                floods.read_answer(stream)
                time.sleep(pause)
        except OSError:
            time.sleep(PAUSE)


def is_silent(port):
    """Keeps 500 connections, and says nothing: the server closes each after its idle time, and another is opened."""
    streams = []
    while True:
        try:
            streams.append(floods.connect(port))
        except OSError:
            pass
        if len(streams) > 500:
            streams.pop(0).close()
        time.sleep(PAUSE)


def cuts(port):
    """Sends a request up to a byte that is drawn, and closes the connection, half of the times by a reset."""
    drawn = random.Random(1)
    texts = [floods.registration("CUT", "cut"), floods.request("GET", "apps"), floods.request("PUT", "apps/A/i1"), floods.batch(9_000_000)]
    while True:
        try:
            stream = floods.connect(port)
            text = drawn.choice(texts)
            stream.sendall(text[: drawn.randrange(len(text) + 1)])
            if drawn.random() < 0.5:
                stream.setsockopt(socket.SOL_SOCKET, socket.SO_LINGER, struct.pack("ii", 1, 0))
            stream.close()
        except OSError:
            pass
        time.sleep(PAUSE)


HOSTILE = {
    "heads": floods.KINDS["heads"],
    "bodies": floods.KINDS["bodies"],
    "nested": lambda port: asks_slowly(port, [floods.request("POST", "apps/A", '{"instance":{"metadata":' + floods.nested() + "}}")] * 90, 1),
    "keys": lambda port: asks_slowly(port, [floods.registration("LONG", "long", {"metadata": floods.long_keys()})] * 90, 1),
    "batches": lambda port: asks_slowly(port, [floods.batch(250 * (number % 4)) for number in range(40)]),
    "listings": lambda port: asks_slowly(port, [floods.request("GET", "apps")] * 90),
    "new": lambda port: asks_slowly(port, (floods.registration("NEW", f"n{number}") for number in itertools.count()), 0.5),
    "silent": is_silent,
    "cuts": cuts,
}


def memory(pid):
    """The memory of a process in MiB."""
    with open(f"/proc/{pid}/status") as it:
        return next(int(line.split()[1]) for line in it if line.startswith("VmRSS")) / 1024


def descriptors(pid):
    return len(os.listdir(f"/proc/{pid}/fd"))


def minute(number, load, server):
    """A minute of the fleet: what it and the server tell."""
    before = floods.ticks(server)
    told = subprocess.run([load, "fleet", str(PORT), str(CLIENTS), "60", str(BEAT_SECONDS)], capture_output=True, text=True, check=True).stdout.split()
    at = lambda name: int(told[told.index(name) + 1])
    row = [number, at("rate") * 60, at("median") / 1000, at("p99") / 1000, at("p999") / 1000, at("longest") / 1000, at("failed"), memory(server.pid), descriptors(server.pid),
           (floods.ticks(server) - before) / 60]
    print("| {} | {} | {:.2f} | {:.2f} | {:.2f} | {:.1f} | {} | {:.0f} | {} | {:.2f} |".format(*row), flush=True)
    return row


def close(program, server, journal, err, rows, open_first):
    """Closes the server's input, and judges what it leaves. At the start it had so many descriptors."""
    open_before = descriptors(server.pid)
    assert open_before == open_first, f"{open_first} descriptors at the start, {open_before} at the end"
    assert rows[-1][7] <= 1.25 * rows[min(9, len(rows) - 1)][7], "memory has grown"
    server.stdin.close()
    began = time.monotonic()
    status = server.wait(timeout=120)
    took = time.monotonic() - began
    served = server.stdout.read().strip()
    print(f"exit status {status} after {took:.1f} s, with {open_before} descriptors before; told: {served}; on standard error {len(err.readlines())} lines")
    audit = subprocess.run([program, "audit", "--journal", journal], capture_output=True, text=True)
    print(f"audit of {os.path.getsize(journal) / 1e6:.0f} MB: exit status {audit.returncode}, {audit.stdout.strip()[:200]}")
    assert status == 0 and served.startswith("served ") and audit.returncode == 0


def picture(rows):
    """The minutes: above the percentiles of the fleet's heartbeats on a scale of tens, below the server's memory and descriptors."""
    sys.path.insert(0, os.path.join(TOP, "tools"))
    import math
    from pictures import svg, text

    left, wide, parts = 80, 700 / max(1, len(rows)), []
    x = lambda n: left + n * wide
    late = lambda ms: 210 - 34 * (math.log10(max(ms, 0.01)) + 2)
    most = max(row[7] for row in rows) * 1.25
    size = lambda mib: 400 - 140 * mib / most
    for place, kind, words in [(2, "proved", "median"), (3, "tested", "99%"), (4, "trusted", "99.9%")]:
        parts += [f'<circle cx="{x(row[0] - 0.5):g}" cy="{late(row[place]):g}" r="3" class="{kind}"/>' for row in rows]
        parts += [f'<circle cx="{left + 20 + 110 * (place - 2)}" cy="442" r="5" class="{kind}"/>', text(left + 30 + 110 * (place - 2), 447, words, "plain", "start")]
    parts += [f'<rect x="{x(row[0] - 1) + 1:g}" y="{size(row[7]):g}" width="{wide - 2:g}" height="{400 - size(row[7]):g}" class="trusted"/>' for row in rows]
    parts += [text(left - 8, f"{late(ms) + 4:g}", f"{ms:g}", "small plain", "end") for ms in (0.01, 0.1, 1, 10, 100)]
    parts += [text(left - 8, f"{size(part * most / 1.25) + 4:g}", f"{part * most / 1.25:.0f}", "small plain", "end") for part in (0, 0.5, 1)]
    parts += [f'<path d="M{left} {y} L{left + 700} {y}" class="line"/>' for y in (210, 400)]
    parts += [text(left, 24, "a heartbeat of the fleet, ms", "bold plain", "start"), text(left, 244, "the server's memory, MiB", "bold plain", "start")]
    parts += [text(f"{x(n):g}", 418, f"{n} min" if n else "0", "small plain") for n in range(0, len(rows) + 1, max(1, len(rows) // 4))]
    return svg(860, 464, parts)


def main():
    resource.setrlimit(resource.RLIMIT_NOFILE, (resource.getrlimit(resource.RLIMIT_NOFILE)[1],) * 2)
    program = os.path.abspath(sys.argv[1])
    with tempfile.TemporaryDirectory() as folder:
        load, journal = os.path.join(folder, "load"), os.path.join(folder, "journal")
        subprocess.run(["rustc", "--edition", "2021", "-O", "-o", load, os.path.join(TOP, "bench", "fleet_load.rs")], check=True)
        with open(os.path.join(folder, "err"), "w+") as err:
            words = ["serve", "--port", str(PORT), "--forever", "--until-input-ends", "--seed", "system", "--workers", "4", "--journal", journal]
            server = subprocess.Popen([program, *words], stdin=subprocess.PIPE, stdout=subprocess.PIPE, stderr=err, text=True)
            time.sleep(1)
            open_first = descriptors(server.pid)
            subprocess.run([load, "register", str(PORT), str(CLIENTS)], check=True, stdout=subprocess.DEVNULL)
            hostile = [multiprocessing.Process(target=kind, args=(PORT,), daemon=True) for kind in HOSTILE.values()]
            for one in hostile:
                one.start()
            print("| minute | heartbeats | median, ms | 99% | 99.9% | longest | failed | memory, MiB | descriptors | processors |\n|---|---|---|---|---|---|---|---|---|---|")
            rows = [minute(number, load, server) for number in range(1, MINUTES + 1)]
            for one in hostile:
                one.terminate()
            time.sleep(5)
            err.seek(0)
            close(program, server, journal, err, rows, open_first)
    if "PICTURE" in os.environ:
        with open(os.environ["PICTURE"], "w", encoding="utf-8") as out:
            out.write(picture(rows))


if __name__ == "__main__":
    main()
