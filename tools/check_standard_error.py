#!/usr/bin/env python3
"""Has a server tell evictions and refusals where standard error is a pipe that is full and that nobody reads: it has to go on all the same.

    tools/check_standard_error.py PROGRAM

PROGRAM is the built program (crates/eureka/out/eureka), which serves at a port of 127.0.0.1 that the system chooses. Its first lines are read, and the pipe is filled
behind them. Tells what it sees, and ends with 1 where that isn't what it has to be; in three minutes at most.
"""
import fcntl
import http.client
import json
import os
import re
import select
import subprocess
import sys
import time

PLACES = 4
# How long anything is awaited, in seconds. A lease lasts one, and the evictor has a turn each 0.2.
PATIENCE = 5


def filled(writer):
    """Fills a pipe to its last byte, and tells by how many. It opens it anew, so that it alone doesn't wait at its writes: the server's do."""
    own = os.open(f"/proc/self/fd/{writer}", os.O_WRONLY | os.O_NONBLOCK)
    count = 0
    for piece in (b"." * 4096, b"."):
        try:
            while True:
                count += os.write(own, piece)
        except BlockingIOError:
            pass
    os.close(own)
    return count


def line_of(reader):
    """The next line that is told, or what came of it in time."""
    line, end = b"", time.monotonic() + PATIENCE
    while not line.endswith(b"\n") and select.select([reader], [], [], max(0, end - time.monotonic()))[0]:
        line += os.read(reader, 1)
    return line.decode().strip()


def drain(reader):
    """Reads what a pipe has."""
    while select.select([reader], [], [], 0.1)[0]:
        os.read(reader, 65536)


def awaited(look, is_wanted):
    """What was seen last, once it is wanted, or the time is up."""
    end = time.monotonic() + PATIENCE
    while True:
        seen = look()
        if is_wanted(seen) or time.monotonic() > end:
            return seen
        time.sleep(0.1)


class Clients:
    """Who asks a server at its two ports."""

    def __init__(self, port, operators):
        self.port = port
        self.operators = operators

    def connect(self, port=None):
        return http.client.HTTPConnection("127.0.0.1", port or self.port, timeout=PATIENCE)

    def ask(self, method, path, content=None, connection=None):
        """The status of the answer, by a connection that stays open, or by one of its own; 0 where none came."""
        used = connection or self.connect()
        try:
            used.request(method, path, content, {"Content-Type": "application/json"} if content else {})
            answer = used.getresponse()
            answer.read()
            return answer.status
        except (OSError, http.client.HTTPException):
            return 0
        finally:
            if connection is None:
                used.close()

    def evicted(self):
        """How many leases were evicted so far, as operators are told; none where they aren't."""
        connection = self.connect(self.operators)
        try:
            connection.request("GET", "/metrics")
            return int(re.search(r"^eureka_leases_evicted_total (\d+)$", connection.getresponse().read().decode(), re.MULTILINE).group(1))
        except (OSError, http.client.HTTPException):
            return None
        finally:
            connection.close()

    def evicted_behind(self, name):
        """How many leases were evicted once one more has run out."""
        before = self.evicted() or 0
        status = self.ask("POST", f"/eureka/apps/{name}", json.dumps({"instance": {
            "instanceId": name, "hostName": name, "app": name, "ipAddr": "10.0.0.1", "dataCenterInfo": {"name": "MyOwn"},
            "leaseInfo": {"renewalIntervalInSecs": 1, "durationInSecs": 1}}}))
        return awaited(self.evicted, lambda count: status != 204 or count is None or count > before)


def main():
    wrong = []

    def expect(what, wanted, given):
        print(("ok: " if wanted == given else "WRONG: ") + f"{what}: {given}", flush=True)
        if wanted != given:
            wrong.append(what)

    reader, writer = os.pipe()
    fcntl.fcntl(writer, fcntl.F_SETPIPE_SZ, 4096)
    server = subprocess.Popen(
        [sys.argv[1], "serve", "--port", "0", "--admin-port", "0", "--forever", "--until-input-ends", "--preservation", "off", "--evict-ms", "200",
         "--connections", str(PLACES)],
        stdin=subprocess.PIPE, stdout=subprocess.PIPE, stderr=writer, text=True)
    try:
        ports = [int(re.search(r":(\d+)$", line_of(reader)).group(1)) for _ in range(2)]
        clients = Clients(*ports)
        expect("leases evicted while standard error is read", 1, clients.evicted_behind("READ"))
        expect("that is told", "leases evicted: 1 of 1 that were due", line_of(reader))
        print(f"now {filled(writer)} bytes fill the pipe, and nobody reads them")
        for count, name in ((2, "FIRST"), (3, "SECOND"), (4, "THIRD")):
            expect(f"leases evicted once {name} has run out", count, clients.evicted_behind(name))
        held = [clients.connect() for _ in range(PLACES)]
        expect("as many connections as may be", [200] * PLACES, [clients.ask("GET", "/eureka/apps", connection=one) for one in held])
        expect("one more is refused", 503, clients.ask("GET", "/eureka/apps"))
        # The refusal has been told by then.
        time.sleep(1.5)
        for one in held:
            one.close()
        expect("one is accepted once there is room", 200, awaited(lambda: clients.ask("GET", "/eureka/apps"), lambda status: status == 200))
        expect("leases evicted once LAST has run out", 5, clients.evicted_behind("LAST"))
        drain(reader)
        expect("refusals are told once standard error is read again", True, line_of(reader).startswith("connections refused: "))
        expect("leases evicted then", 6, clients.evicted_behind("AGAIN"))
        expect("that is told", "leases evicted: 1 of 1 that were due", line_of(reader))
        server.stdin.close()
        try:
            expect("it ends well with its input", 0, server.wait(timeout=4 * PATIENCE))
        except subprocess.TimeoutExpired:
            expect("it ends well with its input", 0, "not in time")
    finally:
        server.kill()
        server.wait()
    return 1 if wrong else 0


sys.exit(main())
