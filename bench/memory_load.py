#!/usr/bin/env python3
"""Clients of a server that is short of memory, which register and renew.

memory_load.py PORT SESSIONS SECONDS: makes exactly so many connections. Four threads register instances until the server has refused 20 of them for
want of memory. For so many seconds each then renews what it registered, and registers more. Then all is cancelled, and one instance registered, after as many
heartbeats as that wants; the connections that are left look at the status page. Prints what was answered, and how often a lease was renewed at least. Ends by 1 where an answer is
none of those that may come, where a lease was never renewed, where the last registration was refused, and where the page tells other than one lease.
"""
import collections
import json
import socket
import sys
import threading
import time

REQUESTS = 100
SIZE = 4_000  # bytes of a registration, so many and some more
PAUSE = 0.02  # s after a connection that ended without a response, as a client waits before it tries again
FULL = b'{"fault":3}'


class Client:
    """One connection after another, of 100 requests at most."""

    def __init__(self, port, counts, sessions):
        self.port, self.counts, self.sessions = port, counts, sessions
        self.stream, self.left, self.ends = None, 0, False

    def connect(self):
        with self.counts.lock:
            if self.counts.made >= self.sessions:
                print({phase: dict(answers) for phase, answers in self.counts.answers.items()})
                sys.exit("more connections than were told")
            self.counts.made += 1
        self.stream = socket.create_connection(("127.0.0.1", self.port), timeout=20)
        self.reader = self.stream.makefile("rb")
        self.left = REQUESTS
        self.ends = False

    def close(self):
        if self.stream is not None:
            self.reader.close()
            self.stream.close()
            self.stream = None

    def ask(self, method, target, body=b"", last=False):
        """The status and the body of a response; none where the connection ended without one."""
        if self.stream is None:
            self.connect()
        self.left -= 1
        last = last or self.left == 0
        close = "Connection: close\r\n" if last else ""
        length = f"Content-Length: {len(body)}\r\n" if body else ""
        head = f"{method} {target} HTTP/1.1\r\nHost: x\r\n{close}{length}\r\n"
        try:
            self.stream.sendall(head.encode() + body)
            answer = self.answer()
        except (ConnectionError, BrokenPipeError):
            answer = None
        if last or answer is None or self.ends:
            self.close()
        if answer is None:
            time.sleep(PAUSE)
        return answer

    def answer(self):
        line = self.reader.readline()
        if not line:
            return None
        status, length = int(line.split()[1]), 0
        while (field := self.reader.readline()) != b"\r\n":
            name, _, value = field.partition(b":")
            if not field:
                return "cut", b""
            if name.lower() == b"content-length":
                length = int(value)
            if name.lower() == b"connection" and value.strip().lower() == b"close":
                self.ends = True
        body = self.reader.read(length)
        return (status if len(body) == length else "cut"), body


class Counts:
    def __init__(self):
        self.lock = threading.Lock()
        self.made = 0
        self.answers = {phase: collections.Counter() for phase in ("fill", "hold", "clear", "end")}
        self.longest = 0.0
        self.renewed = collections.Counter()
        self.ended = 0

    def note(self, phase, what, answer):
        if answer is None:
            word = "no answer"
        elif answer[0] == 503:
            word = "503" if answer[1] == FULL else f"503 {answer[1]!r}"
        else:
            word = str(answer[0])
        with self.lock:
            self.answers[phase][f"{what} {word}"] += 1
        return word


def registration(name, size):
    instance = {
        "instanceId": name, "hostName": f"{name}.example.org", "app": "A", "ipAddr": "10.0.0.1", "status": "UP",
        "lastDirtyTimestamp": "5", "dataCenterInfo": {"name": "MyOwn"}, "metadata": {"text": "x" * size},
    }
    return json.dumps({"instance": instance}).encode()


def register(client, phase, name):
    body = registration(name, SIZE)
    return client.counts.note(phase, "register", client.ask("POST", "/eureka/apps/A", body))


def fill(client, prefix, held):
    """Registers until so many were refused in all."""
    number = 0
    while client.counts.answers["fill"]["register 503"] < 20 and number < 20_000:
        if register(client, "fill", f"{prefix}{number}") == "204":
            held.append(f"{prefix}{number}")
        number += 1
    return number


def renew(client, name):
    begun = time.monotonic()
    word = client.counts.note("hold", "renew", client.ask("PUT", f"/eureka/apps/A/{name}"))
    client.counts.longest = max(client.counts.longest, time.monotonic() - begun)
    if word == "200":
        with client.counts.lock:
            client.counts.renewed[name] += 1


def hold(client, prefix, held, seconds):
    """Renews what is held, in turn, and registers one more after each tenth renewal."""
    end, turn = time.monotonic() + seconds, 0
    while time.monotonic() < end:
        renew(client, held[turn % len(held)])
        if turn % 10 == 0:
            register(client, "hold", f"{prefix}more{turn}")
        turn += 1
    return turn


def clear(client, names):
    """Cancels all that was sent: what was answered by the end of the connection may be held or not. A cancel may want memory that comes back only as
    the journal goes on, which heartbeats have it do. So after each that is refused a heartbeat is sent."""
    for name in names:
        for _ in range(10_000):
            word = client.counts.note("clear", "cancel", client.ask("DELETE", f"/eureka/apps/A/{name}"))
            if word in ("200", "404"):
                break
            client.counts.note("clear", "heartbeat", client.ask("PUT", f"/eureka/apps/A/{name}"))
    client.close()


def await_memory(client):
    """Registers one more instance. What was cancelled stands in the journal, until as many commands came as it and the spare one have entries: so
    heartbeats are sent until there is memory again. The last answer, and how many heartbeats it took."""
    beats = 0
    while (word := register(client, "end", "one")) == "503" and beats < 200_000:
        for _ in range(100):
            client.counts.note("end", "heartbeat", client.ask("PUT", "/eureka/apps/A/one"))
        beats += 100
    return word, beats


def work(client, prefix, seconds, barrier):
    held = []
    filled = fill(client, prefix, held)
    with client.counts.lock:
        client.counts.renewed.update({name: 0 for name in held})
    barrier.wait()
    turns = hold(client, prefix, held, seconds)
    barrier.wait()
    clear(client, [f"{prefix}{number}" for number in range(filled)] + [f"{prefix}more{turn}" for turn in range(0, turns, 10)])
    client.counts.ended += 1


MAY_COME = {
    "register 204", "register 503", "register no answer", "renew 200", "renew 503", "renew no answer",
    "cancel 200", "cancel 404", "cancel 503", "cancel no answer", "heartbeat 200", "heartbeat 404", "heartbeat 503", "heartbeat no answer",
    "look 200", "look 503", "look no answer",
}


def main():
    port, sessions, seconds = int(sys.argv[1]), int(sys.argv[2]), float(sys.argv[3])
    counts = Counts()
    barrier = threading.Barrier(4, timeout=60)
    clients = [Client(port, counts, sessions) for _ in range(4)]
    threads = [threading.Thread(target=work, args=(c, f"i{n}x", seconds, barrier)) for n, c in enumerate(clients)]
    for thread in threads:
        thread.start()
    for thread in threads:
        thread.join()
    last = Client(port, counts, sessions)
    registered, beats = await_memory(last)
    last.close()
    page = None
    while counts.made < sessions:
        page = last.ask("GET", "/eureka/status", last=True)
        counts.note("end", "look", page)
    for phase, answers in counts.answers.items():
        print(f"{phase}:", ", ".join(f"{count} {what}" for what, count in sorted(answers.items())))
    least = min(counts.renewed.values(), default=0)
    print(f"each of {len(counts.renewed)} leases renewed {least} times or more; longest renewal: {counts.longest * 1000:.0f} ms; "
          f"{beats} heartbeats before the last registration; {counts.made} connections")
    others = {what for answers in counts.answers.values() for what in answers} - MAY_COME
    refused = counts.answers["hold"]["register 503"] or counts.answers["fill"]["register 503"]
    if others or counts.ended < 4 or not refused or not least or registered != "204" or page is None or b"held 1\n" not in page[1]:
        sys.exit(f"not as it is to be: {sorted(others)}, {page}")


main()
