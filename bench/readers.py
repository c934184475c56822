#!/usr/bin/env python3
"""What readers cost a server, and what they cost others' heartbeats, beside another server with the same options.

    bench/readers.py PROGRAM OTHER [LEASES ..]

Each is run as `PROGRAM serve` with four workers, and filled with so many instances (1,000, 20,000 and 60,000 where none are told) of
thirteen members. For each number it tells

- the processor time of a listing, of one application, of one instance, of a heartbeat and of a registration, and its ratio to the other's; five turns of
  both, medians;
- how many heartbeats a client sends one by one, and how long they wait: alone, and while another client asks for one instance, for the status page
  or for all, without pause, or registers an instance again before each time that it asks for all. Each client is a process of its own;
- the bytes that a lease takes: after each was registered, what each takes more that is registered again (its journal's entries, and the text that
  only they have by then), and what a heartbeat takes more.

Before that it tells the same bytes of a script's leases, and what a `page` line of PROGRAM costs at 10 and at 60,000 leases.
"""
import json
import multiprocessing
import os
import socket
import statistics
import subprocess
import sys
import time

PORT = 18791
A_CONNECTION = 100
SECONDS = 4
APPLICATIONS = 200


def instance(number):
    return json.dumps({"instance": {
        "instanceId": f"i{number}", "hostName": f"host-{number}.example", "app": f"APP{number % APPLICATIONS}", "ipAddr": "10.0.0.1", "status": "UP",
        "port": {"$": 8080, "@enabled": "true"}, "vipAddress": "app", "homePageUrl": "http://h/", "statusPageUrl": "http://h/s",
        "healthCheckUrl": "http://h/h", "countryId": 1, "metadata": {"zone": "a", "build": "1"}, "leaseInfo": {"durationInSecs": 90},
        "dataCenterInfo": {"name": "MyOwn"}}}).encode()


def registration(number):
    body = instance(number)
    return b"POST /eureka/apps/APP%d HTTP/1.1\r\nHost: x\r\nContent-Length: %d\r\n\r\n" % (number % APPLICATIONS, len(body)) + body


def heartbeat(number):
    return b"PUT /eureka/apps/APP%d/i%d HTTP/1.1\r\nHost: x\r\n\r\n" % (number % APPLICATIONS, number)


def get(path):
    return b"GET /eureka/%s HTTP/1.1\r\nHost: x\r\n\r\n" % path.encode()


class Client:
    """One connection after another, of a hundred requests each."""

    def __init__(self, port):
        self.port, self.left, self.socket, self.room = port, 0, None, bytearray(1 << 20)

    def ask(self, request):
        if self.left == 0:
            if self.socket is not None:
                self.socket.close()
            self.socket = socket.create_connection(("127.0.0.1", self.port), timeout=60)
            self.socket.setsockopt(socket.IPPROTO_TCP, socket.TCP_NODELAY, 1)
            self.left = A_CONNECTION
        self.left -= 1
        self.socket.sendall(request)
        head = b""
        while b"\r\n\r\n" not in head:
            piece = self.socket.recv(4096)
            assert piece, "the server ended the connection"
            head += piece
        head, _, body = head.partition(b"\r\n\r\n")
        assert head.startswith(b"HTTP/1.1 20"), head
        lengths = [line.split(b":")[1] for line in head.lower().split(b"\r\n") if line.startswith(b"content-length:")]
        left = (int(lengths[0]) if lengths else 0) - len(body)
        while left > 0:
            left -= self.socket.recv_into(self.room)


class Server:
    def __init__(self, program, port):
        words = ["serve", "--port", str(port), "--sessions", "4000000000", "--workers", "4", "--evict-ms", "4294967295"]
        self.process = subprocess.Popen([program, *words], stdout=subprocess.DEVNULL, stderr=subprocess.DEVNULL)
        self.port = port
        time.sleep(1)

    def processor_time(self):
        """What it has run so far, in s."""
        tasks = f"/proc/{self.process.pid}/task"
        return sum(int(open(f"{tasks}/{task}/schedstat").read().split()[0]) for task in os.listdir(tasks)) / 1e9

    def memory(self):
        """What it takes, in bytes."""
        return int(open(f"/proc/{self.process.pid}/statm").read().split()[1]) * os.sysconf("SC_PAGE_SIZE")

    def growth(self, requests):
        """What it takes more after these requests."""
        before, client = self.memory(), Client(self.port)
        for request in requests:
            client.ask(request)
        return self.memory() - before

    def time_of(self, request, times):
        client = Client(self.port)
        before = self.processor_time()
        for _ in range(times):
            client.ask(request)
        return (self.processor_time() - before) / times


def read_without_pause(port, requests, stop, calls):
    client, count = Client(port), 0
    while not stop.is_set():
        for request in requests:
            client.ask(request)
        count += 1
    calls.value = count


def heartbeats(port, number):
    client, took, request, end = Client(port), [], heartbeat(number), time.time() + SECONDS
    while (began := time.time()) < end:
        client.ask(request)
        took.append(time.time() - began)
    took.sort()
    return took


def waits(took):
    at = [took[min(len(took) - 1, int(share * len(took)))] * 1e3 for share in (.5, .99, .999)]
    return f"{len(took) // SECONDS} a second, median {at[0]:.3f} ms, 99% {at[1]:.3f}, 99.9% {at[2]:.3f}"


def tell_readers(name, server):
    alone = heartbeats(server.port, 1)
    print(f"  {name}, heartbeats alone: {waits(alone)}")
    readers = {path: [get(path)] for path in ("apps/APP1/i1", "status", "apps")} | {"apps, once it registered an instance again": [registration(2), get("apps")]}
    for what, requests in readers.items():
        stop, calls = multiprocessing.Event(), multiprocessing.Value("q", 0)
        reader = multiprocessing.Process(target=read_without_pause, args=(server.port, requests, stop, calls))
        reader.start()
        took = heartbeats(server.port, 1)
        stop.set()
        reader.join()
        print(f"  {name}, beside who reads {what} ({calls.value // SECONDS} a second): {waits(took)}; {len(took) / len(alone):.2f} of alone", flush=True)


def tell_reads(servers, leases):
    for what, request, times in (
        ("a listing", get("apps"), max(5, 200_000 // leases)), ("one application", get("apps/APP1"), 2000), ("one instance", get("apps/APP1/i1"), 5000),
        ("a heartbeat", heartbeat(1), 5000), ("a registration", registration(1), 2000),
    ):
        turns = [[server.time_of(request, times) for server in servers] for _ in range(5)]
        ours, other = (statistics.median(turn[side] for turn in turns) for side in (0, 1))
        ratio = statistics.median(turn[0] / turn[1] for turn in turns)
        print(f"  {what}: {ours * 1e3:.4f} ms of processor time, the other's {other * 1e3:.4f}; {ratio:.2f} of it", flush=True)


def run_script(program, lines):
    """Runs a script. Tells its processor time in s, and the most memory that it took in bytes."""
    process = subprocess.Popen([program, "script"], stdin=subprocess.PIPE, stdout=subprocess.DEVNULL)
    process.stdin.write("\n".join(["open 1", *lines, ""]).encode())
    process.stdin.flush()
    ran = -1
    while ran != (ran := sum(map(int, open(f"/proc/{process.pid}/stat").read().rsplit(")", 1)[1].split()[11:13]))):
        time.sleep(.2)
    most = next(int(line.split()[1]) for line in open(f"/proc/{process.pid}/status") if line.startswith("VmHWM"))
    process.stdin.close()
    _, _, used = os.wait4(process.pid, 0)
    return used.ru_utime + used.ru_stime, most * 1024


def registered(leases):
    return [f"register 0 A{i % 100} host-{i} 90 UP UNKNOWN 0 c" for i in range(leases)]


def renewed(leases):
    return [f"renew 0 A{i % 100} host-{i} - - c" for i in range(leases)]


def tell_script(program):
    few, half, again, beside, full = (run_script(program, lines)[1] for lines in (
        registered(1), registered(30_000), registered(30_000) * 2, registered(30_000) + renewed(30_000), registered(60_000)))
    print(f"a script: {(full - few) // 60_000} bytes a lease; {(again - half) // 30_000} more where it is registered again, {(beside - half) // 30_000} a renewal")


def tell_pages(program):
    for leases in 10, 60_000:
        fill, pages = registered(leases), ["page 0"] * 300_000
        costs = [(run_script(program, fill + pages)[0] - run_script(program, fill)[0]) / 300_000 for _ in range(3)]
        print(f"a page line at {leases} leases: {statistics.median(costs) * 1e6:.2f} us of processor time", flush=True)


def main():
    counts = [int(word) for word in sys.argv[3:]] or [1000, 20000, 60000]
    for program in sys.argv[1:3]:
        tell_script(program)
    tell_pages(sys.argv[1])
    for turn, leases in enumerate(counts):
        servers = [Server(program, PORT + 2 * turn + side) for side, program in enumerate(sys.argv[1:3])]
        try:
            print(f"{leases} leases")
            for name, server in zip(("ours", "the other"), servers):
                grows = [server.growth(map(what, range(leases))) // leases for what in (registration, registration, heartbeat)]
                print(f"  {name}: {grows[0]} bytes a lease; {grows[1]} more where it is registered again, {grows[2]} a heartbeat", flush=True)
            tell_reads(servers, leases)
            for name, server in zip(("ours", "the other"), servers):
                tell_readers(name, server)
        finally:
            for server in servers:
                server.process.kill()


if __name__ == "__main__":
    main()
