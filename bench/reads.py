#!/usr/bin/env python3
"""Counts by callgrind what reads and registrations over HTTP cost a server.

    bench/reads.py PROGRAM [INSTANCES]

PROGRAM is run as `PROGRAM serve` with one worker, so any server with these options can stand beside ours. It is filled with INSTANCES
(500 where none are told) of twenty members, 891 bytes of JSON each. Then it is asked for all of them once, or six times, or once and for
its status page 96 times; the differences are what one listing and one page cost, the whole request included.

A processor clears a piece of memory by one instruction, `rep stosb`, which callgrind counts as one for each byte. So the C library is told to
clear and copy without it.
"""
import json
import os
import re
import socket
import subprocess
import sys
import time

WITHOUT_REP = "glibc.cpu.x86_rep_stosb_threshold=1000000000:glibc.cpu.x86_rep_movsb_threshold=1000000000"
A_CONNECTION = 96  # requests on one connection; a session ends with its 100th
PORT = 18761


def instance(number):
    host = f"host-{number}"
    return json.dumps({"instance": {
        "instanceId": f"{host}:svc:8080", "hostName": f"{host}.example.com", "app": f"SVC{number % 20}",
        "ipAddr": f"10.1.{number // 250}.{number % 250}", "status": "UP", "overriddenstatus": "UNKNOWN",
        "port": {"$": 8080, "@enabled": "true"}, "securePort": {"$": 443, "@enabled": "false"}, "countryId": 1,
        "dataCenterInfo": {"@class": "com.netflix.appinfo.InstanceInfo$DefaultDataCenterInfo", "name": "MyOwn"},
        "leaseInfo": {"renewalIntervalInSecs": 30, "durationInSecs": 90},
        "metadata": {"zone": "b", "management.port": "8080"}, "homePageUrl": f"http://{host}:8080/",
        "statusPageUrl": f"http://{host}:8080/info", "healthCheckUrl": f"http://{host}:8080/health",
        "vipAddress": "svc", "secureVipAddress": "svc", "isCoordinatingDiscoveryServer": "false",
        "lastUpdatedTimestamp": "1700000000000", "lastDirtyTimestamp": 1700000000001, "actionType": "ADDED"}}).encode()


def registration(number):
    body = instance(number)
    return b"POST /eureka/apps/SVC%d HTTP/1.1\r\nHost: x\r\nContent-Length: %d\r\n\r\n" % (number % 20, len(body)) + body


def answer(stream):
    """Reads a response, and fails where it isn't one of success."""
    status, length = stream.readline(), 0
    assert b" 20" in status, status
    while (field := stream.readline()) != b"\r\n":
        if field.lower().startswith(b"content-length:"):
            length = int(field.split(b":")[1])
    stream.read(length)


def send(port, requests):
    for first in range(0, len(requests), A_CONNECTION):
        with socket.create_connection(("127.0.0.1", port)) as connection, connection.makefile("rb") as stream:
            for request in requests[first:first + A_CONNECTION]:
                connection.sendall(request)
                answer(stream)


def instructions(program, port, rounds):
    """What a server executes that is sent these lists of requests, one after the other."""
    sessions = sum(-(-len(requests) // A_CONNECTION) for requests in rounds)
    server = subprocess.Popen(
        ["valgrind", "--tool=callgrind", "--callgrind-out-file=/dev/null", program, "serve", "--port", str(port),
         "--sessions", str(sessions), "--workers", "1"], stdout=subprocess.DEVNULL, stderr=subprocess.PIPE, text=True,
        env=os.environ | {"GLIBC_TUNABLES": WITHOUT_REP})
    time.sleep(3)
    for requests in rounds:
        send(port, requests)
    return int(re.search(r"Collected\s*:\s*(\d+)", server.communicate()[1]).group(1))


def main():
    program, count = sys.argv[1], int((sys.argv + ["500"])[2])
    fill = [registration(number) for number in range(count)]
    listing, page = b"GET /eureka/apps HTTP/1.1\r\nHost: x\r\n\r\n", b"GET /eureka/status HTTP/1.1\r\nHost: x\r\n\r\n"
    once = instructions(program, PORT, [fill, [listing]])
    six = instructions(program, PORT + 1, [fill, [listing] * 6])
    pages = instructions(program, PORT + 2, [fill, [listing], [page] * 96])
    half = instructions(program, PORT + 3, [fill[:count // 2], [listing]])
    a_listing = (six - once) / 5
    a_registration = (once - half - a_listing / 2) / (count - count // 2)
    print(f"a listing, an instance: {a_listing / count:.0f}; a status page: {(pages - once) / 96:.0f}; a registration: {a_registration:.0f}")


if __name__ == "__main__":
    main()
