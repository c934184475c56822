#!/usr/bin/env python3
"""Fills a server under a limit of memory, by instances of nearly 1 MiB, until it refuses one; then it has to go on serving what it holds.

    tools/check_memory_limit.py PROGRAM [MIB]

PROGRAM is run by the script `eureka` with `--memory MIB` (400 where none is told). Tells each answer, and ends with 1 where one isn't what it has to be.
"""
import http.client
import json
import os
import shutil
import subprocess
import sys
import tempfile
import time

TOP = os.path.dirname(os.path.dirname(os.path.abspath(__file__)))
PORT = 18763
# A body has at most 1 MiB.
FILLING = 1_048_576 - 400


def body(number):
    host = f"host-{number}"
    return json.dumps({"instance": {
        "instanceId": host, "hostName": host, "app": f"FILL{number}", "ipAddr": "10.0.0.1", "dataCenterInfo": {"name": "MyOwn"},
        "metadata": {"filling": "x" * FILLING}}}, separators=(",", ":"))


def ask(method, path, content=None):
    """The status of the answer, and how many bytes it has; 0 where the server closed, since it found no memory even to refuse."""
    connection = http.client.HTTPConnection("127.0.0.1", PORT, timeout=60)
    try:
        connection.request(method, path, content, {"Content-Type": "application/json"} if content else {})
        answer = connection.getresponse()
        return answer.status, len(answer.read())
    except (ConnectionError, http.client.HTTPException):
        return 0, 0
    finally:
        connection.close()


def is_whole(answer):
    status, length = answer
    return status == 200 and length > FILLING


def fill():
    """How many are held once one is refused, and by which status."""
    for number in range(65_536):
        status, _ = ask("POST", f"/eureka/apps/FILL{number}", body(number))
        if status != 204:
            return number, status
    raise SystemExit("never refused")


def main():
    program, most = sys.argv[1], (sys.argv + ["400"])[2]
    wrong = []

    def expect(what, wanted, given):
        print(("ok: " if wanted == given else "WRONG: ") + f"{what}: {given}")
        if wanted != given:
            wrong.append(what)

    with tempfile.TemporaryDirectory() as place:
        os.makedirs(f"{place}/crates/eureka/out")
        shutil.copy(f"{TOP}/eureka", f"{place}/eureka")
        shutil.copy(program, f"{place}/crates/eureka/out/eureka")
        server = subprocess.Popen(
            [f"{place}/eureka", "serve", "--memory", most, "--port", str(PORT), "--forever", "--until-input-ends", "--quiet"],
            stdout=subprocess.PIPE, text=True)
        try:
            time.sleep(1)
            held, status = fill()
            print(f"{held} instances of {len(body(0)):,} bytes under {most} MiB")
            expect("the next registration is refused", 503, status)
            everything = [f"/eureka/apps/FILL{number}/host-{number}" for number in range(held)]
            expect("renewed", held, sum(ask("PUT", one)[0] == 200 for one in everything))
            shown = [ask("GET", one) for one in everything]
            whole, refused = sum(is_whole(answer) for answer in shown), sum(status in (0, 503) for status, _ in shown)
            print(f"shown: {whole} whole, {refused} refused, since answers take memory, too")
            expect("shown whole, or refused", held, whole + refused)
            expect("most are shown", True, whole > 0.9 * held)
            expect("an unknown lease isn't renewed", 404, ask("PUT", "/eureka/apps/FILL0/nobody")[0])
            print(f"a listing of all, which takes as much memory again: {ask('GET', '/eureka/apps')[0]}")
            expect("one is cancelled", 200, ask("DELETE", f"/eureka/apps/FILL{held - 1}/host-{held - 1}")[0])
            expect("one that is small is registered", 204, ask("POST", "/eureka/apps/SMALL", json.dumps({"instance": {
                "instanceId": "s", "hostName": "s", "app": "SMALL", "ipAddr": "10.0.0.1", "dataCenterInfo": {"name": "MyOwn"}}}))[0])
            expect("and listed", 200, ask("GET", "/eureka/apps/SMALL")[0])
            expect("what is left is renewed still", held - 1, sum(ask("PUT", one)[0] == 200 for one in everything))
            server.terminate()
            print("status", server.wait(timeout=100), server.stdout.read().strip())
            expect("it ends well", 0, server.returncode)
        finally:
            server.kill()
    return 1 if wrong else 0


sys.exit(main())
