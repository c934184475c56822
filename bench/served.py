#!/usr/bin/env python3
"""Heartbeats of two servers that stand beside each other, which are loaded in turn.

    bench/served.py PROGRAM OTHER [LOADS [CONNECTIONS]]

Each is run as `PROGRAM serve` with four workers. A load is as many clients as CONNECTIONS says (4), each with 500 connections of 100 heartbeats, one
heartbeat at a time (`serve_load beats`). Tells the first load of each server by itself, since the system treats a process that has just started
differently, and of the LOADS after it (9) the rates in heartbeats a second, their medians, the processor time of a heartbeat in us, and the ratio of each
pair.
"""
import os
import statistics
import subprocess
import sys
import tempfile

import readers

PORT = 18861
SESSIONS = 500
TOP = os.path.dirname(os.path.abspath(__file__))


class Server(readers.Server):
    def load(self, loader, connections):
        """Heartbeats a second, and the processor time of one in us."""
        before = self.processor_time()
        told = subprocess.run([loader, "beats", str(self.port), str(connections), str(SESSIONS), "1"], capture_output=True, text=True, check=True).stdout
        took = self.processor_time() - before
        return float(told.split()[0]), took / (connections * SESSIONS * 100) * 1e6


def tell(name, loads):
    rates = [round(rate) for rate, _ in loads]
    print(f"{name}: {rates}, median {statistics.median(rates):.0f} a second, {statistics.median(time for _, time in loads):.1f} us of processor time a heartbeat")


def main():
    programs = sys.argv[1:3]
    loads, connections = [int(word) for word in sys.argv[3:] + ["9", "4"][len(sys.argv) - 3:]]
    with tempfile.TemporaryDirectory() as work:
        loader = f"{work}/load"
        subprocess.run(["rustc", "--edition", "2021", "-O", "-o", loader, f"{TOP}/serve_load.rs"], check=True)
        servers = []
        try:
            for place, program in enumerate(programs):
                servers.append(Server(program, PORT + place))
            first = [server.load(loader, connections) for server in servers]
            later = [[], []]
            for turn in range(loads):
                for place in (0, 1) if turn % 2 == 0 else (1, 0):
                    later[place].append(servers[place].load(loader, connections))
        finally:
            for server in servers:
                server.process.kill()
                server.process.wait()
    print(f"the first load of each: {first[0][0]:.0f} and {first[1][0]:.0f} a second, {first[0][0] / first[1][0]:.2f}")
    for name, its in zip(programs, later):
        tell(os.path.basename(name), its)
    ratios = [ours[0] / other[0] for ours, other in zip(*later)]
    print(f"of the other's rate: {[round(ratio, 2) for ratio in ratios]}, median {statistics.median(ratios):.2f}")


if __name__ == "__main__":
    main()
