"""Requests a second over many connections, beside nginx (see many_connections.sh): many_connections.py FILE SECONDS."""

import re
import statistics
import subprocess
import sys
import tempfile
import time

from serve import PROGRAM, QUERY, Client, interpreter, nginx, processor_seconds, request

ROUNDS = 5
SILENT = 63
REQUESTS = 5_000


def wrk(port, target, connections, seconds):
    """Requests a second over so many kept connections, and how many there were."""
    threads = min(2, connections)
    words = ["wrk", f"-t{threads}", f"-c{connections}", f"-d{seconds}s", f"http://127.0.0.1:{port}{target}"]
    told = subprocess.run(words, check=True, capture_output=True, text=True).stdout
    if "Non-2xx" in told:
        sys.exit(told)
    return float(re.search(r"Requests/sec: *([\d.]+)", told)[1]), int(re.search(r"(\d+) requests in", told)[1])


def worker_of(port):
    """The process that serves a port: of nginx, its worker."""
    listed = subprocess.run(["ss", "-Hltnp", f"sport = :{port}"], check=True, capture_output=True, text=True).stdout
    return max(int(it) for it in re.findall(r"pid=(\d+)", listed))


def microseconds(client, asked):
    """The median time of a request."""
    taken = []
    for _ in range(REQUESTS):
        begun = time.perf_counter()
        client.get(asked)
        taken.append(time.perf_counter() - begun)
    return statistics.median(taken) * 1e6


def main():
    file, seconds = sys.argv[1], int(sys.argv[2])
    mirror = subprocess.Popen([PROGRAM, "serve", file, "0"], bufsize=0, stderr=subprocess.PIPE)
    line = mirror.stderr.readline().decode()
    print(line.strip())
    port = int(line.split(",")[0].rpartition(":")[2])
    target = interpreter(QUERY).split(b" ")[1].decode()
    client = Client(port)
    client.connection.sendall(interpreter(QUERY))
    answer = client.connection.recv(1 << 18).partition(b"\r\n\r\n")[2]
    with tempfile.TemporaryDirectory() as room, nginx(room, "answer", answer) as other:
        sites = {"mirror": (port, target, mirror.pid), "nginx": (other, "/answer", worker_of(other))}
        for connections in (64, 1):
            rates, costs = {it: [] for it in sites}, {it: [] for it in sites}
            for _ in range(ROUNDS):
                for name, (at, asked, process) in sites.items():
                    before = processor_seconds(process)
                    rate, count = wrk(at, asked, connections, seconds)
                    rates[name].append(rate)
                    costs[name].append((processor_seconds(process) - before) / count * 1e6)
            for name in sites:
                print(f"{connections} kept connections, {name}: {statistics.median(rates[name]):,.0f} requests a second "
                      f"({min(rates[name]):,.0f} to {max(rates[name]):,.0f}), "
                      f"{statistics.median(costs[name]):.1f} microseconds of processor time each")
            ratio = statistics.median(rates["mirror"]) / statistics.median(rates["nginx"])
            print(f"{connections} kept connections: {ratio:.2f} times nginx")
    alone, beside = [], []
    for _ in range(ROUNDS):
        fresh = Client(port)
        alone.append(microseconds(fresh, interpreter(QUERY)))
        silent = [Client(port) for _ in range(SILENT)]
        beside.append(microseconds(fresh, interpreter(QUERY)))
        for it in [*silent, fresh]:
            it.connection.close()
        time.sleep(0.2)
    print(f"a request alone: {statistics.median(alone):.1f} microseconds; beside {SILENT} silent connections: "
          f"{statistics.median(beside):.1f}, {statistics.median(beside) / statistics.median(alone):.2f} times")
    mirror.kill()


if __name__ == "__main__":
    main()
