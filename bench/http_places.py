#!/usr/bin/env python3
"""What bench/http_places.sh measures: http_places.py RUNS EXTRACT.opl."""

import socket
import subprocess
import sys
import tempfile
import time
from contextlib import contextmanager
from pathlib import Path

from packs import PROGRAM, QUERIES, measure

ASKED = ["a node by id", "a box", "[k=v], 1,000"]


@contextmanager
def nginx_of(folder, room):
    """nginx over a folder, which notes the bytes that it sends: yields its port and its log."""
    with socket.socket() as free:
        free.bind(("127.0.0.1", 0))
        port = free.getsockname()[1]
    config, log = room / "nginx.conf", room / "log"
    config.write_text(
        f"daemon off; user root; pid {room}/pid; error_log {room}/errors;\nevents {{}}\n"
        f"http {{ log_format sent '$status $bytes_sent'; access_log {log} sent;\n"
        f"server {{ listen 127.0.0.1:{port}; root {folder}; }} }}\n"
    )
    nginx = subprocess.Popen(["nginx", "-p", str(room), "-c", str(config)], stderr=subprocess.DEVNULL)
    try:
        for _ in range(100):
            try:
                socket.create_connection(("127.0.0.1", port), 1).close()
                break
            except OSError:
                time.sleep(0.05)
        yield port, log
    finally:
        nginx.terminate()
        nginx.wait()


def main():
    runs, extract = int(sys.argv[1]), Path(sys.argv[2]).resolve()
    pack = extract.with_suffix(".pack")
    with extract.open("rb") as lines:
        objects = sum(1 for _ in lines)
    words = [PROGRAM, "pack", extract, pack]
    root = subprocess.run(words, check=True, capture_output=True, text=True).stdout.strip()
    with tempfile.TemporaryDirectory() as room, nginx_of(pack.parent, Path(room)) as (port, log):
        place = f"http://127.0.0.1:{port}/{pack.name}"
        for name in ASKED:
            text = QUERIES[name].format(middle=1500000 % objects)
            from_file, over_http = [PROGRAM, "query", root, pack, text], [PROGRAM, "query", root, place, text]
            answer = subprocess.run(from_file, check=True, capture_output=True).stdout
            log.write_text("")
            is_same = subprocess.run(over_http, check=True, capture_output=True).stdout == answer
            time.sleep(0.2)
            sent = [int(line.split()[1]) for line in log.read_text().splitlines()]
            lines = answer.count(b"\n")
            print(f"{name}: {lines} lines; the same over HTTP: {is_same}; {len(sent)} requests, {sum(sent)} bytes")
            measure(max(1, lines), runs, "/dev/null", ("file", from_file), ("HTTP", over_http))


if __name__ == "__main__":
    main()
