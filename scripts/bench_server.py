"""Measures `desk serve` over the loopback: requests a second, one connection after another, and how long each takes.

The requests are made by `scripts/http_load.cpp`, which wants g++: commands in order, a mix of commands, repeats and
points, and points alone, each over a new database; then commands and points by 64 clients at once, and commands with and
without a record (`--record`), the two taking turns. Where `strace` is installed, the share of the time that the server
waits for the disk is counted too. The commands in order are taken as well by `scripts/plain_desk.cpp` where that can be
built: the two servers take turns, on the disk as it is, and with `strace` on a disk of memory each of whose syncs waits
so long that the plain server makes some 2,830 commands a second, as it did on the machine of the first measurements.
Such a disk waits as long for both servers, whatever else the machine does.
"""
import pathlib
import re
import shutil
import socket
import statistics
import subprocess
import sys
import tempfile

import bench_database

ROOT = pathlib.Path(__file__).resolve().parent.parent
FOLDER = ROOT / "build" / "bench"
REQUESTS = 10_000
# One pair differs from the next by a third on a shared machine, so it takes this many to tell the middle of them.
RUNS, PAIRS, PAIRS_IN_MEMORY, PAIRS_OF_RECORDS = 3, 20, 12, 8
# What the plain server made a second on the disk that is the reference, and how near a wait must come to it.
REFERENCE, NEAR = 2_830, 0.08
MEMORY = pathlib.Path("/dev/shm")
CLIENTS = 64
KINDS = {"commands": "commands in order", "mixed": "commands, repeats and points", "points": "GETs of a point"}


def served(kind, count, before=(), plain=None, folder=FOLDER, clients=1, panels=bench_database.PANELS, is_recorded=False):
    """What the load tells of so many requests to a server of a new database: the desk's, or that of the plain program."""
    database, record = folder / "server.db", folder / "server.jsonl"
    bench_database.fresh(database)
    record.unlink(missing_ok=True)
    with socket.create_server(("127.0.0.1", 0)) as free:
        port = free.getsockname()[1]
    if plain:
        words = [*bench_database.words_of(plain, database, count), str(port)]
    else:
        words = [str(ROOT / "build" / "desk"), "serve", str(FOLDER / f"panels-{panels}.toml"), str(database)]
        words += [f"127.0.0.1:{port}", "--requests", str(count), *(["--record", str(record)] if is_recorded else [])]
    server = subprocess.Popen([*before, *words], stdout=subprocess.PIPE)
    server.stdout.readline()
    load = [str(FOLDER / "http_load"), str(port), kind, str(count), str(panels), str(bench_database.POINTS), str(clients)]
    reported = subprocess.run(load, capture_output=True, text=True)
    if reported.returncode != 0 or server.wait() != 0:
        server.kill()
        sys.exit(f"the server ended early, or the load failed: {reported.stderr}")
    if is_recorded and len(record.read_bytes().splitlines()) != count:
        sys.exit(f"the record has other lines than {count} commands")
    return [float(part) for part in reported.stdout.split()]


def waited(kind):
    """The share of a run that the server waits for the disk."""
    log = FOLDER / "strace"
    a_second, _, _ = served(kind, REQUESTS // 5, ["strace", "-f", "-c", "-w", "-o", str(log), "-e", "trace=fsync,fdatasync"])
    seconds = sum(float(row.split()[1]) for row in log.read_text().splitlines() if re.search(r" f(data)?sync$", row))
    return seconds / (REQUESTS / 5 / a_second)


def reported(pairs, other="a plain server in C++ has"):
    """What pairs of speeds come to: the middle of each, and the middle one, the least and the greatest of their ratios."""
    ratios = sorted(desk / beside for desk, beside in pairs)
    ours, theirs = (statistics.median(speeds) for speeds in zip(*pairs))
    return (f"{ours:,.0f} commands a second where {other} {theirs:,.0f}: "
            f"{statistics.median(ratios):.2f} in the middle of pairs from {ratios[0]:.2f} to {ratios[-1]:.2f}")


def compare_with_a_record():
    """Pairs of a desk that keeps a record and one that keeps none."""
    pairs = [[served("commands", REQUESTS, is_recorded=each)[0] for each in (True, False)] for _ in range(PAIRS_OF_RECORDS)]
    print(f"with a record, over HTTP: {reported(pairs, 'without one it is')}", flush=True)


def compare(plain):
    """Pairs on the disk as it is."""
    pairs = [(served("commands", REQUESTS)[0], served("commands", REQUESTS, plain=plain)[0]) for _ in range(PAIRS)]
    print(f"over HTTP: {reported(pairs)}", flush=True)


def waiting(microseconds):
    """The words that have each sync of a command wait so long."""
    injected = f"--inject=fsync,fdatasync:delay_exit={microseconds}"
    return ["strace", "-f", "--seccomp-bpf", "-o", "/dev/null", "-e", "trace=fsync,fdatasync", injected]


def compare_on_the_reference_disk(plain):
    """Pairs on a disk of memory that waits as the reference does."""
    with tempfile.TemporaryDirectory(prefix="desk-bench-", dir=MEMORY) as room:
        def speed(wait, program=None):
            return served("commands", REQUESTS // 5, waiting(wait), program, pathlib.Path(room))[0]

        wait = 100
        for _ in range(8):
            plainly = max(speed(wait, plain) for _ in range(RUNS))
            if abs(plainly / REFERENCE - 1) < NEAR:
                break
            wait = max(0, round(wait + 1e6 / REFERENCE - 1e6 / plainly))
        pairs = [(speed(wait), speed(wait, plain)) for _ in range(PAIRS_IN_MEMORY)]
    print(f"where each sync waits {wait} microseconds more: {reported(pairs)}")


def main():
    FOLDER.mkdir(parents=True, exist_ok=True)
    words = ["g++", "-O2", "-std=c++17", "-pthread", "-o", str(FOLDER / "http_load"), str(ROOT / "scripts" / "http_load.cpp")]
    if not shutil.which("g++") or subprocess.run(words).returncode != 0:
        sys.exit("the load was not built: it wants g++")
    bench_database.write_building(FOLDER / "database.toml")
    for panels in (bench_database.PANELS, CLIENTS):
        bench_database.write_building(FOLDER / f"panels-{panels}.toml", panels)
    for kind, name in KINDS.items():
        a_second, median, hundredth = max(served(kind, REQUESTS) for _ in range(RUNS))
        line = f"{name} over HTTP: {a_second:,.0f} a second, {median:.0f} microseconds at the median, {hundredth:.0f} at the 99th hundredth"
        if shutil.which("strace") and kind != "points":
            line += f"; {waited(kind):.0%} of the time is waiting for the disk"
        print(line, flush=True)
    for kind in ("commands", "points"):
        pairs = [[served(kind, REQUESTS, clients=clients, panels=CLIENTS)[0] for clients in (CLIENTS, 1)] for _ in range(RUNS)]
        print(f"{KINDS[kind]} by {CLIENTS} clients at once: {max(pair[0] for pair in pairs):,.0f} a second, where by one "
              f"{max(pair[1] for pair in pairs):,.0f}", flush=True)
    compare_with_a_record()
    plain = bench_database.built_plain()
    if plain:
        compare(plain)
        if shutil.which("strace") and MEMORY.is_dir():
            compare_on_the_reference_disk(plain)


if __name__ == "__main__":
    main()
