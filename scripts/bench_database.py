"""Measures the desk over a file: commands in order, delivered one by one to the tables in a database.

The program that does it, `scripts/database_bench`, is proved apart (`proved_apart`). Beside it stands the same work
done by `scripts/plain_desk.cpp` over the C library of SQLite, where a compiler and that library are installed. The two
take turns, and the fastest run of each is reported. Where `strace` is installed the waits for the disk are counted, and
where `valgrind` is the instructions.
"""
import os
import pathlib
import re
import resource
import shutil
import subprocess
import sys
import time

import proved_apart

ROOT = pathlib.Path(__file__).resolve().parent.parent
FOLDER = ROOT / "build" / "bench"
LIBRARIES = "building cli_common desk desk_cli json store store_file"
PANELS, POINTS = 20, 40
COMMANDS, COUNTED = 10_000, 2_000
RUNS = 5


def write_building(path, panels=PANELS):
    with open(path, "w") as out:
        out.write('zone = "UTC0"\n')
        for point in range(1, POINTS + 1):
            out.write(f'[[point]]\nname = "ROOM-{point}"\nkind = "analog"\nlow = 500\nhigh = 3500\ndefault = 1800\n')
        names = ", ".join(f'"ROOM-{point}"' for point in range(1, POINTS + 1))
        for panel in range(1, panels + 1):
            out.write(f'[[panel]]\nname = "PANEL-{panel}"\npoints = [{names}]\npriorities = [8, 10]\n')


def write_commands(path, count):
    """Commands in each panel's number order, the same as those of the plain program."""
    with open(path, "w") as out:
        for index in range(count):
            panel, number = index % PANELS, index // PANELS + 1
            point = (panel * POINTS // PANELS + number) % POINTS
            out.write(
                f'{{"number":{number},"panel":"PANEL-{panel + 1}","point":"ROOM-{point + 1}",'
                f'"priority":8,"value":{500 + index * 7 % 3001}}}\n'
            )


def built_plain():
    """The plain program, or nothing where it can't be built."""
    program = FOLDER / "plain_desk"
    words = ["g++", "-O2", "-std=c++17", "-o", str(program), str(ROOT / "scripts" / "plain_desk.cpp"), "-lsqlite3"]
    is_built = shutil.which("g++") and subprocess.run(words, capture_output=True).returncode == 0
    return program if is_built else None


def fresh(database):
    for path in database.parent.glob(database.name + "*"):
        path.unlink()


def words_of(program, database, count):
    if program.name == "plain_desk":
        return [str(program), str(database), str(PANELS), str(POINTS), str(count)]
    return [str(program), str(FOLDER / "database.toml"), str(database), str(FOLDER / f"database-{count}.jsonl")]


def run(program, count, before=()):
    """The seconds on the clock, those of the processor, and the peak kilobytes of one run, in a process of its own."""
    database = FOLDER / "bench.db"
    fresh(database)
    reader, writer = os.pipe()
    child = os.fork()
    if child == 0:
        start = time.perf_counter()
        with open(os.devnull, "wb") as sink:
            status = subprocess.call([*before, *words_of(program, database, count)], stdout=sink)
        used = resource.getrusage(resource.RUSAGE_CHILDREN)
        reported = f"{time.perf_counter() - start} {used.ru_utime + used.ru_stime} {used.ru_maxrss} {status}"
        os.write(writer, reported.encode())
        os._exit(0)
    os.close(writer)
    seconds, own, peak, status = os.read(reader, 200).split()
    os.waitpid(child, 0)
    os.close(reader)
    if int(status) != 0:
        sys.exit(f"{program.name} ended with status {int(status)}")
    return float(seconds), float(own), int(peak)


def waits(program):
    """The waits for the disk of one run."""
    log = FOLDER / "strace"
    run(program, COUNTED, ["strace", "-f", "-c", "-o", str(log), "-e", "trace=fsync,fdatasync"])
    return sum(int(row.split()[3]) for row in log.read_text().splitlines() if re.search(r" f(data)?sync$", row))


def instructions(program, count):
    database = FOLDER / "bench.db"
    fresh(database)
    words = ["valgrind", "--tool=callgrind", "--callgrind-out-file=/dev/null", *words_of(program, database, count)]
    ran = subprocess.run(words, stdout=subprocess.DEVNULL, stderr=subprocess.PIPE, text=True, check=True)
    return int(re.search(r"Collected : (\d+)", ran.stderr).group(1))


def show(name, program, runs):
    seconds, own, peak = min(runs)
    reported = f"{name}: {COMMANDS / seconds:,.0f} commands a second to a file, {own / COMMANDS * 1000:.3f} ms of the processor each"
    reported += f", {peak / 1024:.0f} MB at most"
    if shutil.which("strace"):
        reported += f", {waits(program) / COUNTED:.2f} waits for the disk each"
    if shutil.which("valgrind"):
        reported += f", {(instructions(program, COUNTED) - instructions(program, 0)) / COUNTED:,.0f} instructions each"
    print(reported, flush=True)
    return seconds


def main():
    FOLDER.mkdir(parents=True, exist_ok=True)
    write_building(FOLDER / "database.toml")
    for count in (0, COUNTED, COMMANDS):
        write_commands(FOLDER / f"database-{count}.jsonl", count)
    desk, plain = proved_apart.built("database_bench", LIBRARIES), built_plain()
    programs = [program for program in (desk, plain) if program]
    runs = {program: [] for program in programs}
    for _ in range(RUNS):
        for program in programs:
            runs[program].append(run(program, COMMANDS))
    ours = show("the desk", desk, runs[desk])
    if plain:
        theirs = show("a plain program in C++", plain, runs[plain])
        print(f"the desk makes {theirs / ours:.2f} of the plain program's commands a second")
    else:
        print("the plain program was not built: it wants g++ and libsqlite3")


if __name__ == "__main__":
    main()
