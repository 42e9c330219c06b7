"""What the program does at its edges: descriptors that are closed, outputs that fail, pipes, and odd paths.

Each test takes the path of the program and a folder of its own, and raises where it finds something else.
"""
import contextlib
import errno
import itertools
import json
import os
import pathlib
import resource
import select
import signal
import socket
import sqlite3
import subprocess
import time

from helpers.tables import WORKED
from helpers.trying import expect

ON_DISK = True
SECONDS = 60
COMMAND = '{"number":1,"panel":"P1","point":"R101-SET","priority":8,"value":2150}\n'
DONE = '{"answer":"done","number":1,"present":2150,"priority":8}\n'
OVERRIDE = "R101-SET                                2150  8  panel P1 #1, since before any tick\n"
# What a run of each subcommand that reads a list prints first of the command.
OF_A_LIST = {"replay": DONE, "straighten": COMMAND, "overrides": OVERRIDE}


def opened_for_writing(pipe):
    """The pipe, once the program has opened it for reading, waited for so long at most."""
    end = time.monotonic() + SECONDS
    while True:
        try:
            return os.fdopen(os.open(pipe, os.O_WRONLY | os.O_NONBLOCK), "w")
        except OSError as error:
            if error.errno != errno.ENXIO or time.monotonic() > end:
                raise
            time.sleep(0.005)


def files(folder, deliveries=COMMAND):
    building, listed = folder / "building.toml", folder / "list.jsonl"
    building.write_text(WORKED)
    listed.write_text(deliveries)
    return building, listed


def commands(count):
    """So many commands of one panel in order."""
    line = '{{"number":{},"panel":"P1","point":"LIGHT","priority":8,"value":1}}\n'
    return "".join(line.format(number) for number in range(1, count + 1))


def reported_on_a_full_device(program, subcommand, building, listed, reported=b"desk: cannot write\n"):
    with open("/dev/full", "wb") as full:
        ran = subprocess.run([program, subcommand, building, listed], stdout=full, stderr=subprocess.PIPE, timeout=SECONDS)
    expect((subcommand, ran.returncode, ran.stderr), (subcommand, 1, reported))


def a_full_device_is_reported(program, folder):
    for subcommand in OF_A_LIST:
        reported_on_a_full_device(program, subcommand, *files(folder))
        reported_on_a_full_device(program, subcommand, *files(folder, commands(20_000)))


def a_full_device_is_reported_before_a_bad_line(program, folder):
    reported_on_a_full_device(program, "replay", *files(folder, COMMAND + "no delivery\n"))


def a_straightening_that_prints_nothing_meets_no_full_device(program, folder):
    reported = b"desk: line 2 is not a delivery\n"
    reported_on_a_full_device(program, "straighten", *files(folder, COMMAND + "no delivery\n"), reported)


def a_closed_pipe_is_reported(program, folder):
    building, listed = files(folder)
    for subcommand in OF_A_LIST:
        reader, writer = os.pipe()
        os.close(reader)
        ran = subprocess.run([program, subcommand, building, listed], stdout=writer, stderr=subprocess.PIPE, timeout=SECONDS)
        os.close(writer)
        expect((subcommand, ran.returncode, ran.stderr), (subcommand, 1, b"desk: cannot write\n"))


def a_building_is_refused_before_the_list_is_opened(program, folder):
    pipe = folder / "pipe"
    os.mkfifo(pipe)
    (folder / "empty.toml").write_text("")
    for building, reported in (("missing.toml", "cannot read missing.toml"), ("empty.toml", "B3 top 0 zone")):
        for subcommand in OF_A_LIST:
            words = [program, subcommand, building, "pipe"]
            ran = subprocess.run(words, cwd=folder, capture_output=True, text=True, timeout=SECONDS)
            expect((subcommand, ran.returncode, ran.stdout, ran.stderr), (subcommand, 1, "", f"desk: {reported}\n"))


def each_reply_is_seen_while_the_list_goes_on(program, folder):
    building, _ = files(folder)
    pipe = folder / "pipe"
    os.mkfifo(pipe)
    with subprocess.Popen([program, "replay", building, pipe], stdout=subprocess.PIPE, text=True) as desk:
        try:
            with opened_for_writing(pipe) as sender:
                for number in (1, 2, 3):
                    line = {"number": number, "panel": "P1", "point": "LIGHT", "priority": 8, "value": number % 2}
                    sender.write(json.dumps(line) + "\n")
                    sender.flush()
                    present = number % 2
                    wanted = f'{{"answer":"done","number":{number},"present":{present},"priority":8}}\n'
                    expect(line_within(desk, SECONDS), wanted)
            rest, _ = desk.communicate(timeout=SECONDS)
            expect(rest.splitlines()[1].split(), ["POINT", "LIGHT", "1", "8"])
        finally:
            desk.kill()


def a_list_is_straightened_at_its_end(program, folder):
    """Nothing is printed before the list has ended."""
    building, _ = files(folder)
    pipe, lines = folder / "pipe", commands(500)
    os.mkfifo(pipe)
    with subprocess.Popen([program, "straighten", building, pipe], stdout=subprocess.PIPE, stderr=subprocess.PIPE, text=True) as desk:
        try:
            with opened_for_writing(pipe) as sender:
                sender.write(lines)
                sender.flush()
                expect(select.select([desk.stdout], [], [], 0.3)[0], [])
                sender.write(COMMAND)
            out, err = desk.communicate(timeout=SECONDS)
        finally:
            desk.kill()
    expect((desk.returncode, out, err), (0, lines, ""))


def a_bad_line_after_many_leaves_nothing_of_a_straightened_list(program, folder):
    building, listed = files(folder, commands(20_000) + "no delivery\n")
    ran = subprocess.run([program, "straighten", building, listed], capture_output=True, text=True, timeout=SECONDS)
    expect((ran.returncode, ran.stdout, ran.stderr), (1, "", "desk: line 20001 is not a delivery\n"))


def line_within(desk, seconds):
    """A line of the output, waited for so long at most."""
    end = time.monotonic() + seconds
    os.set_blocking(desk.stdout.fileno(), False)
    found = b""
    while not found.endswith(b"\n"):
        if time.monotonic() > end:
            raise AssertionError(f"no reply within {seconds} seconds, only {found!r}")
        try:
            found += os.read(desk.stdout.fileno(), 4096)
        except BlockingIOError:
            time.sleep(0.005)
    os.set_blocking(desk.stdout.fileno(), True)
    return found.decode()


def closed(descriptors):
    def close():
        for descriptor in descriptors:
            os.close(descriptor)

    return close


def a_closed_output_is_an_output_that_fails(program, folder):
    building, listed = files(folder)
    for subcommand in OF_A_LIST:
        words = [program, subcommand, building, listed]
        ran = subprocess.run(words, stderr=subprocess.PIPE, preexec_fn=closed([1]), timeout=SECONDS)
        expect((subcommand, ran.returncode, ran.stderr), (subcommand, 1, b"desk: cannot write\n"))


def a_closed_input_changes_nothing(program, folder):
    building, listed = files(folder)
    for subcommand, first in OF_A_LIST.items():
        words = [program, subcommand, building, listed]
        ran = subprocess.run(words, capture_output=True, text=True, preexec_fn=closed([0]), timeout=SECONDS)
        expect((subcommand, ran.returncode, ran.stdout.startswith(first), ran.stderr), (subcommand, 0, True, ""))


def no_data_file_gets_a_standard_descriptor(program, folder):
    building, _ = files(folder)
    pipe = folder / "pipe"
    os.mkfifo(pipe)
    for gone in ([0], [1], [2], [0, 1, 2]):
        desk = subprocess.Popen([program, "replay", building, pipe], stdin=subprocess.DEVNULL,
                                stdout=subprocess.DEVNULL, stderr=subprocess.DEVNULL, preexec_fn=closed(gone))
        try:
            with opened_for_writing(pipe):
                held = pathlib.Path(f"/proc/{desk.pid}/fd")
                for descriptor in (0, 1, 2):
                    expect(os.readlink(held / str(descriptor)), "/dev/null")
            desk.wait(timeout=SECONDS)
        finally:
            desk.kill()
            desk.wait()


def a_fault_is_one_write(program, folder):
    near, far = socket.socketpair(socket.AF_UNIX, socket.SOCK_SEQPACKET)
    with near, far:
        near.settimeout(SECONDS)
        for subcommand in OF_A_LIST:
            words = [program, subcommand, "missing.toml", "list.jsonl"]
            ran = subprocess.run(words, cwd=folder, stdout=subprocess.DEVNULL, stderr=far, timeout=SECONDS)
            expect((subcommand, ran.returncode, near.recv(4096)), (subcommand, 1, b"desk: cannot read missing.toml\n"))


def a_path_stays_one_line(program, folder):
    for subcommand in OF_A_LIST:
        words = [program, subcommand, "one\ntwo\x1b[31m é.toml", "list.jsonl"]
        ran = subprocess.run(words, cwd=folder, capture_output=True, text=True, timeout=SECONDS)
        expect((subcommand, ran.returncode, ran.stderr), (subcommand, 1, "desk: cannot read one\\ntwo\\u{1b}[31m é.toml\n"))


def a_word_that_is_no_text_makes_no_file(program, folder):
    words = [program, "replay", b"\xff", "list.jsonl"]
    ran = subprocess.run(words, cwd=folder, capture_output=True, timeout=SECONDS)
    expect((ran.returncode, os.listdir(folder)), (2, []))


def a_line_of_100000_bytes_is_read(program, folder):
    building, listed = files(folder, " " * 100_000 + COMMAND)
    for subcommand, first in OF_A_LIST.items():
        ran = subprocess.run([program, subcommand, building, listed], capture_output=True, text=True, timeout=SECONDS)
        expect((subcommand, ran.returncode, ran.stdout.startswith(first), ran.stderr), (subcommand, 0, True, ""))


def ticked(program, folder, at, **more):
    words = [program, "tick", "building.toml", "desk.db", str(at)]
    return subprocess.run(words, cwd=folder, timeout=SECONDS, **{"capture_output": True, **more})


TICKED, OLD = b'{"answer":"tick","writes":1}\n', b'{"answer":"old","writes":0}\n'
REFUSED = (3, b"", b"desk: store fault S2\n")
NO_MEMORY = (3, b"", b"desk: out of memory\n")
MEMORY_STEP = 1 << 16


def a_database_that_another_process_holds_is_refused(program, folder):
    files(folder)
    expect(ticked(program, folder, 174884399999).stdout, TICKED)
    holder = sqlite3.connect(folder / "desk.db", isolation_level=None)
    holder.execute("BEGIN EXCLUSIVE")
    try:
        ran = ticked(program, folder, 174884400000)
        last = holder.execute("SELECT last FROM desk").fetchall()
    finally:
        holder.close()
    expect((ran.returncode, ran.stdout, ran.stderr), REFUSED)
    expect(last, [(174884399999,)])
    expect(ticked(program, folder, 174884400000).stdout, TICKED)


def full_pipe():
    """A pipe that takes no more, and what was put in it."""
    reader, writer = os.pipe()
    os.set_blocking(writer, False)
    put = 0
    try:
        while True:
            put += os.write(writer, b"x" * 4096)
    except BlockingIOError:
        os.set_blocking(writer, True)
    return reader, writer, put


def has_open(desk, path):
    """Whether the process has the file open and waits."""
    waits = pathlib.Path(f"/proc/{desk.pid}/stat").read_text().rpartition(") ")[2].startswith("S")
    opened = set()
    for link in pathlib.Path(f"/proc/{desk.pid}/fd").iterdir():
        with contextlib.suppress(FileNotFoundError):  # closed since
            opened.add(os.readlink(link))
    return waits and str(path.resolve()) in opened


def a_database_that_a_desk_holds_is_refused(program, folder):
    files(folder)
    expect(ticked(program, folder, 174884399999).stdout, TICKED)
    reader, writer, put = full_pipe()
    words = [program, "tick", "building.toml", "desk.db", "174884400000"]
    with subprocess.Popen(words, cwd=folder, stdout=writer, stderr=subprocess.PIPE) as desk:
        try:
            os.close(writer)
            end = time.monotonic() + SECONDS
            while not has_open(desk, folder / "desk.db") and time.monotonic() < end:
                time.sleep(0.02)
            time.sleep(0.1)
            ran = ticked(program, folder, 174884400100)
            expect((ran.returncode, ran.stdout, ran.stderr), REFUSED)
            with os.fdopen(reader, "rb") as printed:
                expect(printed.read()[put:], TICKED)
            expect((desk.wait(timeout=SECONDS), desk.stderr.read()), (0, b""))
        finally:
            desk.kill()
    expect(ticked(program, folder, 174884400000).stdout, OLD)


def a_tick_whose_reply_is_lost_stands(program, folder):
    files(folder)
    with open("/dev/full", "wb") as full:
        ran = ticked(program, folder, 174884399999, stdout=full, stderr=subprocess.PIPE, capture_output=False)
    expect((ran.returncode, ran.stderr), (1, b"desk: cannot write\n"))
    expect(ticked(program, folder, 174884399999).stdout, OLD)


def rows_of(database):
    """The rows of each table, as the C library reads them."""
    names = ("desk", "panel", "command", "place", "shown", "imported")
    with contextlib.closing(sqlite3.connect(database)) as connection:
        return [connection.execute(f"SELECT * FROM {name} ORDER BY 1, 2").fetchall() for name in names]


def on_a_disk_of(most):
    """Lets no file of this process grow past so many bytes: a write past them fails, as on a disk that is full."""
    signal.signal(signal.SIGXFSZ, signal.SIG_IGN)
    resource.setrlimit(resource.RLIMIT_FSIZE, (most, most))


def a_full_disk_is_reported_and_changes_nothing(program, folder):
    files(folder)
    expect(ticked(program, folder, 174884399999).stdout, TICKED)
    before = rows_of(folder / "desk.db")
    ran = ticked(program, folder, 174884400000, preexec_fn=lambda: on_a_disk_of(1000))
    expect((ran.returncode, ran.stdout, ran.stderr), REFUSED)
    expect(rows_of(folder / "desk.db"), before)
    expect(ticked(program, folder, 174884400000).stdout, TICKED)


def no_database_is_made_on_a_full_disk(program, folder):
    files(folder)
    ran = ticked(program, folder, 174884399999, preexec_fn=lambda: on_a_disk_of(1000))
    expect((ran.returncode, ran.stdout, ran.stderr), REFUSED)
    expect(ticked(program, folder, 174884399999).stdout, TICKED)


def within(most):
    """Gives this process no more than so many bytes of memory."""
    resource.setrlimit(resource.RLIMIT_AS, (most, most))


def enough_memory(runs):
    """Bytes of memory within which a call for a run answers that it is done, with little to spare."""
    enough, scarce = 1 << 30, 1 << 20
    while enough - scarce > MEMORY_STEP:
        middle = (enough + scarce) // 2
        if runs(middle):
            enough = middle
        else:
            scarce = middle
    return enough


def want_of_memory_is_reported_and_changes_nothing(program, folder):
    """With ever less memory than enough, a tick tells the want of it and leaves the tables as they were."""
    files(folder)
    expect(ticked(program, folder, 174884399999).stdout, TICKED)
    moments = itertools.count(174884400001)
    most = enough_memory(lambda some: ticked(program, folder, next(moments), preexec_fn=lambda: within(some)).returncode == 0)
    reported = set()
    before = rows_of(folder / "desk.db")
    for steps in range(1, 40):
        ran = ticked(program, folder, 174888000000, preexec_fn=lambda: within(most - steps * MEMORY_STEP))
        if ran.returncode not in (0, 3):
            break  # too little to begin at all
        reported.add((ran.returncode, ran.stdout, ran.stderr))
        expect(rows_of(folder / "desk.db"), before)
    expect(reported, {NO_MEMORY})
    expect(ticked(program, folder, 174888000000).stdout, OLD.replace(b"old", b"tick"))


def want_of_memory_leaves_nothing_of_a_straightened_list(program, folder):
    """With ever less memory than enough, a straightening tells the want of it and prints nothing."""
    building, listed = files(folder, commands(5_000))

    def straightened(most):
        words = [program, "straighten", building, listed]
        return subprocess.run(words, capture_output=True, preexec_fn=lambda: within(most), timeout=SECONDS)

    most, reported = enough_memory(lambda some: straightened(some).returncode == 0), set()
    expect(straightened(most + MEMORY_STEP).stdout, listed.read_bytes())
    for steps in range(1, 60):
        ran = straightened(most - steps * MEMORY_STEP)
        if ran.returncode not in (0, 3):
            break  # too little to begin at all
        reported.add((ran.returncode, ran.stdout, ran.stderr))
    expect(reported, {NO_MEMORY})


def words_at_fault_make_no_database(program, folder):
    files(folder)
    before = sorted(os.listdir(folder))
    for words in (["tick", "building.toml", "desk.db", "noon"], ["tick", "building.toml", "desk.db"],
                  ["import", "building.toml", "desk.db"], ["tick", "building.toml", b"\xff", "0"]):
        ran = subprocess.run([program, *words], cwd=folder, capture_output=True, timeout=SECONDS)
        expect((ran.returncode, ran.stdout, sorted(os.listdir(folder))), (2, b"", before))


TESTS = [
    a_database_that_another_process_holds_is_refused,
    a_database_that_a_desk_holds_is_refused,
    a_tick_whose_reply_is_lost_stands,
    a_full_disk_is_reported_and_changes_nothing,
    no_database_is_made_on_a_full_disk,
    want_of_memory_is_reported_and_changes_nothing,
    want_of_memory_leaves_nothing_of_a_straightened_list,
    words_at_fault_make_no_database,
    a_full_device_is_reported,
    a_full_device_is_reported_before_a_bad_line,
    a_straightening_that_prints_nothing_meets_no_full_device,
    a_closed_pipe_is_reported,
    a_building_is_refused_before_the_list_is_opened,
    each_reply_is_seen_while_the_list_goes_on,
    a_list_is_straightened_at_its_end,
    a_bad_line_after_many_leaves_nothing_of_a_straightened_list,
    a_closed_output_is_an_output_that_fails,
    a_closed_input_changes_nothing,
    no_data_file_gets_a_standard_descriptor,
    a_fault_is_one_write,
    a_path_stays_one_line,
    a_word_that_is_no_text_makes_no_file,
    a_line_of_100000_bytes_is_read,
]
