"""Building files that differ from the worked one: what `check`, `describe`, `replay` and `straighten` tell of each."""
import subprocess

from helpers import building_files
from helpers.trying import expect_none, named

ON_DISK = True


def run(program, words, folder):
    return subprocess.run([program, *words], cwd=folder, capture_output=True, timeout=60)


def describing(program, wanted, file, folder):
    """What `describe` of the file tells besides what is wanted, or nothing."""
    ran = run(program, ["describe", "building.toml"], folder)
    found = [ran.returncode, ran.stdout, ran.stderr]
    if not wanted.startswith("ok"):
        expected = [1, b"", f"desk: {wanted}\n".encode()]
    else:
        line = building_files.description(file)
        expected = [0, ran.stdout if line is None else line, b""]
    return "" if found == expected else f"described as {found}, wanted {expected}"


def difference(program, wanted, file, folder):
    """What `check`, `replay` and `straighten` of the file tell besides what is wanted, or nothing."""
    (folder / "building.toml").write_bytes(file)
    (folder / "none.jsonl").write_bytes(b"")
    checked = run(program, ["check", "building.toml"], folder)
    replayed = run(program, ["replay", "building.toml", "none.jsonl"], folder)
    straightened = run(program, ["straighten", "building.toml", "none.jsonl"], folder)
    if wanted.startswith("ok"):
        reported = wanted if ":" in wanted else "ok: 2 points, 2 panels, 1 calendars, 1 schedules"
        expected = [0, reported.encode() + b"\n", b"", 0, b"", 0, b"", b""]
    else:
        line = f"desk: {wanted}\n".encode()
        expected = [1, b"", line, 1, line, 1, b"", line]
    found = [checked.returncode, checked.stdout, checked.stderr, replayed.returncode, replayed.stderr]
    found += [straightened.returncode, straightened.stdout, straightened.stderr]
    return describing(program, wanted, file, folder) if found == expected else f"{found}, wanted {expected}"


def of_file(wanted, file, reported):
    """The test of a file of which this is wanted."""
    def test(program, folder):
        expect_none(difference(program, wanted, file, folder))
    return named(f"{wanted}: {reported}", test)


TESTS = [of_file(*case) for case in building_files.all_cases()]
