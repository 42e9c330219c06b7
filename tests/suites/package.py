"""Tries the package for Debian that scripts/package makes: what is in it, with which modes and owners, whether what its
units name is there, and whether it is the same when it is made again.

It is packed from the program that is tried, with build/panel, or a script in place of that where it is missing. Nothing is
installed here; tests/try_package does that.
"""
import functools
import os
import pathlib
import re
import shutil
import subprocess
import tempfile

from helpers import trying
from helpers.trying import ROOT, Missing, expect

SCRIPT = ROOT / "scripts" / "package"
PANEL = ROOT / "build" / "panel"
STAND_IN = "#!/bin/sh\necho 'usage: panel send ADDRESS NAME JOURNAL\n       panel --version' >&2\nexit 2\n"
SECONDS = 600
# When the last commit was made, for these tests.
MOMENT, MOMENT_LISTED = 1_748_845_800, "2025-06-02 06:30"
UNITS, EXAMPLES = "usr/lib/systemd/system", "usr/share/doc/desk/examples"
# What the package has beside the units, the page and the documents.
OF_SEVERAL = ["desk@.service", "desk-tick@.service", "desk-tick@.timer", "desk-backup@.service", "desk-backup@.timer"]
WANTED = ["etc/logrotate.d/desk", "usr/lib/desk/desk-unit", "etc/desk/", "usr/bin/desk", "usr/bin/desk-backup", "usr/bin/desk-record", "usr/bin/panel", f"{EXAMPLES}/nginx.conf", f"{EXAMPLES}/office.toml",
          "usr/share/doc/desk/changelog.gz", "usr/share/doc/desk/copyright", "usr/share/man/man1/desk-backup.1.gz", "usr/share/man/man1/desk-record.1.gz",
          "usr/share/man/man1/desk.1.gz", "usr/share/man/man1/panel.1.gz"]
# What the system has, and what the units make as they run.
ELSEWHERE = ("/bin/sh", "/dev/null", "/etc/desk/", "/var/lib/desk", "/var/backups", "/var/log/desk/", "/run/desk", "/tick")


def run(*words, status=0, **how):
    ran = subprocess.run(words, capture_output=True, text=True, timeout=SECONDS, **how)
    expect(ran.returncode, status, f"{words[0]}: {ran.stderr}")
    return ran


def pack(program, folder):
    """Packs the program into a folder, and returns the package's path."""
    panel = PANEL
    if not panel.is_file():
        panel = folder / "panel"
        panel.write_text(STAND_IN)
        panel.chmod(0o755)
    run(SCRIPT, folder, env={**os.environ, "PACKED_DESK": program, "PACKED_PANEL": str(panel), "SOURCE_DATE_EPOCH": str(MOMENT)})
    return next(folder.glob("*.deb"))


@functools.lru_cache(maxsize=None)
def packed(program):
    """The package, and a folder with its files, in which DEBIAN has those that tell dpkg of it; for all tests."""
    if not shutil.which("dpkg-deb"):
        raise Missing("dpkg-deb")
    folder = pathlib.Path(trying.END.enter_context(tempfile.TemporaryDirectory(prefix="desk-package-")))
    made = pack(program, folder)
    run("dpkg-deb", "-R", made, folder / "files")
    return made, folder / "files"


def listed(made):
    """The mode, owner and time of each path in the package; a folder's path ends with `/`."""
    shown = run("dpkg-deb", "-c", made, env={**os.environ, "TZ": "UTC"}).stdout
    lines = [line.split(maxsplit=5) for line in shown.splitlines()]
    return {path.removeprefix("./"): (mode, owner, f"{day} {time}") for mode, owner, _, day, time, path in lines}


# ---- the cases

def root_owns_its_files_with_plain_modes(program, _folder):
    found = listed(packed(program)[0])
    wanted = [*WANTED, *(f"usr/share/desk/page/{path.name}" for path in (ROOT / "deploy" / "page").iterdir()),
              *(f"{UNITS}/{path.name}" for kind in ("service", "timer") for path in (ROOT / "deploy").glob(f"*.{kind}")),
              *(f"{UNITS}/{name}" for name in OF_SEVERAL)]
    expect([path for path in wanted if path not in found], [])
    for path, each in found.items():
        mode = "drwxr-xr-x" if path[-1:] in ("", "/") else "-rwxr-xr-x" if path.startswith(("usr/bin/", "usr/lib/desk/d")) else "-rw-r--r--"
        expect(each, (mode, "root/root", MOMENT_LISTED), path)


def its_programs_are_those_that_were_given(program, _folder):
    made, files = packed(program)
    expect((files / "usr/bin/desk").read_bytes() == pathlib.Path(program).read_bytes(), True)
    version = run(program, "--version").stdout.split()[1]
    expect(made.name, f"desk_{version}_amd64.deb")
    expect(run("dpkg-deb", "-f", made, "Package", "Version").stdout, f"Package: desk\nVersion: {version}\n")
    run("md5sum", "--quiet", "-c", "DEBIAN/md5sums", cwd=files)


def what_its_units_name_is_in_it(program, _folder):
    """No path is that of `make install`. What starts is in the package, or a shell."""
    files = packed(program)[1]
    for path in (*(files / UNITS).iterdir(), files / "usr/bin/desk-backup", files / "usr/bin/desk-record", files / "usr/lib/desk/desk-unit", files / EXAMPLES / "nginx.conf"):
        text = re.sub(r"^#(?!!).*", "", path.read_text(), flags=re.M)
        named = re.findall(r"(?<![\w$.}/:*])/[a-z][\w./-]+", text) if path.name != "nginx.conf" else re.findall(r"root (/usr.*);", text)
        lost = [each for each in named if not each.startswith(ELSEWHERE) and not (files / each[1:]).exists()]
        expect((path.name, lost), (path.name, []))
        starts = re.findall(r"^Exec\w+=[+-]*(\S+)", text, re.M)
        expect([each for each in starts if each != "/bin/sh" and not os.access(files / each[1:], os.X_OK)], [], path.name)


def its_documents_lead_to_one_another(program, _folder):
    documents = packed(program)[1] / "usr/share/doc/desk"
    for path in documents.glob("*.md"):
        lost = [to for to in re.findall(r"\]\(([\w./-]+)", path.read_text()) if "/" not in to and not (documents / to).is_file()]
        expect((path.name, lost), (path.name, []))


def its_manual_pages_are_shown_without_a_warning(program, _folder):
    if not shutil.which("man"):
        raise Missing("man")
    manuals = packed(program)[1] / "usr/share/man/man1"
    shown = {path.name: run("man", "--warnings", "-l", path, env={**os.environ, "MANWIDTH": "200"}) for path in manuals.iterdir()}
    expect({name: ran.stderr for name, ran in shown.items() if ran.stderr}, {})
    told = subprocess.run([program, "--help"], stdout=subprocess.PIPE, stderr=subprocess.STDOUT, text=True).stdout
    commands = re.findall(r"^  (\w+) ", told, re.M)
    expect([name for name in commands if name != "help" and f"\n   desk {name}\n" not in shown["desk.1.gz"].stdout], [])
    expect("serve" in commands, True)


def its_maintainer_scripts_are_read_by_sh(program, _folder):
    files = packed(program)[1]
    for name in ("postinst", "prerm", "postrm"):
        run("sh", "-n", files / "DEBIAN" / name)
        expect("\nset -e\n" in (files / "DEBIAN" / name).read_text(), True, name)


def it_is_the_same_when_it_is_made_again(program, folder):
    made, umask = packed(program)[0], os.umask(0o077)
    try:
        expect(pack(program, folder).read_bytes() == made.read_bytes(), True)
    finally:
        os.umask(umask)


def programs_that_are_not_up_to_date_are_reported(_program, folder):
    shutil.copytree(ROOT / "scripts", folder / "scripts", ignore=shutil.ignore_patterns("__pycache__"))
    environment = {name: value for name, value in os.environ.items() if not name.startswith("PACKED_")}
    ran = run(folder / "scripts" / "package", status=2, env=environment)
    expect((ran.stdout, ran.stderr), ("", "desk: make desk panel first: what is to be packed is not up to date\n"))


TESTS = (
    root_owns_its_files_with_plain_modes,
    its_programs_are_those_that_were_given,
    what_its_units_name_is_in_it,
    its_documents_lead_to_one_another,
    its_manual_pages_are_shown_without_a_warning,
    its_maintainer_scripts_are_read_by_sh,
    it_is_the_same_when_it_is_made_again,
    programs_that_are_not_up_to_date_are_reported,
)
