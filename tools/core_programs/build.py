"""Proves and builds what a user runs, by `rt`, and puts it below target/. rt's output is shown only where it fails; a line says how far it is."""

import fcntl
import hashlib
import os
import re
import shutil
import signal
import subprocess
import sys
import tempfile
from pathlib import Path

from .words import say

TOP = Path(__file__).resolve().parents[2]
PROGRAMS = ("chart", "answers")
ARCHIVE = "basilothyn"
# The crate with the exported functions, a static library.
ARCHIVE_CRATE = "basilothyn_c"
MADE = {name: f"target/bin/{name}" for name in PROGRAMS} | {ARCHIVE: f"target/staticlib/lib{ARCHIVE}.a"}
PARTS = ("src", "specs", "proofs")
# The archive is for the first x86-64 processors too; rt builds for later ones where it is not told.
WORDS = {ARCHIVE: ["lib", "--cpu=x86-64"]}
POLL = 0.5  # seconds


class NotBuilt(Exception):
    """Why: what rt said, or that there is no rt."""


def lines_of_crates():
    """The line of each crate in crates.txt."""
    lines = (line.split("#")[0].strip() for line in (TOP / "crates.txt").read_text(encoding="utf-8").splitlines())
    return {line.split(":")[0].split()[0]: line for line in lines if ":" in line}


def crates_below(name):
    """This crate and all that it uses; the toolchain's own libraries are not in crates.txt."""
    lines, below, ahead = lines_of_crates(), set(), [name]
    while ahead:
        name = ahead.pop()
        if name in lines and name not in below:
            below.add(name)
            ahead += lines[name].split(":")[1].split()
    return below


def crate_of(name):
    return ARCHIVE_CRATE if name == ARCHIVE else name


def sum_of_sources(name):
    """A sum of all that a program or the archive is proved and built from, but for the toolchain."""
    found, lines = hashlib.sha256(), lines_of_crates()
    for crate in sorted(crates_below(crate_of(name))):
        found.update(f"{lines[crate]}\n".encode())
        for part in PARTS:
            for file in sorted((TOP / "crates" / crate / part).rglob("*")):
                if file.is_file():
                    found.update(f"{file.relative_to(TOP)} {hashlib.sha256(file.read_bytes()).hexdigest()}\n".encode())
    return found.hexdigest()


def note_of(name):
    return TOP / "target" / "made" / name


def is_up_to_date(name):
    note = note_of(name)
    return (TOP / MADE[name]).is_file() and note.is_file() and note.read_text(encoding="ascii") == sum_of_sources(name)


def take(name, sources):
    """Puts what rt built of these sources in its place."""
    out = TOP / "crates" / crate_of(name) / "out"
    to = TOP / MADE[name]
    for folder in to.parent, note_of(name).parent:
        folder.mkdir(parents=True, exist_ok=True)
    # Under another name first, so that none runs or links half of it.
    part = to.with_name(f"{to.name}.{os.getpid()}")
    shutil.copy(out / (f"lib{ARCHIVE_CRATE}.a" if name == ARCHIVE else name), part)
    os.replace(part, to)
    note_of(name).write_text(sources, encoding="ascii")


class Progress:
    """One line on standard error: written over on a terminal, else a line for each crate."""

    def __init__(self, name):
        self.crates = crates_below(crate_of(name))
        self.line = ""

    def report(self, said):
        """rt says of each crate that it checks how many jobs it chose for it; one that is up to date has no line."""
        under_way = re.findall(r"^rt: chose --jobs \d+ for (\w+)$", said, re.M)
        if under_way:
            self.say(f"proving {len(set(under_way))} of at most {len(self.crates)}: {under_way[-1]}")

    def say(self, line):
        if line != self.line:
            self.line = line
            over, end = ("\r\033[K", "") if sys.stderr.isatty() else ("", "\n")
            print(over + line, end=end, file=sys.stderr, flush=True)

    def clear(self):
        if self.line and sys.stderr.isatty():
            print("\r\033[K", end="", file=sys.stderr, flush=True)


def said_in(output):
    output.seek(0)
    return output.read().decode("utf-8", "replace").rstrip()


def run_rt(words, crate, progress):
    """Runs rt in a crate's folder. A program that is built is run too, on no input; whatever its status is, rt says before that it runs it."""
    with tempfile.TemporaryFile() as output:
        try:
            # By itself, so that the provers that it starts can be ended with it.
            to = {"stdin": subprocess.DEVNULL, "stdout": output, "stderr": output}
            rt = subprocess.Popen(["rt", *words], cwd=TOP / "crates" / crate, start_new_session=True, **to)
        except OSError as reason:
            raise NotBuilt(f"the Rattle toolchain cannot be run: rt: {reason.strerror}") from None
        status = wait_for(rt, lambda: progress.report(os.pread(output.fileno(), 1 << 24, 0).decode("utf-8", "replace")))
        said = said_in(output)
        built = re.search(r"^rt: running out/", said, re.M) if words == ["run"] else status == 0
        if not built:
            raise NotBuilt(f"{said}\nrt {' '.join(words)} in crates/{crate} failed, with the output above")


def wait_for(rt, poll):
    """Its exit status. Whoever interrupts this ends rt too."""
    try:
        while True:
            try:
                return rt.wait(POLL)
            except subprocess.TimeoutExpired:
                poll()
    except KeyboardInterrupt:
        os.killpg(rt.pid, signal.SIGTERM)
        rt.wait()
        raise


def wait_for_others(lock):
    """Two at once would prove the same crates, into the same files."""
    try:
        fcntl.flock(lock, fcntl.LOCK_EX | fcntl.LOCK_NB)
    except BlockingIOError:
        say("another build is under way; waiting for it")
        fcntl.flock(lock, fcntl.LOCK_EX)


def build(*names):
    """Brings these up to date: programs, or the archive."""
    with open(TOP / "crates.txt", encoding="utf-8") as lock:
        for name in names:
            if is_up_to_date(name):
                continue
            progress = Progress(name)
            try:
                wait_for_others(lock)
                if not is_up_to_date(name):
                    sources = sum_of_sources(name)
                    run_rt(WORDS.get(name, ["run"]), crate_of(name), progress)
                    take(name, sources)
            except KeyboardInterrupt:
                raise NotBuilt("interrupted") from None
            finally:
                progress.clear()


def take_programs():
    """Takes the programs that `rt ci` has built of these sources, right after it has passed."""
    for name in PROGRAMS:
        take(name, sum_of_sources(name))


def program(name):
    """The program's path, once it is up to date. Where that fails, standard error says why and the run ends with 1."""
    try:
        build(name)
    except NotBuilt as reason:
        sys.exit(f"{reason}\nso the program `{name}` is not up to date, and is not run")
    return TOP / MADE[name]
