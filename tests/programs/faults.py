#!/usr/bin/env python3
"""faults: what rescue and thin leave of OUT when something fails, and what replay and sheet say. tests/programs/run builds what it needs, and calls it.

usage: faults.py FOLDER     with the programs in FOLDER/bin, the same with calls of the system that fail (faults.c) in FOLDER/faulty, cut traces in
                            FOLDER/cut and traces with equal records in FOLDER/equal
"""
import errno
import os
import random
import resource
import signal
import stat
import subprocess
import sys
import threading
import time
from pathlib import Path

WORK = Path(sys.argv[1])
ROOT = Path(__file__).resolve().parent.parent.parent
NOBODY = 65534
KILLS = 150
tries = 0


def fail(text):
    sys.exit(f"programs: FAILED: {text}")


class Job:
    """A program with its words: IN, the word behind OUT if there is one, and what it writes."""

    def __init__(self, program, given, *word):
        self.program = WORK / "bin" / program
        self.given = WORK / given
        self.word = word
        self.new = self.given.with_suffix(".out").read_bytes()
        self.text = self.given.with_suffix(".text").read_bytes()

    def __str__(self):
        return f"{self.program.name} {self.given.name}"

    def run(self, out, given=None, before=None, word=None):
        """What it prints and says. `before` is called in the new process."""
        global tries
        tries += 1
        words = [self.program, given or self.given, out, *(self.word if word is None else word)]
        return subprocess.run(words, capture_output=True, check=False, preexec_fn=before)

    def faulty(self, fault, out, given=None, short=None):
        """The same with a fault: a call of the system, which of its calls fails, and the error."""
        return faulty(self.program.name, fault, [given or self.given, out, *self.word], short)


def faulty(program, fault, words, short=None):
    global tries
    tries += 1
    environment = {"FAULT": " ".join(map(str, fault))} if fault else {}
    if short:
        environment["SHORT"] = str(short)
    return subprocess.run([WORK / "faulty" / program, *words], capture_output=True, check=False, env=environment)


def one_line(what, run, *words):
    """It printed nothing, and said one line with these words in it."""
    said = run.stderr.decode()
    if run.stdout or said.count("\n") != 1 or not said.endswith("\n") or not all(word in said for word in words):
        fail(f"{what}: printed {run.stdout!r} and said {said!r}")


def alone(what, folder, *names):
    """The folder holds these files and no other."""
    there = sorted(path.name for path in folder.iterdir())
    if there != sorted(names):
        fail(f"{what}: the folder holds {there}")


def as_it_was(what, path, old):
    if (path.read_bytes() if path.exists() else None) != old:
        fail(f"{what}: OUT is not as it was")


def small_files():
    """No file may grow above 64 bytes, and a write above that fails."""
    signal.signal(signal.SIGXFSZ, signal.SIG_IGN)
    resource.setrlimit(resource.RLIMIT_FSIZE, (64, 64))


def deadly_small_files():
    """.. or ends the program."""
    resource.setrlimit(resource.RLIMIT_CORE, (0, 0))
    resource.setrlimit(resource.RLIMIT_FSIZE, (64, 64))


def somebody_else():
    os.setgroups([])
    os.setgid(NOBODY)
    os.setuid(NOBODY)


def fresh(name):
    folder = WORK / name
    folder.mkdir()
    return folder


JOBS = [Job("rescue", "cut/cut-400.in", "3"), Job("thin", "equal/drawn-40.in")]
OLD = b"the file that was there before"

# ---- where nothing fails, each program prints what its crate has in the file stdout, and rescue and thin write the same as the second reading
for program in "rescue", "thin", "replay", "sheet":
    crate = ROOT / "crates" / program
    folder = fresh(f"example-{program}")
    for path in (crate / "data").iterdir():
        (folder / path.name).write_bytes(path.read_bytes())
    tries += 1
    run = subprocess.run([WORK / "bin" / program, *(crate / "args").read_text().split()], cwd=folder, capture_output=True, check=False)
    if run.stdout != (crate / "stdout").read_bytes() or run.stderr:
        fail(f"{program} on its example: printed {run.stdout!r}, said {run.stderr!r}")

# ---- a file that is refused leaves OUT alone, and is said on standard output
for program, given in ("rescue", "cut/too-large.in"), ("thin", "cut/too-large.in"), ("thin", "cut/cut-400.in"):
    folder = fresh(f"refused-{program}-{Path(given).stem}")
    out = folder / "out"
    for old in OLD, None:
        out.unlink(missing_ok=True)
        if old is not None:
            out.write_bytes(old)
        tries += 1
        run = subprocess.run([WORK / "bin" / program, WORK / given, out], capture_output=True, check=False)
        if not run.stdout.startswith(b"refused ") or run.stderr:
            fail(f"{program} {given}: printed {run.stdout!r}, said {run.stderr!r}")
        as_it_was(f"{program} {given}", out, old)
        alone(f"{program} {given}", folder, *(["out"] if old is not None else []))

# ---- no space: OUT there, not there, and the same file as IN
for job in JOBS:
    folder = fresh(f"space-{job.program.name}")
    out = folder / "out"
    for old in None, OLD, job.given.read_bytes():
        if old is not None:
            out.write_bytes(old)
        given = out if old == job.given.read_bytes() else None
        what = f"{job} without space"
        one_line(what, job.run(out, given, small_files), str(out), "File too large")
        as_it_was(what, out, old)
        alone(what, folder, *(["out"] if old is not None else []))
        run = job.run(out, given, deadly_small_files)
        if run.returncode != -signal.SIGXFSZ:
            fail(f"{what}: it was not ended, but answered {run.returncode}")
        as_it_was(what, out, old)
        for left in folder.glob("out.??????"):
            left.unlink()
    # a device that is full is written as it is, and keeps its name
    one_line(f"{job} on a full device", job.run("/dev/full"), "/dev/full", "No space left on device")
    if not stat.S_ISCHR(os.stat("/dev/full").st_mode) or list(Path("/dev").glob("full.*")):
        fail(f"{job}: /dev/full is a device no more")

# ---- killed while it runs, at any time
for job in JOBS:
    folder = fresh(f"kill-{job.program.name}")
    out = folder / "out"
    out.write_bytes(OLD)
    began = time.monotonic()
    job.run(out)
    took = time.monotonic() - began
    ended = {OLD: 0, job.new: 0}
    for _ in range(KILLS):
        tries += 1
        out.write_bytes(OLD)
        process = subprocess.Popen([job.program, job.given, out, *job.word], stdout=subprocess.DEVNULL)
        time.sleep(random.uniform(0, 2 * took))
        process.kill()
        process.wait()
        now = out.read_bytes()
        if now not in ended:
            fail(f"{job}, killed: OUT has {len(now)} bytes, and is neither the old file nor the new one")
        ended[now] += 1
        for left in folder.glob("out.??????"):
            left.unlink()
        alone(f"{job}, killed", folder, "out")
    print(f"programs: {job}, killed {KILLS} times: OUT was {ended[OLD]} times the old file and {ended[job.new]} times the new one")

# ---- a read that fails, and files and folders that may not be written
for job in JOBS:
    folder = fresh(f"may-{job.program.name}")
    out = folder / "out"
    out.write_bytes(OLD)
    one_line(f"{job} of a folder", job.run(out, folder), str(folder), "Is a directory")
    one_line(f"{job} of a file that is missing", job.run(out, folder / "missing"), "missing: No such file or directory")
    as_it_was(f"{job} of what cannot be read", out, OLD)
    one_line(f"{job} into a folder", job.run(folder), str(folder), "Is a directory")
    one_line(f"{job} into a folder that is missing", job.run(folder / "missing" / "out"), "No such file or directory")
    out.chmod(0o666)
    before = somebody_else if os.getuid() == 0 else None
    folder.chmod(0o555)
    reason = "no new file can be made in its folder: Permission denied"
    one_line(f"{job} into a folder that may not be written", job.run(out, before=before), f"{out}: {reason}")
    one_line(f"{job} of a new file there", job.run(folder / "new", before=before), f"new: {reason}")
    folder.chmod(0o777)
    out.chmod(0o444)
    one_line(f"{job} into a file that may not be written", job.run(out, before=before), str(out), "Permission denied")
    as_it_was(f"{job} where it may not write", out, OLD)
    folder.chmod(0o755)
    out.chmod(0o644)
    alone(f"{job} where it may not write", folder, "out")
    # a link would be lost; the file beside OUT has seven bytes more in its name, and a name has 255 at most
    link = folder / "link"
    link.symlink_to("out")
    one_line(f"{job} into a link", job.run(link), "link: is a link: name the file that it leads to")
    for length, taken in (248, True), (249, False):
        long = folder / ("x" * length)
        for old in None, OLD:
            if old is not None:
                long.write_bytes(old)
            what = f"{job} into a name of {length} bytes"
            run = job.run(long)
            if not taken:
                one_line(what, run, "File name too long")
                as_it_was(what, long, old)
            elif run.stdout != job.text or run.stderr or long.read_bytes() != job.new:
                fail(f"{what}: printed {run.stdout!r}, said {run.stderr!r}")
            long.unlink(missing_ok=True)
    as_it_was(f"{job} into a link", out, OLD)
    alone(f"{job} into a link", folder, "link", "out")

# ---- a read that fails once, at every place, and then goes well: nothing is taken for the file's end. Reads that bring little are no fault
def reads(path, short):
    return 2 if short is None else -(-path.stat().st_size // short) + 1


for job in JOBS:
    folder = fresh(f"read-{job.program.name}")
    out = folder / "out"
    for short in None, 61:
        out.write_bytes(OLD)
        run = job.faulty(None, out, short=short)
        if run.stdout != job.text or run.stderr or out.read_bytes() != job.new:
            fail(f"{job} by short reads: printed {run.stdout!r}, said {run.stderr!r}")
        for same in False, True:
            old = job.given.read_bytes() if same else OLD
            for which in range(1, reads(job.given, short) + 1):
                out.write_bytes(old)
                what = f"{job}, read {which} failed"
                given = out if same else job.given
                one_line(what, job.faulty(("read", which, errno.EIO), out, given, short), f"{given}: Input/output error")
                as_it_was(what, out, old)
                alone(what, folder, "out")
for program, files in ("replay", [JOBS[1].given]), ("sheet", [JOBS[1].given, JOBS[0].given]):
    text = faulty(program, None, files).stdout
    for short in None, 61:
        first = reads(files[0], short)
        if not text or faulty(program, None, files, short).stdout != text:
            fail(f"{program} by short reads")
        for which in range(1, sum(reads(path, short) for path in files) + 1):
            run = faulty(program, ("read", which, errno.EIO), files, short)
            one_line(f"{program}, read {which} failed", run, f"{files[0 if which <= first else 1]}: Input/output error")

# ---- what the new file's writing can fail at: OUT is as it was. No fault has the old file written to
for job in JOBS:
    folder = fresh(f"write-{job.program.name}")
    out = folder / "out"
    for fault in (("write", 1, errno.ENOSPC), ("fsync", 0, errno.EIO), ("fsync", 0, errno.EINVAL), ("fchmod", 1, errno.EPERM), ("rename", 1, errno.EXDEV)):
        for old in OLD, None:
            out.unlink(missing_ok=True)
            if old is not None:
                out.write_bytes(old)
            elif fault[0] == "fchmod":
                continue
            what = f"{job}, {fault[0]} failed with {errno.errorcode[fault[2]]}"
            one_line(what, job.faulty(fault, out), f"{out}: {os.strerror(fault[2])}")
            as_it_was(what, out, old)
            alone(what, folder, *(["out"] if old is not None else []))

# ---- the old file's mode is kept, whatever the umask; a second name of the old file keeps the old bytes
for job in JOBS:
    folder = fresh(f"mode-{job.program.name}")
    out = folder / "out"
    modes = [0o600, 0o640, 0o644, 0o660, 0o666, 0o755] + ([0o444, 0o400, 0o000] if os.getuid() == 0 else [])
    for mode in modes:
        for mask in 0o022, 0o077:
            out.unlink(missing_ok=True)
            out.write_bytes(OLD)
            out.chmod(mode)
            run = job.run(out, before=lambda mask=mask: os.umask(mask))
            now = stat.S_IMODE(out.stat().st_mode)
            if run.stderr or run.stdout != job.text or now != mode:
                fail(f"{job} of a file of mode {mode:o}, umask {mask:o}: its mode is {now:o}, said {run.stderr!r}")
            out.chmod(0o600)
            if out.read_bytes() != job.new:
                fail(f"{job} of a file of mode {mode:o}: another trace was written")
    out.write_bytes(OLD)
    second = folder / "second"
    os.link(out, second)
    job.run(out)
    if out.read_bytes() != job.new or second.read_bytes() != OLD:
        fail(f"{job} of a file with two names")
    if os.getuid() == 0:
        out.write_bytes(OLD)
        out.chmod(0o600)
        for path in folder, out:
            os.chown(path, NOBODY, NOBODY)
        run = job.run(out, before=somebody_else)
        if run.stderr or stat.S_IMODE(out.stat().st_mode) != 0o600 or out.stat().st_uid != NOBODY:
            fail(f"{job} of another user's file: {run.stderr!r}")

# ---- where nothing fails: the new file, with the mode of any new file; a file that would come out the same is not written; a pipe gets the bytes
for job in JOBS:
    folder = fresh(f"done-{job.program.name}")
    out = folder / "out"
    run = job.run(out, before=lambda: os.umask(0o027))
    if run.stdout != job.text or run.stderr or out.read_bytes() != job.new or stat.S_IMODE(out.stat().st_mode) != 0o640:
        fail(f"{job}: printed {run.stdout!r}, said {run.stderr!r}, mode {out.stat().st_mode:o}")
    out.write_bytes(job.given.read_bytes())
    run = job.run(out, out)
    if run.stdout != job.text or run.stderr or out.read_bytes() != job.new:
        fail(f"{job} into itself: printed {run.stdout!r}, said {run.stderr!r}")
    first = out.stat()
    run = job.run(out, out, word=[])
    last = out.stat()
    if run.stderr or b"dropped 0" not in run.stdout or (first.st_ino, first.st_mtime_ns) != (last.st_ino, last.st_mtime_ns):
        fail(f"{job} of a file that comes out the same: printed {run.stdout!r}, said {run.stderr!r}, or it was written")
    # .. not even the largest
    if job.program.name == "rescue":
        full = Job("rescue", "cut/full.in", "3")
        full.run(out)
        first = out.stat()
        if out.read_bytes() != full.new or len(full.new) <= 65536:
            fail("rescue of as many records as fit")
        full.run(out)
        if (first.st_ino, first.st_mtime_ns) != (out.stat().st_ino, out.stat().st_mtime_ns):
            fail("rescue wrote a large file that it would leave the same")
    pipe = folder / "pipe"
    os.mkfifo(pipe)
    got = []
    reader = threading.Thread(target=lambda: got.append(pipe.read_bytes()), daemon=True)
    reader.start()
    run = job.run(pipe)
    reader.join(timeout=10)
    if got != [job.new] or run.stdout != job.text or not pipe.is_fifo():
        fail(f"{job} into a pipe: {run.stderr!r}")
    alone(str(job), folder, "out", "pipe")

# ---- rescue keeps no edition to itself, and writes no empty trace over bytes
folder = fresh("editions")
out = folder / "f"
rescue = JOBS[0]
for name, word, words in (
    ("edition-1", [], ("IN does not tell its edition: name it; editions 1 and 2 would keep 2 records, 3 would keep 0",)),
    ("edition-1", ["3"], ("no record would be kept: OUT is left as it was",)),
    ("cut-400", [], ("IN does not tell its edition: name it; edition 3 would keep 2 records, 1 and 2 would keep 0",)),
    ("cut-400", ["2"], ("no record would be kept: OUT is left as it was",)),
    ("zeros", [], ("IN does not tell its edition: name it; edition 3 would keep 0 records, 1 and 2 would keep 0",)),
):
    old = (WORK / "cut" / f"{name}.in").read_bytes()
    out.write_bytes(old)
    one_line(f"rescue {name} into itself", rescue.run(out, out, word=word), *words)
    as_it_was(f"rescue {name} into itself", out, old)
    alone(f"rescue {name} into itself", folder, "f")
out.write_bytes((WORK / "cut/edition-1.in").read_bytes())
if rescue.run(out, out, word=["1"]).stdout.splitlines()[0] != b"kept 2" or out.read_bytes() != (WORK / "cut/edition-1.kept").read_bytes():
    fail("rescue of a cut file of edition 1 by its edition")

print(f"programs: {tries} runs of rescue, thin, replay and sheet, each with its fault or without one: nothing was lost")
