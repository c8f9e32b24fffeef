#!/usr/bin/env python3
"""Tries the comparison itself: does it see a changed Rust, does it refuse a wrong port?

    oracle/mutants.py            changes one operation at a time in copies of the Rust, repaired (mutants.txt), and asks whether the comparison's cases see it
    oracle/mutants.py --ports    changes the second port, standin.c, into wrong ones (wrong-ports.txt) and asks whether the comparison refuses them
    oracle/mutants.py --traces   changes the second port of the trace calls, traces.c, into wrong ones (wrong-traces.txt) and asks whether the programs of
                                 tests/traces refuse them; compiled for the machine at hand

A line of mutants.txt is a change: file | old | new; one of the two others is: what is wrong | old | new. A line end in old or new is written as a
pilcrow, the bars around a closure's arguments as slashes. Every changed copy of the Rust becomes an oracle beside the unchanged one in one program,
over the stand-in's kernels. All answer the calls that the comparison makes; a change is seen at the first call that it answers otherwise.

Writes one line for each change. Exit status 0: every one was seen or refused, those aside that stand below the line `# Rarely seen` of mutants.txt; 1: one
was not (some are met only in 100,000 calls); 2: bad usage, or a program could not be built.
"""
import argparse
import os
import re
import shutil
import subprocess
import sys
import tempfile

here = os.path.dirname(os.path.abspath(__file__))
root = os.path.dirname(here)


def stop(why):
    print(f"mutants: {why}", file=sys.stderr)
    sys.exit(2)


def changes(file="mutants.txt"):
    """Each change, and whether it has to be seen."""
    wanted = True
    for line in open(os.path.join(here, file), encoding="utf-8"):
        line = line.rstrip("\n")
        wanted = wanted and not line.startswith("# Rarely seen")
        if line and not line.startswith("#"):
            name, old, new = line.split(" | ")
            yield name, written(old), written(new), wanted


def repaired(work):
    """The Rust as the oracle includes it: the text that is changed, too."""
    text = os.path.join(work, "text")
    if subprocess.run([os.path.join(here, "repaired"), text]).returncode:
        stop("the text could not be repaired")
    return text


def build(text, port, program, **environment):
    """The comparison of a port with the Rust, as a program."""
    command = [os.path.join(here, "build.sh"), text, os.path.join(here, port), program]
    built = subprocess.run(command, env=dict(os.environ, **environment), capture_output=True, text=True)
    if built.returncode:
        stop("the comparison could not be built:\n" + built.stderr[-4000:])


def wrong_ports(text, work, calls, only):
    """The comparison must stop at each changed stand-in. Hands back how many it did not refuse."""
    listed = [change for change in changes("wrong-ports.txt") if only in change[0]]
    if not listed:
        stop(f"no wrong port has '{only}' in its name")
    program = os.path.join(work, "compare")
    build(text, "standin.c", program)
    whole = open(os.path.join(here, "standin.c"), encoding="utf-8").read()
    parts = [os.path.join(program + ".parts", name) for name in ("oracle.c", "oracle.o")]
    native, changed = os.path.join(root, "tools/native"), os.path.join(work, "standin.c")
    unseen = 0
    for name, old, new, _ in listed:
        if whole.count(old) != 1:
            stop(f"this stands {whole.count(old)} times in standin.c: {old}")
        with open(changed, "w", encoding="utf-8") as out:
            out.write(whole.replace(old, new))
        folders = ["-I" + os.path.join(root, "include"), "-I" + here]
        made = subprocess.run([native, "cc", program, *folders, "-w", os.path.join(here, "port.c"), *parts, changed, "-lm"])
        if made.returncode:
            stop(f"the wrong port could not be built: {name}")
        ran = subprocess.run([native, "run", program, "--calls", str(calls)], capture_output=True, text=True)
        at = re.search(r"DIFFERENT at ((?:call|row|plan) \d+)(?:\ncall \w+(, in place)?)?", ran.stdout)
        # where no place differs, the call that is shown is not the one that was refused
        if "  0 places differ" in ran.stdout:
            at = None
        unseen += not at
        print(f"refused at {at[1]}{at[2] or ''}: {name}" if at else f"NOT REFUSED: {name}", flush=True)
    print(f"{len(listed)} wrong ports, {len(listed) - unseen} refused, {unseen} not, at most {calls} calls")
    return unseen


def wrong_traces(work, only):
    """The tests of traces must fail over each changed traces.c. Hands back how many they did not refuse."""
    listed = [change for change in changes("wrong-traces.txt") if only in change[0]]
    if not listed:
        stop(f"no wrong port of traces has '{only}' in its name")
    tests = os.path.join(root, "tests/traces")
    programs = ("traces", "replay", "rescue", "thin", "sheet")
    told = {}

    def run(*command):
        return subprocess.run(command, capture_output=True, timeout=600)

    def expected(what):
        """A file for the program traces, and what layout.py says that it must print of it; the byte strings only where nothing else has refused."""
        if what not in told:
            told[what] = run("python3", os.path.join(tests, "layout.py"), what, os.path.join(work, what)).stdout
        return told[what]

    def rows_of_files():
        """The rows of files of the sheet's test, each with the text that sheet.py says."""
        if "sheet" not in told:
            folder = os.path.join(work, "rows-of-files")
            run("python3", os.path.join(tests, "sheet.py"), "cases", folder)
            told["sheet"] = []
            for name in sorted(os.listdir(folder)):
                if not name.endswith(".text"):
                    one = os.path.join(folder, name)
                    with open(one + ".text", "rb") as text:
                        told["sheet"].append((name, [os.path.join(one, file) for file in sorted(os.listdir(one))], text.read()))
        return told["sheet"]

    def refused():
        for program in programs:
            if run(os.path.join(work, program), "calls").returncode:
                return f"{program} calls"
        for name, files, text in rows_of_files():
            if run(os.path.join(work, "sheet"), "text", *files).stdout != text:
                return f"sheet {name}"
        for what, job in (("rows", "play"), ("puts", "puts"), ("strings", "judge")):
            wanted = expected(what)
            if run(os.path.join(work, "traces"), job, os.path.join(work, what)).stdout != wanted:
                return what
        return None

    whole = open(os.path.join(here, "traces.c"), encoding="utf-8").read()
    changed = os.path.join(work, "traces.c")
    unseen = 0
    for name, old, new, _ in [("", "", "", True), *listed]:
        if old and whole.count(old) != 1:
            stop(f"this stands {whole.count(old)} times in traces.c: {old}")
        with open(changed, "w", encoding="utf-8") as out:
            out.write(whole.replace(old, new) if old else whole)
        for program in programs:
            command = ["cc", "-O2", "-ffp-contract=off", "-w", "-I" + os.path.join(root, "include"), "-o", os.path.join(work, program)]
            if run(*command, os.path.join(tests, program + ".c"), changed, os.path.join(here, "standin.c"), "-lm").returncode:
                stop(f"the wrong port could not be built: {name}")
        by = refused()
        if not name:
            if by:
                stop(f"traces.c itself is refused, by {by}")
            continue
        unseen += not by
        print(f"refused by {by}: {name}" if by else f"NOT REFUSED: {name}", flush=True)
    print(f"{len(listed)} wrong ports of traces, {len(listed) - unseen} refused, {unseen} not")
    return unseen


def written(words):
    return re.sub(r"([(,] ?)/([^/]*)/ ", r"\1|\2| ", words).replace("¶", "\n")


def harness(text, work, only, part):
    """A copy of src/ in which mutants.rs has an oracle for each change; the changes' names, and those that have to be seen."""
    source = os.path.join(work, "src")
    shutil.copytree(os.path.join(here, "src"), source)
    cones = open(os.path.join(source, "cones.rs"), encoding="utf-8").read()
    # the items of cones.rs; a change to one cone's file needs that cone and the choice by kind anew, and takes the rest from the unchanged oracle
    items = re.split(r"\n\n(?=\S)", cones)
    names, modules, arms, due = [], [], [], set()
    which, of = (int(n) for n in part.split("/"))
    for place, (file, old, new, wanted) in enumerate(changes()):
        shown = " ".join(f"{file}: {old}  ->  {new}".split())
        if only not in shown or place % of != which - 1:
            continue
        whole = open(os.path.join(text, file), encoding="utf-8").read()
        if whole.count(old) != 1:
            stop(f"this does not stand once in its file: {shown}")
        k = len(names)
        copy = os.path.join(work, f"rust{k}")
        shutil.copytree(text, copy)
        with open(os.path.join(copy, file), "w", encoding="utf-8") as out:
            out.write(whole.replace(old, new))
        changed = cones
        if file != "nonsymmetric_common.rs":
            own = file[: -len(".rs")]
            others = [name for name in ("expcone", "powcone", "genpowcone") if name != own]
            kept = [item for item in items if re.search(rf"^pub\(crate\) mod {own} |enum Oracle|^impl Oracle|^use crate::|^#!", item, re.M)]
            shared = ", ".join(["itertools", "nonsymmetric_common", "Cone", "PrimalOrDualCone", *others])
            kept.insert(2, f"pub(crate) use crate::cones::{{{shared}}};")
            changed = "\n\n".join(kept)
        with open(os.path.join(source, f"cones{k}.rs"), "w", encoding="utf-8") as out:
            out.write(changed.replace('env!("SPINDLE_RUST")', f'"{copy}"'))
        names.append(shown)
        due.update([shown] if wanted else [])
        modules.append(f'mod m{k} {{\n    #[path = "{source}/cones{k}.rs"]\n    pub mod cones;\n    #[path = "{source}/expected.rs"]\n    pub mod expected;\n}}\n')
        arms.append(f"        {k} => m{k}::expected::expected(call),\n")
    with open(os.path.join(source, "mutants.rs"), "w", encoding="utf-8") as out:
        quoted = ",\n".join("    r#\"" + name + "\"#" for name in names)
        out.write("#![allow(dead_code)]\nuse crate::types::{Answer, Call};\n")
        out.write(f"pub const NAMES: [&str; {len(names)}] = [\n{quoted}\n];\n" + "".join(modules))
        out.write("pub fn answer(k: usize, call: &Call) -> Answer {\n    match k {\n" + "".join(arms) + "        _ => crate::expected::expected(call),\n    }\n}\n")
    if not names:
        stop(f"no change has '{only}' in its line, in part {part}")
    return source, names, due


def main():
    words = argparse.ArgumentParser(description=__doc__, formatter_class=argparse.RawDescriptionHelpFormatter, usage=argparse.SUPPRESS)
    words.add_argument("--ports", action="store_true", help="wrong ports in the place of changed Rust")
    words.add_argument("--traces", action="store_true", help="wrong ports of the trace calls in the place of changed Rust")
    words.add_argument("--only", default="", metavar="WORD", help="only changes with this in their line (a wrong port: in its name)")
    words.add_argument("--calls", type=int, default=1000000, metavar="N", help="at most so many calls (a million)")
    words.add_argument("--list", action="store_true", help="changed Rust: the calls of the fixed list in the place of random ones")
    words.add_argument("--part", default="1/1", metavar="I/N", help="changed Rust, as 2/9: every ninth change, from the second on")
    words.add_argument("--seed", default="1", metavar="S", help="changed Rust: other calls")
    words.add_argument("--entry", default="", metavar="NAME", help="changed Rust: calls of one entry alone")
    words = words.parse_args()
    if not re.fullmatch(r"[1-9]\d*/[1-9]\d*", words.part):
        stop(f"--part is I/N, as 2/9: {words.part}")
    if words.traces:
        with tempfile.TemporaryDirectory() as work:
            sys.exit(1 if wrong_traces(work, words.only) else 0)
    if shutil.which("rustc") is None:
        stop("rustc is not on the PATH; install Rust first")
    with tempfile.TemporaryDirectory() as work:
        text = repaired(work)
        if words.ports:
            sys.exit(1 if wrong_ports(text, work, words.calls, words.only) else 0)
        source, names, due = harness(text, work, words.only, words.part)
        program = os.path.join(work, "compare")
        build(text, "standin.c", program, SPINDLE_OPT="1", SPINDLE_HARNESS=source)
        command = [os.path.join(root, "tools/native"), "run", program, "--mutants", "0" if words.list else str(words.calls), "--seed", words.seed]
        ran = subprocess.run(command + (["--entry", words.entry] if words.entry else []), capture_output=True, text=True)
        print(ran.stdout, end="")
        if ran.returncode:
            stop(f"the comparison ended with status {ran.returncode}: {ran.stderr[-1000:]}")
        unseen = re.findall(r"^NOT SEEN: (.*)$", ran.stdout, re.M)
        missed = [name for name in unseen if name in due]
        calls = "the fixed list" if words.list else f"at most {words.calls} calls"
        print(f"{len(names)} changes, {len(names) - len(unseen)} seen, {len(unseen)} not seen ({len(missed)} of them should be), {calls}")
        sys.exit(1 if missed else 0)


if __name__ == "__main__":
    main()
