#!/usr/bin/env python3
"""Tries planted bugs: each turns the meaning of one line of code, and the prover must refuse it.

    python3 tools/planted.py [--logs FOLDER] [NAME...]   try all bugs of tools/planted.txt, or those named
    python3 tools/planted.py --list                      only list them

The repository is copied into a temporary folder, and the crates are proved there once. Then, one at a time, each bug is
made in the copy, `rt check` checks its crate, and the file is put back. A line says what came of it:

    name  crate  refused  in src|specs|proofs: the first function that is not proved, and the place or need that fails

PASSED instead says that the contracts let the bug by. BAD says that the bug is none: its text does not stand once in
the file, it does not compile, or the proofs stopped fitting because a name vanished and not because a fact failed. The
exit status is 0 only where every bug is refused. With --logs each check's output is kept in FOLDER/NAME.log.
"""
import pathlib
import re
import shutil
import signal
import subprocess
import sys
import tempfile

ROOT = pathlib.Path(__file__).resolve().parent.parent
CRATES = ["kinds", "sharing", "book", "reading", "forms", "tally"]
FIELDS = ["bug", "crate", "file", "old", "new"]

UNPROVED = re.compile(r"^(?:fn|impl|trait|struct|enum|const) (\S+): (?!proved)(?!.*it (?:calls|waits))", re.M)
LANGUAGE = re.compile(r"^\S+\.rt:\d+:\d+: error\[.*", re.M)
FAILURE = re.compile(
    r"^(?:note: )?(?:\S*?/)?((src|specs|proofs)/\S+:\d+:\d+): (?:error: |(?=it is not proved))(.*(?:\n  .*)*)", re.M
)
VANISHED = re.compile(r"has no (?:field|\S+ that can be named)")


def planted():
    text = (ROOT / "tools/planted.txt").read_text()
    bugs = []
    for block in text.strip("\n").split("\n\n"):
        lines = [line.split(": ", 1) for line in block.split("\n")]
        if [line[0] for line in lines] != FIELDS:
            sys.exit("planted.txt: not a bug:\n" + block)
        bugs.append({name: value for name, value in lines})
    return bugs


def proof(copy, crate):
    folder = copy / "crates" / crate
    return subprocess.run(["rt", "check"], cwd=folder, stdout=subprocess.PIPE, stderr=subprocess.STDOUT, text=True)


def verdict(status, output):
    """What a check's exit status and output say of the bug."""
    error = LANGUAGE.search(output)
    if error:
        return "BAD", "does not compile: " + error[0].split(": ", 1)[1]
    if status == 0:
        return "PASSED", ""
    function, failure = UNPROVED.search(output), FAILURE.search(output)
    if status != 1 or not function or not failure:
        return "BAD", "the check ended with %d and names no failure" % status
    place, folder, message = failure.groups()
    word = "BAD" if VANISHED.search(message) else "refused"
    return word, "in %s: %s, %s: %s" % (folder, function[1], place, message.split("\n")[0][:120])


def attempt(copy, bug, logs):
    path = copy / "crates" / bug["crate"] / bug["file"]
    text = path.read_text()
    if text.count(bug["old"]) != 1:
        return "BAD", "its text stands %d times in the file" % text.count(bug["old"])
    path.write_text(text.replace(bug["old"], bug["new"]))
    check = proof(copy, bug["crate"])
    path.write_text(text)
    if logs:
        pathlib.Path(logs, bug["bug"] + ".log").write_text(check.stdout)
    return verdict(check.returncode, check.stdout)


def main(names):
    bugs, logs = planted(), None
    if names == ["--list"]:
        for bug in bugs:
            print(bug["bug"], bug["crate"], bug["file"])
        return 0
    if names[:1] == ["--logs"]:
        logs, names = names[1], names[2:]
        pathlib.Path(logs).mkdir(parents=True, exist_ok=True)
    unknown = set(names) - {bug["bug"] for bug in bugs}
    if unknown:
        sys.exit("no such bug: " + " ".join(sorted(unknown)))
    bugs = [bug for bug in bugs if not names or bug["bug"] in names]
    refused = 0
    with tempfile.TemporaryDirectory() as folder:
        copy = pathlib.Path(folder, "copy")
        shutil.copytree(ROOT, copy, symlinks=True, ignore=shutil.ignore_patterns(".git", "out"))
        for crate in CRATES:
            proved = proof(copy, crate)
            if proved.returncode != 0:
                sys.exit("the crates are not proved as they stand:\n" + proved.stdout)
        for bug in bugs:
            word, why = attempt(copy, bug, logs)
            refused += word == "refused"
            print(bug["bug"], bug["crate"], word, why, flush=True)
    print("%d planted, %d refused" % (len(bugs), refused))
    return 0 if refused == len(bugs) else 1


if __name__ == "__main__":
    # the copy is removed when the run is ended from outside, too
    signal.signal(signal.SIGTERM, lambda *_: sys.exit(143))
    sys.exit(main(sys.argv[1:]))
