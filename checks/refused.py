"""refused.py [CRATE ..], which refused.sh calls: each wrong program of the must-fail edits by itself, at its own fact.

On a copy of the crates each program is an edit of its own, which `rt must-fail` tries: it begins with what checks kept here, and
takes what an earlier run tried of the same files. It shows the first words of the first error alone. Where these do not name the
fact, `rt check` of the crate with that program in place of the right one says whether it is among what does not hold.
"""

import os
import re
import shutil
import signal
import subprocess
import sys
import tempfile
import threading
from concurrent.futures import ThreadPoolExecutor

PARTS = ("src", "specs", "proofs")
# What says of a proof that it is not of the form asked for: a name or a field that is not there, another number of arguments or
# clauses, what does not parse.
FORM = re.compile(
    r"has no field|has no `|is not a field of|that can be named from here|is not in scope|is no name|is not a record|is not a constructor"
    r"|needs a homogeneous path|a dimension .*is expected|is applied to an argument but|is not a function|was not determined|was not admitted"
    r"|operand is missing|expected the end|cannot continue"
)
IN_PROOFS = re.compile(r"(?:\./)?proofs/(.+?)(?:/(?:Answers|Invariants|Proof))?\.antt:\d+:\d+: error: `([^`]+)`: (.*)")
IN_SOURCE = re.compile(r"note: src/(\w+)\.rt:(\d+):(\d+): it is not proved that .*\(`([^`]+)`\)")
NO_PROOF = re.compile(r"fn (\S+): no proof: .* did not prove (`[^`]+`(?:, `[^`]+`)*)")
UNREAD = re.compile(r"(?:\./)?(?:src|specs)/\S+:\d+:\d+: error|error\[")


class Program:
    def __init__(self, crate, edit, name):
        self.crate, self.edit, self.name, self.lines, self.proof, self.fact = crate, edit, name, [], None, None
        self.file = f"{os.path.basename(edit)[: -len('.edit')]}.{name}.edit"

    def edited(self, folder):
        """The texts of the files that it changes, as rt changes them."""
        texts, path, old = {}, None, None
        for line in self.lines:
            if line.startswith("file: "):
                path = line[len("file: ") :].strip()
            elif line.startswith("old: "):
                old = line[len("old: ") :]
            elif line.startswith("new:"):
                texts.setdefault(path, read(f"{folder}/{path}"))
                texts[path] = texts[path].replace(old, re.sub(r"\A ", "", line[len("new:") :]))
        return texts

    def is_of_lemma(self):
        return self.proof.split("/")[-1][:1].isupper()

    def __str__(self):
        return f"{self.edit}: {self.name}"


def read(file):
    with open(file, encoding="utf-8") as it:
        return it.read()


def write(file, text):
    with open(file, "w", encoding="utf-8") as it:
        it.write(text)


def programs_of(crate, edit):
    """The programs of an edit: one `refuses:` behind each `program:`, and none before the first."""
    found = []
    for line in read(edit).split("\n"):
        if line.startswith("program: "):
            found.append(Program(crate, edit, line[len("program: ") :].strip()))
        elif line.startswith("refuses: ") and found and not found[-1].proof:
            found[-1].proof, found[-1].fact = line.split()[1:]
        elif line.startswith(("refuses: ", "file: ", "old: ", "new:")) and not (found and found[-1].proof):
            return None
        elif found:
            found[-1].lines.append(line)
    names = {it.name for it in found}
    return found if found and all(it.proof for it in found) and len(names) == len(found) else None


def function_at(text, line, column):
    """The function that begins at this place, or in which it lies."""
    lines = [re.sub(r"//.*", "", it) for it in text.split("\n")]
    before = "\n".join([*lines[: line - 1], lines[line - 1][: column - 1]])
    here = "\n".join([lines[line - 1][column - 1 :], *lines[line:]])
    begun = re.match(r"\s*(?:#\[[^\n]*\]\s*)*(?:pub(?:\(\w+\))? )?(?:extern \"C\" )?fn (\w+)", here)
    found = [begun[1]] if begun else re.findall(r"\bfn (\w+)", before)
    return found[-1] if found else ""


def told(line, folder, texts):
    """The proof and the fact that a line says not to hold, or None. What stands in the folder is changed to these texts."""
    found = IN_PROOFS.match(line)
    if found:
        return None if FORM.search(found[3]) else (found[1], found[2])
    found = IN_SOURCE.match(line)
    if not found:
        return None
    text = texts.get(f"src/{found[1]}.rt") or read(f"{folder}/src/{found[1]}.rt")
    module = "" if found[1] in ("lib", "main") else f"{found[1]}/"
    return module + function_at(text, int(found[2]), int(found[3])), found[4]


def told_in_all(said, folder, texts):
    """The proofs and facts of which a whole check says that they do not hold, or None where it cannot read the program."""
    found = set()
    for line in said.split("\n"):
        if UNREAD.match(line):
            return None
        found |= {told(line, folder, texts)} - {None}
        missing = NO_PROOF.match(line)
        if missing:
            proof = missing[1].split("::", 1)[1].replace("::", "/")
            found |= {(proof, fact) for fact in re.findall(r"`([^`]+)`", missing[2])}
    return found


def copied(tree):
    for file in ("crates.txt", "HANDLES"):
        if os.path.isfile(file):
            shutil.copy(file, f"{tree}/{file}")
    for crate in os.listdir("crates"):
        for part in PARTS:
            if os.path.isdir(f"crates/{crate}/{part}"):
                shutil.copytree(f"crates/{crate}/{part}", f"{tree}/crates/{crate}/{part}")


def called(folder, *words, seconds=None):
    how = {"cwd": folder, "stdin": subprocess.DEVNULL, "stdout": subprocess.PIPE, "stderr": subprocess.STDOUT}
    ran = subprocess.run(["rt", *words], **how, encoding="utf-8", errors="replace", timeout=seconds)
    return ran.stdout


def lanes():
    """How many checks run side by side: one a processor, as far as memory goes."""
    free = re.search(r"MemAvailable:\s+(\d+)", read("/proc/meminfo"))
    return max(1, min(len(os.sched_getaffinity(0)), int(free[1]) // 4_000_000))


class Lanes:
    """Whole checks of single programs, each lane's in a tree of its own."""

    def __init__(self, room):
        self.room, self.own, self.number, self.counting = room, threading.local(), 0, threading.Lock()

    def tree(self):
        if not hasattr(self.own, "tree"):
            with self.counting:
                self.number += 1
                self.own.tree = f"{self.room}/lane{self.number}"
            os.makedirs(self.own.tree)
            copied(self.own.tree)
        return self.own.tree

    def why_not(self, program):
        """What is wrong with a program that the prover refused, or None where its own fact is among what does not hold."""
        folder = f"{self.tree()}/crates/{program.crate}"
        texts = program.edited(folder)
        were = {path: read(f"{folder}/{path}") for path in texts}
        only = [] if program.is_of_lemma() else ["--only", "::".join([program.crate, *program.proof.split("/")])]
        try:
            for path, text in texts.items():
                write(f"{folder}/{path}", text)
            said = called(folder, "check", "--jobs", "1", *only, seconds=1800)
        except subprocess.TimeoutExpired:
            return "its check had not ended after half an hour"
        finally:
            for path, text in were.items():
                write(f"{folder}/{path}", text)
        found = told_in_all(said, folder, texts)
        if found is None:
            return "what it writes cannot be read"
        if (program.proof, program.fact) in found:
            return None
        others = ", ".join(f"{proof} {fact}" for proof, fact in sorted(found)) or "no fact"
        return f"{program.proof} {program.fact} is not said to be false, but {others}"


def main(names):
    every = [it for it in sorted(os.listdir("crates")) if not names or it in names]
    programs, edits, bad = [], 0, []
    for crate in every:
        folder = f"crates/{crate}/must-fail"
        for file in sorted(os.listdir(folder)) if os.path.isdir(folder) else []:
            if file.endswith(".edit"):
                edits += 1
                found = programs_of(crate, f"{folder}/{file}")
                programs += found or []
                bad += [] if found else [f"{folder}/{file} does not say of each program, once, what refuses it"]
    with tempfile.TemporaryDirectory(prefix="refused-") as room:
        tree = f"{room}/tree"
        os.mkdir(tree)
        copied(tree)
        for it in programs:
            os.makedirs(f"{tree}/crates/{it.crate}/must-fail", exist_ok=True)
            write(f"{tree}/crates/{it.crate}/must-fail/{it.file}", "\n".join(it.lines))
        said = called(tree, "must-fail", *names)
        for crate in re.findall(r"(?m)^rt: (\w+): the check that its must-fail edits begin with did not end well", said):
            bad.append(f"{crate} is not proved as it stands: run rt ci first")
        lines = dict(re.findall(r"(?m)^rt: must-fail (\S+\.edit): (.*)$", said))
        unclear = []
        for it in programs:
            line = lines.get(f"{it.crate}/{it.file}")
            refused = re.match(r"refused, as it must be(?:: | \(only |$)(.*)", line or "")
            if not refused:
                bad.append(f"{it}: {line or 'rt must-fail says nothing of it'}")
            else:
                folder = f"{tree}/crates/{it.crate}"
                unclear += [it] if told(refused[1], folder, it.edited(folder)) != (it.proof, it.fact) else []
        if not lines:
            print(said[-2000:], file=sys.stderr)
        shutil.rmtree(tree)
        whole = Lanes(room)
        with ThreadPoolExecutor(lanes()) as pool:
            for it, why in zip(unclear, pool.map(whole.why_not, unclear)):
                bad += [f"{it}: {why}"] if why else []
    for it in bad:
        print(f"refused: {it}", file=sys.stderr)
    if bad or not programs:
        return 1
    print(f"refused: each of {len(programs)} wrong programs, in {edits} edits, at its own fact")
    return 0


if __name__ == "__main__":
    for number in (signal.SIGHUP, signal.SIGTERM):
        signal.signal(number, lambda *_: sys.exit(1))
    sys.exit(main(sys.argv[1:]))
