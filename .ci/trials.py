"""Must-fail edits: what they say, and how they are tried on copies of their crates."""

import os
import pathlib
import re
import shutil
import subprocess
import sys

TOP = pathlib.Path(__file__).resolve().parent.parent
# The folders of a crate that hold edits: what the gate tries, and what is tried before a release.
FOLDERS = ("must-fail-gate", "must-fail-more")
PARTS = ("src", "specs", "proofs")
# What antt says of a name that the edit took away, which shows nothing of a contract.
GONE = re.compile(r"has no field|is not in scope|has no `|was not admitted")
# What antt says of a text that it can't read.
UNREAD = re.compile(r"is not in scope|has no field|is no name|operand is missing|expected the end|cannot continue")
# For a function whose clauses are answered together.
ALL = "all its clauses"


class BadEdit(Exception):
    """An edit that can't be applied, or a name that no edit has."""


class Edit:
    """An edit: its crate, the function and the clause that refuse it (or the file and the name of a law), and the texts that it changes."""

    def __init__(self, path):
        self.path = path
        self.crate = path.parent.parent.name
        self.name = path.stem
        self.pairs = []
        lines = path.read_text(encoding="utf-8").split("\n")
        found = re.fullmatch(r"refused by: (\S+), (\S+)(?: .*)?", lines[0])
        if not found:
            raise BadEdit(f"{self}: the first line isn't 'refused by: FUNCTION, CLAUSE'")
        self.refused_by = lines[0]
        self.function, self.clause = found.groups()
        file = old = None
        for line in lines:
            if line.startswith("file: "):
                file = line[len("file: ") :].strip()
            elif line.startswith("old: "):
                old = line[len("old: ") :]
            elif line.startswith("new:"):
                if not file or old is None:
                    raise BadEdit(f"{self}: a 'new:' is before its 'file:' or 'old:'")
                self.pairs.append((file, old, re.sub(r"\A ", "", line[len("new:") :])))
                old = None
        if not self.pairs:
            raise BadEdit(f"{self}: it changes nothing")

    def __str__(self):
        return f"{self.crate}/{self.path.parent.name}/{self.name}"

    def texts(self, crate, texts=()):
        """Returns the texts of the files that the edit changes in the crate's folder, by their paths, over those that are given."""
        texts = dict(texts)
        for file, old, new in self.pairs:
            if file not in texts and not (crate / file).is_file():
                raise BadEdit(f"{self}: there is no file {file}")
            text = texts.get(file) or (crate / file).read_text(encoding="utf-8")
            if text.count(old) != 1:
                raise BadEdit(f"{self}: {old!r} is {text.count(old)} times in {file}, and not once")
            texts[file] = text.replace(old, new)
        return texts

    def apply(self, crate):
        """Changes the files in the crate's folder. They are written anew, as they may be shared with other copies."""
        for file, text in self.texts(crate).items():
            (crate / file).unlink()
            (crate / file).write_text(text, encoding="utf-8")


def crates():
    """Returns the lines of crates.txt and the libraries that they name, by crate."""
    listed = {}
    for line in (TOP / "crates.txt").read_text(encoding="utf-8").split("\n"):
        head, _, uses = line.partition("#")[0].partition(":")
        if head.strip():
            listed[head.split()[0]] = line, uses.replace(",", " ").split()
    return listed


def below(crate, listed):
    """Returns the crate and those of the repository below it, lowest first."""
    found = []
    for used in listed[crate][1]:
        if used in listed:
            found += [it for it in below(used, listed) if it not in found]
    return [*found, crate]


def paths_of(crate, folders=FOLDERS):
    """Returns the files of the crate's edits."""
    return [it for folder in folders for it in sorted((TOP / "crates" / crate / folder).glob("*.edit"))]


def share(source, to):
    """Copies a folder. Its files are shared where they can be: rt writes new ones, and changes none."""
    if subprocess.run(["cp", "-al", source, to], stderr=subprocess.DEVNULL).returncode:
        shutil.rmtree(to, ignore_errors=True)
        subprocess.run(["cp", "-a", "--reflink=auto", source, to], check=True)


def copy_of(crate, room):
    """Makes a copy of the crate and those below it, with the work that rt kept, and returns the crate's folder there."""
    listed = crates()
    if crate not in listed:
        raise BadEdit(f"crates.txt has no line for {crate}")
    (room / "crates").mkdir(parents=True)
    shutil.copy(TOP / "HANDLES", room)
    needed = below(crate, listed)
    for name in needed:
        share(TOP / "crates" / name, room / "crates" / name)
    (room / "crates.txt").write_text("".join(f"{listed[it][0]}\n" for it in needed), encoding="utf-8")
    return room / "crates" / crate


class Checks:
    """The runs of rt that are under way, so that all of them can be ended."""

    are_over_built = False

    def __init__(self):
        if not shutil.which("rt"):
            stop("rt isn't there, the command of the Rattle kit: README.md, Install")
        self.running = set()
        self.is_ended = False

    def command(self, folder):
        """Returns the words of a check of the crate in the folder."""
        return ["rt", "check"]

    def limits(self, edits):
        """Returns the flags that keep a check to what refuses the edits."""
        return []

    def check(self, folder, *flags):
        """Checks the crate in the folder, and returns the lines that were printed."""
        how = {"cwd": folder, "stdin": subprocess.DEVNULL, "stdout": subprocess.PIPE, "stderr": subprocess.STDOUT}
        if self.is_ended:
            return []
        with subprocess.Popen([*self.command(folder), *flags], errors="replace", **how) as run:
            self.running.add(run)
            said = run.communicate()[0]
            self.running.discard(run)
        return said.split("\n")

    def end(self):
        """Ends the runs, and begins no more. rt ends what it has started."""
        self.is_ended = True
        for run in list(self.running):
            run.terminate()


class ChecksOverBuilt(Checks):
    """Checks over the libraries that `rt ci` or `rt check` built in the repository, which keep nothing."""

    are_over_built = True

    def __init__(self):
        super().__init__()
        said = subprocess.run(["rt", "doc"], stdout=subprocess.PIPE, check=True, text=True).stdout
        self.kit = pathlib.Path(said.strip()).parent

    def command(self, folder):
        listed = crates()
        built = [TOP / "crates" / it / "out" / "rlib" / f"{it}.rlib" for it in below(folder.name, listed)[:-1]]
        used = [*built, *(self.kit / "rlibs" / f"{it}.rlib" for it in ["std", *listed[folder.name][1]] if it not in listed)]
        given = [f"--extern={it.stem}={it}" for it in used] + ["-L", f"dependency={self.kit / 'rlibs'}"]
        logic = [f"--antt-project={self.kit / 'rattle/logic/antt-project.json'}", f"--logic-built={self.kit / 'logic_built'}"]
        return [str(self.kit / "bin" / "rattle"), "check", "--crate-name", folder.name, "src/lib.rt", *given, *logic, f"--links={folder.name}="]

    def limits(self, edits):
        return [f"--only={it.function}" for it in edits]


def field_at_end(text):
    """Returns the field of the outermost record that is open where the text ends, or None."""
    fields = []
    for found in re.finditer(r"\}|([{;])(?:\s*(\w+) =)?", text):
        if found[0] == "}":
            fields = fields[:-1]
        elif found[1] == "{":
            fields.append(found[2])
        elif fields:
            fields[-1] = found[2] or fields[-1]
    return next((it for it in fields if it), None)


def clause_of(goal, before):
    """Returns the clause that a goal belongs to. An answer may be a record of several: then the field in which the error is names it."""
    if found := re.search(r"clause-(\w+?)(?:-\d+)?$", goal):
        return found[1]
    if goal.startswith("invariant_of"):
        return "invariant"
    if goal.startswith("returns"):
        return field_at_end(before.rpartition(f"\n{goal} ")[2]) or ALL
    return goal


def noted(log):
    """Returns the functions and clauses that the checker's notes name: those of a function come before its line."""
    found_at, goals = [], []
    for line in log:
        if found := re.match(r"note: \S+:\d+:\d+: it is not proved that .*\(`([\w-]*clause-[\w-]+)`\)$", line):
            goals.append(found[1])
        elif found := re.match(r"fn \w+::(\S+): (not proved|no proof)?", line):
            found_at += [(found[1], clause_of(it, "")) for it in goals if found[2]]
            goals = []
    return found_at


def refusing(log, crate):
    """Returns the functions and clauses at which the check refused the crate, and those at which a name is gone, as two lists."""
    refused_at, gone, records = [], [], {}
    for line in log:
        if found := re.match(r"note: `([\w-]+)` of proofs/(\S+)/\w+\.antt must prove: record (.*)", line):
            records[found[2], found[1]] = re.findall(r"[{;,]\s*(\w+) :", found[3])
    for line in log:
        if found := re.match(r"\./proofs/(\S+)/(?:Answers|Invariants|Proof)\.antt:(\d+):(\d+): error: `([^`]+)`", line):
            file = crate / line[2:].partition(":")[0]
            lines = file.read_text(encoding="utf-8").split("\n")
            number = int(found[2])
            before = "\n".join(["", *lines[: number - 1], lines[number - 1][: int(found[3])]])
            at = found[1].replace("/", "::"), clause_of(found[4], before)
            (gone if GONE.search(line) else refused_at).append(at)
        elif found := re.match(r"\./proofs/(?:\S+/)?(\w+)\.antt:\d+:\d+: error: `([^`]+)`", line):
            # a law, which its file and its name say
            (gone if GONE.search(line) else refused_at).append((found[1], found[2]))
        elif found := re.search(r"expected answers in \./proofs/(\S+)/\w+\.antt; .*did not prove (.*)", line):
            for goal in re.findall(r"`([\w-]+)`", found[2]):
                # one goal may have several clauses, which a note lists
                clauses = records.get((found[1], goal)) or [clause_of(goal, "")]
                refused_at += [(found[1].replace("/", "::"), it) for it in clauses]
        elif found := re.match(r"\./proofs/(\S+)/\w+\.antt:.* error: \d+ declarations? that depends? on .* not checked: (.*)", line):
            # goals that rest on a lemma which was refused
            goals = re.findall(r"(?:returns|invariant_of)[\w-]*", found[2])
            refused_at += [(found[1].replace("/", "::"), clause_of(it, "")) for it in goals]
    refused_at += [it for it in noted(log) if it not in gone]
    return list(dict.fromkeys(refused_at)), list(dict.fromkeys(gone))


def is_of(named, path):
    """Returns whether a function that an edit names, as Cache::put, is the one at a path, as cache::Cache::put."""
    words = re.findall(r"\w+", path)
    names = re.findall(r"\w+", named)
    return names[-1] == words[-1] and {*names} <= {*words}


def is_unread(line, changed):
    """Returns whether antt could not read a text of src, specs or a changed file, so that no contract was tried."""
    found = re.match(r"(?:\./)?(\S+?):\d+:\d+: error: (`[^`]*`: )?(.*)", line)
    if not found or (found[1] not in changed and not found[1].startswith(("src/", "specs/"))):
        return False
    if re.match(r"\d+ declarations? that depends? on ", found[3]):
        return False
    return not found[2] or bool(UNREAD.search(re.sub(r"`[^`]*`", "", found[3])))


def judge(edit, log, crate, changed):
    """Returns whether the edit was refused as its first line says, and what to say of it. `changed` are the files that the check had from edits."""
    # rt may have proved libraries below the crate first: the crate's own verdict is the last one
    verdicts = [it for it in log if it.startswith(("logic=", "only="))]
    if not verdicts:
        errors = [it for it in log if re.search(r"\berror[\[:]", it)]
        return False, "it doesn't compile: " + (errors or log or ["nothing was said"])[0][:300]
    if re.match(r"logic=proved|only=(\d+) proved=\1$", verdicts[-1]):
        return False, "it is proved, and so not refused"
    if unread := [it for it in log if it.startswith("src/") and "error[" in it or is_unread(it, changed)]:
        return False, f"its text can't be read, so no contract was tried: {unread[0][:300]}"
    refused_at, gone = refusing(log, crate)
    where = "; ".join(f"{function}, {clause}" for function, clause in refused_at)
    if not refused_at and gone:
        return False, "it is refused only where a proof names what the edit took away"
    if any(is_of(edit.function, function) and clause in (edit.clause, ALL) for function, clause in refused_at):
        return True, f"refused at {where}"
    return False, f"{edit.function}, {edit.clause} isn't where it is refused: {where or 'nowhere that could be read'}"


def try_on(copy, edits, checks, *flags):
    """Applies the edits to a copy of their crate, checks that, and returns for each whether it was refused as it says and what to say of it, and what rt printed."""
    for edit in edits:
        edit.apply(copy)
    log = checks.check(copy, *flags)
    changed = {file for edit in edits for file, _, _ in edit.pairs}
    return [judge(it, log, copy, changed) for it in edits], log


def explain(log):
    """Returns the lines of a check that say what wasn't proved."""
    refused_at = [it for it in log if re.match(r"(fn|impl|struct|enum) .*: |.*\berror[\[:]", it)]
    return [it[:300] for it in refused_at if not it.endswith(": proved")]


def stop(why):
    print(f"{os.path.basename(sys.argv[0])}: {why}", file=sys.stderr)
    sys.exit(2)
