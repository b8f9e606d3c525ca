"""The contracts of functions, read from the sources of the crates, and the page that lists those of users."""

import dataclasses
import pathlib
import re

TOP = pathlib.Path(__file__).resolve().parent.parent
PAGE = TOP / "docs" / "CLAUSES.md"
# The crates that the page lists, in its order: those that users call, and callers to read.
LISTED = (
    "clock2q_cache",
    "clock2q_memo",
    "clock2q_handles",
    "clock2q_command",
    "clock2q_text",
    "clock2q_ports",
    "clock2q_table_commands",
    "clock2q_pages",
    "clock2q_c",
    "clock2q_uses",
)
HEAD = """# Clauses

Each function that users of the library call, with the first sentence of its comment and the names of its clauses. What a function ensures is proved of every call that meets what it requires. A clause without a name is shown as it is written. Each call is linked to its source, which has the text of its clauses, and the definitions are in `specs/` of its crate. The crates below the cache and those of the simulator aren't here. [PROMISES](PROMISES.md) says what the clauses amount to, and [CALLING](CALLING.md) how to meet what a call requires.

`make pages` writes this page, and `.ci/names` fails if it is stale.
"""

FUNCTION = re.compile(r"( *)(pub(?:\([^)]*\))? )?(?:const |unsafe |final |extern \"C\" )*fn (\w+)")
CLAUSE = re.compile(r" *(requires|ensures)\*? (?:(\w+) )?\{(.*)")
METHOD = re.compile(r"\(\s*(?:&(?:'\w+ )?)?(?:mut )?self\b")


@dataclasses.dataclass
class Function:
    """A function: its source, its type or trait if it is a method, and its clauses in the order they have."""

    source: pathlib.Path
    owner: str
    name: str
    is_public: bool
    comment: str
    signature: str = ""
    requires: list = dataclasses.field(default_factory=list)
    ensures: list = dataclasses.field(default_factory=list)

    def __str__(self):
        return f"{self.owner}::{self.name}" if self.owner else self.name

    def clause_names(self):
        return {name for name, _ in self.requires + self.ensures if name}


def owner_in(header):
    """Returns the type or trait whose methods follow `header`, and whether all of them are public."""
    text = header.replace("->", "")
    while (shorter := re.sub(r"<[^<>]*>", "", text)) != text:
        text = shorter
    text = re.split(r"\bwhere\b|[:{]", text.replace("::", "."))[0]
    return re.findall(r"\w+", text)[-1], text.startswith("pub trait")


def functions_in(source):
    """Returns the functions of a source, public and private ones, in its order."""
    found = []
    owner, in_public_trait, header = "", False, ""
    comment, is_in_body = [], False
    lines = iter(source.read_text(encoding="utf-8").splitlines())
    for line in lines:
        if header or re.match(r"(pub )?(unsafe )?(impl|trait)\b", line):
            header += " " + line if header else line
            if line.endswith("{"):
                owner, in_public_trait = owner_in(header)
                header = ""
        elif line == "}":
            owner, in_public_trait = "", False
        elif match := re.match(r" *///(.*)", line):
            comment.append(match[1].strip())
            continue
        elif match := FUNCTION.match(line):
            is_public = match[2] == "pub " or in_public_trait
            found.append(Function(source, owner if match[1] else "", match[3], is_public, "\n".join(comment)))
            found[-1].signature = line
            is_in_body = line.endswith("{")
        elif not found or is_in_body:
            pass
        elif match := CLAUSE.match(line):
            text = match[3]
            while text.count("{") >= text.count("}"):
                text += " " + next(lines).strip()
            getattr(found[-1], match[1]).append((match[2], text.rstrip(" ;}").strip()))
        else:
            found[-1].signature += line
            is_in_body = line.endswith("{")
        if not line.lstrip().startswith("#["):
            comment = []
    return found


def clauses_by_name():
    """Returns the names of the clauses of each function, under its own name and under that of its type."""
    clauses = {}
    for source in sorted(TOP.glob("crates/*/src/**/*.rt")):
        for function in functions_in(source):
            for name in {function.name, str(function)}:
                clauses.setdefault(name, set()).update(function.clause_names())
    return clauses


def users_functions(crate):
    """Returns the functions of a crate that its users can name: constructors first, then in the order of the sources."""
    folder = TOP / "crates" / crate / "src"
    root = (folder / "lib.rt").read_text(encoding="utf-8")
    modules = set(re.findall(r"^pub mod (\w+);", root, re.M))
    names = set()
    for used in re.findall(r"^pub use ([^;]*);", root, re.M):
        names.update(re.findall(r"\w+", re.sub(r"^.*::(?=\{|\w+$)", "", used, flags=re.S)))
    found = []
    for source in sorted(folder.glob("**/*.rt"), key=str):
        module = source.relative_to(folder).parts[0].removesuffix(".rt")
        for function in functions_in(source):
            is_named = module in modules or (function.owner or function.name) in names
            if function.is_public and is_named:
                found.append(function)
    return sorted(found, key=lambda it: (it.owner, bool(METHOD.search(it.signature))))


def first_sentence(comment):
    """Returns the first sentence of a comment, without its links."""
    text = " ".join(comment.split("\n\n")[0].split())
    text = re.sub(r"\[`?([^\]`]+)`?\](?:\([^)]*\))?", r"`\1`", text)
    return re.match(r".*?[.!?](?= |$)|.*", text)[0].replace("|", "\\|")


def listed(clauses):
    return ", ".join(name or f"`{text}`".replace("|", "\\|") for name, text in clauses)


def page():
    """Returns the text of the page."""
    parts = [HEAD]
    for crate in LISTED:
        root = (TOP / "crates" / crate / "src" / "lib.rt").read_text(encoding="utf-8")
        about = "\n".join(line.removeprefix("//!").strip() for line in root.splitlines() if line.startswith("//!"))
        parts.append(f"## {crate}\n\n{first_sentence(about)}\n")
        owner = None
        for function in users_functions(crate):
            if function.owner != owner:
                owner = function.owner
                parts.append(f"### {owner}\n" if owner else "")
                parts.append("| Call | What it does | Requires | Ensures |\n|---|---|---|---|\n")
            call = f"[`{function}`](../{function.source.relative_to(TOP).as_posix()})"
            what = first_sentence(function.comment)
            parts[-1] += f"| {call} | {what} | {listed(function.requires)} | {listed(function.ensures)} |\n"
    return "\n".join(part for part in parts if part)
