"""Groups of must-fail edits that one check judges."""

import re

import trials

# The most edits of a group.
MOST = 8
FUNCTION = re.compile(r'^( *)(?:pub(?:\([^)]*\))? )?(?:const |unsafe |final |extern "C" )*fn (\w+)\b(.*?)^\1\}$', re.M | re.S)


def name_of(edit):
    """Returns the name of the function that refuses the edit, without its type and module."""
    return re.findall(r"\w+", edit.function)[-1]


def calls_in(crate):
    """Returns what each function of a crate calls, itself or through others, by their names alone."""
    calls = {}
    for source in sorted((crate / "src").glob("**/*.rt")):
        for _, name, text in FUNCTION.findall(source.read_text(encoding="utf-8")):
            calls.setdefault(name, set()).update(re.findall(r"(\w+)\(", text))
    while True:
        further = {name: called.union(*(calls.get(it, ()) for it in called)) for name, called in calls.items()}
        if further == calls:
            return calls
        calls = further


def stays_inside(edit, crate):
    """Returns whether the edit changes nothing but the function that refuses it, and its proof."""
    name = name_of(edit)

    def others(text):
        return FUNCTION.sub(lambda it: "" if it[2] == name else it[0], text)

    for file, text in edit.texts(crate).items():
        if file.startswith("src/"):
            if others(text) != others((crate / file).read_text(encoding="utf-8")):
                return False
        elif not file.startswith("proofs/") or name not in file.split("/"):
            return False
    return True


def can_share(edits, crate):
    """Returns whether each edit still fits over those before it."""
    texts = {}
    try:
        for edit in edits:
            texts = edit.texts(crate, texts)
    except trials.BadEdit:
        return False
    return True


def groups_of(edits, crate):
    """Shares the edits of a crate out among checks. Those of a group are of functions with different names, none of
    which calls another, so that each is refused for what it changes itself. An edit of anything else is alone."""
    calls = calls_in(crate)
    shared, alone = [], []
    for edit in edits:
        if not stays_inside(edit, crate):
            alone.append([edit])
            continue
        name = name_of(edit)
        near = {name, *calls.get(name, ()), *(it for it in calls if name in calls[it])}
        apart = (it for it in shared if len(it) < MOST and near.isdisjoint(map(name_of, it)))
        if group := next((it for it in apart if can_share([*it, edit], crate)), None):
            group.append(edit)
        else:
            shared.append([edit])
    return shared + alone
