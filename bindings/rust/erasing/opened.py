"""What the map uses of the core, and what rustc has to see of it."""
import re

# What the map uses beside what is public, by the source that has it: `pub(crate)` comes before it, in place of
# `pub(super)` if that does.
OPENED = {
    'clock2q_cache/src/cache.rt': ['directory: Directory<', 'fn record_hit('],
    'clock2q_cache/src/lib.rt': ['mod shares;'],
    'clock2q_directory/src/directory.rt': ['index: Index<', 'history: Ghost<'],
    'clock2q_handles/src/candidates.rt': ['view: View<', 'slot: usize,', 'wanted: Wanted,', 'reads: Count,', 'handle_reads: Count,'],
    'clock2q_handles/src/metadata.rt': ['fn is(', 'fn ends_walk_for('],
}

# What lets rustc see that a place is within a table: a mask that is the length less one, which it is proved to be. By the
# source, what is replaced (the group), how often it is there, and by what.
SEEN = {
    'clock2q_handles/src/slots/vectors.rt': [
        (r'^ {12}mask: (self\.mask),$', 1, 'self.metadata.len().wrapping_sub(1)'),
        (r'writes;\n {8}let mask = (self\.mask);$', 2, 'metadata.len().wrapping_sub(1)'),
    ],
}

# What rustc would leave out of line, and its callers have many registers to save for.
INLINED = {'clock2q_directory/src/history.rt': ['push']}


def open_items(text):
    """Lets the map name fields and functions of the cache that are private in the sources."""
    for start in OPENED.get(text.name, []):
        found = re.findall(rf'^[ \t]*((?:pub\(super\) )?){re.escape(start)}', text.code, re.M)
        if len(found) != 1:
            text.refuse(0, f'{len(found)} lines that begin with {start!r}, which the map uses')
        text.replace(rf'^[ \t]*({re.escape(found[0])}){re.escape(start)}', 'pub(crate) ')


def show_bounds(text):
    """Lets rustc see that a table is asked for places within it alone."""
    for pattern, times, new in SEEN.get(text.name, []):
        found = re.findall(pattern, text.code, re.M)
        if len(found) != times:
            text.refuse(0, f'{len(found)} times {pattern!r}, of which {times} are known')
        text.replace(pattern, new)
