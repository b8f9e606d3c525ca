"""What C calls: exports, the keys that they take, and a hasher that is given numbers."""
import re

TEST = re.compile(r'^[ \t]*#\[cfg\(test\)\]\n[ \t]*mod (\w+);\n', re.M)

# Where the type of a key is named. A key is a usize in Rattle, which has 64 bits there, and is 64 bits of C.
KEYS = (
    r'\b(?:key|page|last): (usize)\b',
    r'\bCache<(usize),',
    r'\bCache<[^,>]*, Option<(usize)>',
    r'\(usize, Option<(usize)>\)',
    r'\bOccupant<(usize)>',
)

# A number is written as its bytes in Rattle, the lowest first, and in Rust in the order of the platform.
NUMBERS = ''.join(f"""
    #[inline]
    fn write_{kind}(&mut self, number: {kind}) {{
        self.write(&number.to_le_bytes());
    }}
""" for kind in ('u16', 'u32', 'u64', 'u128', 'usize'))


def tests(code):
    """The names of the modules that are tests."""
    return [match[1] for match in TEST.finditer(code)]


def erase_tests(text):
    for match in text.find(TEST):
        text.cut(match.start(), match.end())


def export(text):
    """Exports by the attribute that Rust has had from its beginning, without an allocator: it has no bytes, and some
    platforms would pass it."""
    for match in text.find(re.compile(r'^#\[unsafe\(no_mangle\)\]$', re.M)):
        text.cut(match.start(), match.end(), '#[no_mangle]')
    for match in text.find(re.compile(r'^pub extern\s+fn \w+(?=\()', re.M)):
        end = text.partner(match.end())
        alloc = re.compile(r'\balloc: Global,\s*').search(text.code, match.end(), end)
        if alloc:
            body = text.code.index('{', end) + 1
            text.cut(alloc.start(), alloc.end())
            text.edits.append((body, body, '\n    let alloc = Global;'))


def widen_keys(text):
    for pattern in KEYS:
        text.replace(pattern, 'u64')


def write_numbers(text):
    """Has hashers of the sources write numbers as they do in Rattle."""
    for match in text.find(re.compile(r'^impl Hasher for \w+ (?=\{)', re.M)):
        end = text.partner(match.end()) - 1
        if re.search(r'\bfn write_', text.code[match.end():end]):
            text.refuse(match.start(), 'a hasher that writes numbers in its own way')
        text.edits.append((end, end, NUMBERS))
