"""The examples of the documentation, turned to Rust's."""
import re

from examples import EXAMPLES
from text import Text

FENCE = re.compile(r'^(?P<lead>[ \t]*//[/!]) ```\n(?P<lines>(?:[ \t]*//[/!](?: [^\n]*)?\n)*?)[ \t]*//[/!] ```\n', re.M)


def plain(line):
    """A line without the runtime that Rattle's macros are given, and its requests for memory."""
    line = re.sub(r'\b(assert|assert_eq|println)!\(rt; ', r'\1!(', line)
    line = re.sub(r'(\bprintln!\([^;]*\))\?', r'\1', line)
    return line.replace('rt.alloc()', 'Global')


def program(text, at, lines, erase_ghosts):
    """The lines of an example with those that make it a program."""
    part = Text(text.name, ''.join(line + '\n' for line in lines))
    erase_ghosts(part)
    shown = [plain(line) for line in part.done().splitlines()]
    if lines[0] not in EXAMPLES:
        text.refuse(at, f'an example that nothing is known of: {lines[0]}')
    before, after = EXAMPLES[lines[0]]
    if any(re.search(r'\brt\b', line) for line in shown):
        text.refuse(at, 'an example that uses the runtime')
    made = [f'# {line}' for line in before] + shown + [f'# {line}' for line in after]
    if any('?' in line for line in made):
        made.append('# Ok::<(), Box<dyn std::error::Error>>(())')
    return made


def turned(text, crate, erase_ghosts):
    """The text with its edits and its examples."""
    for match in FENCE.finditer(text.source):
        lead = match['lead']
        lines = [line.strip()[4:] for line in match['lines'].splitlines()]
        made = program(text, match.start(), lines, erase_ghosts)
        body = ''.join(f'{lead} {line}\n'.replace(' \n', '\n') for line in made)
        text.edits.append((match.start(), match.end(), f'{lead} ```\n{body}{lead} ```\n'))
    done = text.done()
    # Links to a crate's page are links to its module's.
    done = re.sub(r'(//[/!][^\n]*)\[crate\]\(crate\)', rf'\1[module](crate::proved::{crate})', done)
    links = re.compile(r'\]\(crate::(?!proved)')
    return re.sub(r'//[/!][^\n]*', lambda comment: links.sub(f'](crate::proved::{crate}::', comment[0]), done)
