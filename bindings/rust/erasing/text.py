"""A source whose parts are cut out while each place is still known by its line."""
import re


class Refused(Exception):
    """What erase doesn't know, with file and line."""


def hidden(source):
    """The source with spaces in place of comments, and of what is between quotes, so that only code is left."""
    pattern = re.compile(r"""//[^\n]*|"(?:\\.|[^"\\])*"|'(?:\\.|[^'\\])'""", re.S)
    return pattern.sub(lambda match: re.sub(r'[^\n]', ' ', match[0]), source)


class Text:
    """A source, its code, and what is to be cut out of it."""

    def __init__(self, name, source):
        self.name = name
        self.source = source
        self.code = hidden(source)
        self.edits = []

    def refuse(self, at, what):
        line = self.source.count('\n', 0, at) + 1
        raise Refused(f'{self.name}:{line}: {what}')

    def find(self, pattern):
        """Yields what matches in the code that is left, one at a time, since each may be cut."""
        at = 0
        while match := pattern.search(self.code, at):
            yield match
            at = max(match.end(), at + 1) if self.code[match.start():match.end()] == match[0] else match.start()

    @staticmethod
    def closing(code, at):
        """The place of the bracket that closes the one here."""
        depth = 0
        for place in range(at, len(code)):
            depth += (code[place] in '{([') - (code[place] in '})]')
            if depth == 0:
                return place
        return -1

    def partner(self, at):
        """The place after the bracket that closes the one here."""
        end = self.closing(self.code, at)
        if end < 0:
            self.refuse(at, 'a bracket that nothing closes')
        return end + 1

    def cut(self, start, end, new=''):
        """Puts a text in place of what is from start to end, of which nothing more is found."""
        self.edits.append((start, end, new))
        blank = re.sub(r'[^\n]', ' ', self.code[start:end])
        self.code = self.code[:start] + blank + self.code[end:]

    def cut_lines(self, start, end):
        """Cuts whole lines; nothing else may be in them."""
        start = self.source.rfind('\n', 0, start) + 1
        rest = re.match(r'[ \t]*\n?', self.source[end:])
        if not rest[0].endswith('\n') and self.source[end:]:
            self.refuse(start, 'a ghost form that something comes after')
        self.cut(start, end + rest.end())

    def cut_clause(self, start, end):
        """Cuts the lines of a clause, but for a semicolon after it: there ends what a trait asks for."""
        if self.source[end:end + 1] == ';':
            self.cut(self.source.rfind('\n', 0, start) + 1, end)
        else:
            self.cut_lines(start, end)

    def comments_before(self, at):
        """The start of the comments right before a line, and of an empty line before those."""
        while comment := re.search(r'\n[ \t]*//[^\n]*\n\Z', self.source[:at]):
            at = comment.start() + 1
            if self.source[:at].endswith('\n\n'):
                at -= 1
        return at

    def replace(self, pattern, new):
        """Puts a text in place of the first group of each match."""
        for match in self.find(re.compile(pattern, re.M)):
            self.cut(match.start(1), match.end(1), new)

    def insert_import(self, line):
        """Adds an import before the first one, or before the first item."""
        first = re.search(r'^use ', self.code, re.M) or re.search(r'^\w|^#\[', self.code, re.M)
        self.edits.append((first.start(), first.start(), line))

    def append(self, lines):
        self.edits.append((len(self.source), len(self.source), lines))

    def done(self):
        """The source with its edits, and without the empty lines that they leave."""
        parts, at = [], 0
        for start, end, new in sorted(self.edits, key=lambda edit: (edit[0], edit[1], edit[2].startswith('#'))):
            if start >= at:
                parts += [self.source[at:start], new]
                at = end
        left = ''.join(parts) + self.source[at:]
        left = re.sub(r'\n(?:[ \t]*\n){2,}', '\n\n', left)
        left = re.sub(r'\{\n\n+(?=[ \t]*\S)', '{\n', left)
        left = re.sub(r'\n[ \t]*;$', ';', left, flags=re.M)
        left = re.sub(r'^([^\n/]*[^,\n/])\n[ \t]*\{\n', r'\1 {\n', left, flags=re.M)
        left = re.sub(r'\n\n+([ \t]*\})', r'\n\1', left)
        return left.strip('\n') + '\n'
