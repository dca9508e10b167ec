"""Which names a text of the logic uses and doesn't bind itself: a definition of specs/, or a clause of code.

Parameters, patterns and fields bind names, and so do λ, let and ←. Tokens are read once, from left to right. A name is
bound up to the end of the brackets in which it is: of `record { a = 1; b = 2 }` and `(a, b)` in one part alone.
"""
import re
from dataclasses import dataclass, field

# A string; the empty list; brackets; a path, as `a.b.c`, or `.c` behind a bracket; or a dot
TOKEN = re.compile(r'"(?:[^"\\]|\\.)*"|\[\]|[(){}\[\];,]|\.?[^\s(){}\[\];,."]+(?:\.[^\s(){}\[\];,."]+)*|\.')
PLAIN = re.compile(r'[^\W\d][\w\'\-]*')
COMMENT = re.compile(r'(?:^|(?<=\s))--(?:\s.*)?$')
MODIFIERS = ('abbrev', 'unfoldable', 'pub', 'data', 'record')
KEYWORDS = {'→', '×', ':', '=', '.', '_', 'λ', 'let', 'in', '←', 'record', 'where', 'pub'}
OPENING, CLOSING, SEPARATORS = ('(', '{', '['), (')', '}', ']'), (';', ',')


@dataclass(frozen=True)
class Token:
    text: str
    line: int
    column: int
    is_first: bool  # on its line

    @property
    def is_plain(self):
        """Whether it may be bound: a name without dots that is no word of the language."""
        return self.text == '_' or self.text not in KEYWORDS and bool(PLAIN.fullmatch(self.text))

    @property
    def is_name(self):
        """Whether it may lead somewhere: it is no bracket, word of the language, number, text, or field of a value."""
        return self.text not in KEYWORDS and not re.match(r'[(){}\[;,."\d]', self.text) or self.text == '[]'


def without_comment(line):
    """A line without the comment at its end. Two dashes in a text begin none."""
    found = COMMENT.search(line)
    while found and line[:found.start()].count('"') % 2:
        found = COMMENT.search(line, found.start() + 2)
    return line[:found.start()].rstrip() if found else line.rstrip()


def tokens_of(lines):
    """The tokens of numbered lines."""
    return [Token(found[0].replace('«', '').replace('»', ''), number, found.start(), at == 0) for number, line in lines
            for at, found in enumerate(TOKEN.finditer(without_comment(line)))]


@dataclass
class Frame:
    """What is bound inside of brackets. `before` is in each of their parts."""
    opening: str = ''
    before: frozenset = frozenset()
    names: set = field(default_factory=set)
    group: list = field(default_factory=list)  # names that the brackets bind in what stands around them
    # Names that are bound behind a line of a `do`, with the column in which it begins; those of a `let` behind its `in`
    later: list = field(default_factory=list)
    lets: list = field(default_factory=list)
    is_in_head: bool = False  # between λ and its dot


class Scan:
    """The names that tokens use, where some are bound: `used`, as tokens. What they bind at last is `bound`."""

    def __init__(self, tokens, bound=()):
        self.tokens, self.used, self.at = tokens, [], 0
        self.frames = [Frame(before=frozenset(bound))]
        while self.at < len(tokens):
            self.step(self.frames[-1], tokens[self.at])
            self.at += 1
        self.bound = frozenset(bound) | self.frames[0].names

    def next_text(self):
        return self.tokens[self.at + 1].text if self.at + 1 < len(self.tokens) else ''

    def step(self, frame, token):
        """Reads a token. One that binds a name passes over it."""
        text = token.text
        for later in (frame.later, frame.lets) if token.is_first else ():
            frame.names.update(name for name, column in later if token.column <= column)
            later[:] = [(name, column) for name, column in later if token.column > column]
        if text in OPENING:
            self.open(text)
        elif text in CLOSING:
            self.frames.pop()
            self.frames[-1].names.update(frame.group)
        elif text in SEPARATORS:
            frame.names.clear()
        elif text in ('λ', '.'):
            frame.is_in_head = text == 'λ'
        elif text == 'let':
            frame.lets.append((self.next_text(), token.column if token.is_first else -1))
            self.at += 1
        elif text == 'in':
            frame.names.update([frame.lets.pop()[0]] if frame.lets else [])
        elif token.is_plain and frame.is_in_head:
            frame.names.add(text)
        elif token.is_plain and self.next_text() == '←':
            frame.later.append((text, token.column))
        else:
            self.use(frame, token)

    def open(self, text):
        """Opens brackets. `(a b : T)` binds a and b in what stands around it."""
        frame, end = Frame(text), self.at + 1
        while end < len(self.tokens) and self.tokens[end].is_plain:
            end += 1
        if self.at + 1 < end < len(self.tokens) and self.tokens[end].text == ':':
            frame.group = [token.text for token in self.tokens[self.at + 1:end]]
            self.at = end
        self.frames.append(frame)

    def use(self, frame, token):
        """Notes a name, but for one that is bound, and for a key: in braces, before `=`."""
        is_key = frame.opening == '{' and self.next_text() == '=' and self.tokens[self.at - 1].text in ('{', ';')
        head = token.text.split('.')[0]
        if token.is_name and not is_key and not any(head in each.names or head in each.before for each in self.frames):
            self.used.append(token)


def parts_of(tokens):
    """Tokens in parts, each of which begins on a line of its own, outside of brackets, in the column of the first."""
    parts, depth = [], 0
    for token in tokens:
        if not parts or depth == 0 and token.is_first and token.column <= tokens[0].column:
            parts.append([])
        parts[-1].append(token)
        depth += (token.text in OPENING) - (token.text in CLOSING)
    return parts


def outside(tokens, text):
    """The index of the first token outside of brackets that is this, or how many tokens there are."""
    depth = 0
    for at, token in enumerate(tokens):
        depth += (token.text in OPENING) - (token.text in CLOSING)
        if depth == 0 and token.text == text:
            return at
    return len(tokens)


class Names:
    """The names that a definition uses: `used`, as tokens. It asks whether a token of a pattern is a constructor."""

    def __init__(self, is_constructor):
        self.is_constructor, self.used = is_constructor, []

    def scan(self, tokens, bound):
        scan = Scan(tokens, bound)
        self.used += scan.used
        return scan.bound

    def definition(self, tokens, bound):
        """A definition: its type, and what it is."""
        if {'data', 'record'} & {token.text for token in tokens[:2]}:
            self.declaration(tokens, bound)
        else:
            self.equations(tokens, bound)

    def equations(self, tokens, bound):
        """Definitions with their types, one behind the other."""
        for part in parts_of(tokens):
            words = [token for token in part if token.text not in MODIFIERS]
            if len(words) > 1 and words[1].text == ':':
                self.scan(words[2:], bound)
            else:
                self.equation(part, bound)

    def equation(self, tokens, bound):
        """Patterns, what they are, and the definitions behind a `where` on a line of its own."""
        where = next((at for at, token in enumerate(tokens) if token.text == 'where' and token.is_first), len(tokens))
        local = tokens[where + 1:]
        equals = outside(tokens[:where], '=')
        bound = bound.union(self.patterns(tokens[:equals], bound), (part[0].text for part in parts_of(local)))
        self.scan(tokens[equals + 1:where], bound)
        self.equations(local, bound)

    def patterns(self, tokens, bound):
        """The names that the left side of an equation binds, with that of what it defines."""
        for at, token in enumerate(tokens):
            is_key = at + 1 < len(tokens) and tokens[at + 1].text == '='
            if token.is_plain and not is_key and not self.is_constructor(token):
                yield token.text
            elif token.is_name and not is_key and token.text.split('.')[0] not in bound:
                self.used.append(token)

    def declaration(self, tokens, bound):
        """A data type or a record: its parameters, and its constructors or fields. A field is known behind it."""
        where = outside(tokens, 'where')
        start = next(at for at, token in enumerate(tokens) if token.text not in MODIFIERS)
        bound = self.scan(tokens[start + 1:where], bound)
        is_record = 'record' in {token.text for token in tokens[:start]}
        for part in parts_of(tokens[where + 1:]):
            words = [token for token in part if token.text != 'pub']
            self.scan(words[2:], bound)
            bound = bound.union([words[0].text] if is_record else [])
