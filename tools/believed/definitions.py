"""The definitions of specs/*.antt, file by file, and what each uses."""
import re
from collections import defaultdict
from dataclasses import dataclass

from common import Fault

from believed.scopes import MODIFIERS, Names, Scan, outside, tokens_of, without_comment

USE = re.compile(r'Rattle\.(\w+)\.([\w.]+?)(?:\.\{([^}]*)\}| as (\w+))?')
SIGNATURE = re.compile(r'(?:(?:%s) )+(\S+)|(\S+) :(?: |$)' % '|'.join(MODIFIERS))
AHEAD = re.compile(r' *(?:infix[lr]?|unfolding) ')


@dataclass(frozen=True)
class Import:
    """Where a name leads: to one of a module of a crate, or to the module itself, if it has no name."""
    crate: str
    module: str
    name: str = ''


def words_of(name):
    """A name, and what stands between the arguments of what it names: `if◌then◌else◌` has three words."""
    return [name, *filter(None, name.split('◌') if '◌' in name else [])]


def imports_of(said):
    """Where each name leads that a `use` brings."""
    found = USE.fullmatch(' '.join(said.replace('«', '').replace('»', '').split()))
    if not found:
        raise Fault('it isn\'t understood: use %s' % said)
    crate, module, names, alias = found.groups()
    if names is None:
        return {alias or module.split('.')[-1]: Import(crate, module)}
    pairs = [each.strip().partition(' as ') for each in names.split(',') if each.strip()]
    return {word: Import(crate, module, name) for name, _, alias in pairs for word in words_of(alias or name)}


@dataclass(eq=False)
class Definition:
    """One of a file of definitions, with its place among them."""
    module: 'Module'
    name: str
    place: int
    lines: list  # of code: numbers and texts
    ahead: int  # how many lines say before how it is written, as an operator
    comments: int  # how many lines of comments stand in it, and in front of it
    around: 'Definition'  # the head of the `module` in which it stands, if any

    @property
    def crate(self):
        return self.module.crate

    @property
    def path(self):
        return self.module.path

    @property
    def line(self):
        return self.lines[0][0]

    @property
    def size(self):
        return len(self.lines) + self.ahead

    @property
    def tokens(self):
        return tokens_of(self.lines)

    def constructors(self):
        """The names of a data type's constructors."""
        tokens = self.tokens
        body = tokens[outside(tokens, 'where') + 1:] if 'data' in [token.text for token in tokens[:2]] else []
        return [token.text for token in body if token.is_first and token.column == body[0].column]

    def head(self):
        """The head of a `module`, which has parameters."""
        tokens = self.tokens
        return Scan(tokens[2:outside(tokens, 'where')])

    def used(self):
        """The names that it uses, as tokens."""
        if self.name == '_':
            return self.head().used
        names = Names(lambda token: self.module.is_constructor(token, self.place))
        names.definition(self.tokens, self.around.head().bound if self.around else frozenset())
        return names.used

    def uses(self):
        """What it uses: definitions, parts of types, and imports of the library."""
        yield from [self.around] if self.around else []
        for token in self.used():
            yield from self.module.resolve(token, self.place)


class Module:
    """A file of definitions. `known` has, by words, the definitions that each leads to, and whether as a constructor:
    several data types may have one of the same name."""

    def __init__(self, world, crate, path, text):
        self.world, self.crate, self.path = world, crate, path
        self.imports, self.definitions, self.known = {}, [], defaultdict(list)
        self.comments = self.ahead = 0  # lines before the next definition
        self.around = None  # the head of the `module` that is read
        for number, line in enumerate(text.split('\n'), 1):
            self.read(number, line, without_comment(line))
        for each in self.definitions:
            for word in words_of(each.name):
                self.known[word].append((each, False))
            for name in each.constructors():
                self.known[name].append((each, True))

    def read(self, number, line, code):
        """Reads a line, and what it is without a comment."""
        if not code:
            self.comments = self.comments + 1 if line.strip() else 0
        elif AHEAD.match(code):
            self.ahead += 1
        else:
            if code.startswith('use '):
                self.imports.update(imports_of(code[4:]))
            elif not code.startswith('pub mod '):
                self.read_code(number, code)
            self.comments = 0

    def read_code(self, number, code):
        """Reads a line of a definition, which begins one or goes on. Those of a `module` stand by two columns in."""
        level = len(code) - len(code.lstrip())
        self.around = self.around if level else None
        begins = SIGNATURE.match(code.lstrip()) if level == (2 if self.around else 0) else None
        if code.startswith('module '):
            self.begin('_', number, code)
            self.around = self.definitions[-1]
        elif begins:
            self.begin((begins[1] or begins[2]).strip(':«»'), number, code)
        elif self.definitions:
            self.definitions[-1].lines.append((number, code))
            self.definitions[-1].comments += self.comments
        else:
            raise Fault('%s:%d: no definition begins here' % (self.path, number))

    def begin(self, name, number, code):
        place = len(self.definitions)
        self.definitions.append(Definition(self, name, place, [(number, code)], self.ahead, self.comments, self.around))
        self.ahead = 0

    def own(self, word, place):
        """What a word leads to in this file: what stands behind a place isn't known there."""
        return [(each, is_constructor) for each, is_constructor in self.known.get(word, []) if each.place <= place]

    def is_constructor(self, token, place):
        """Whether a name of a pattern is a constructor's."""
        own = self.own(token.text, place)
        return any(found for _, found in own) if own else self.world.is_constructor(self.imports, token.text)

    def resolve(self, token, place):
        """What a name leads to. A `do` leads to how its lines are joined."""
        for word in ('>>=', '>>') if token.text == 'do' else (token.text.split('.')[0],):
            own = self.own(word, place)
            yield from (each for each, _ in own)
            if not own and token.text != 'do':
                yield from self.world.resolve(self.imports, token, self.path)
            elif not own and word in self.imports:
                yield from self.world.target(self.imports[word])

    def named(self, name):
        """What another file finds here by a name: definitions, and whether as a constructor."""
        if name not in self.known:
            raise Fault('%s: it has no %s' % (self.path, name or 'such name'))
        return self.known[name]
