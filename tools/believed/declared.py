"""What src/*.rt declares, file by file: types with what the logic sees of them, traits, and functions with clauses.

In a text of the logic a type is what its `Value` says, if it has one, and else its fields. A function takes and gives
what is held in memory: of its type the fields count too, the `view`, which says what value they are, and the
`invariant`, which says what they may be. Of a trait all counts, unless it has neither members of the logic nor clauses.
"""
import re
from dataclasses import dataclass

from common import Fault

from believed.definitions import imports_of
from believed.scopes import Scan, tokens_of

TYPE = re.compile(r'(?:pub(?:\([^)]*\))? )?(struct|enum|trait|type) (\w+)')
MODEL = re.compile(r'impl\b.*? Model for (\w+)')
OWN = re.compile(r'impl(?:<.*?>)? (\w+)(?!.* for )')  # a block of functions of a type
USE = re.compile(r'^(?:pub(?:\([^)]*\))? )?use ([^;]*);', re.MULTILINE)
GHOST_USE = re.compile(r'^( *)ghost use ([^;]*);\n', re.MULTILINE)
# What a brace belongs to in which a text of the logic stands: a ghost member, or a clause
GROUP = re.compile(r'\b(?:ghost (\w+)(?::| =)|(?:requires|ensures)\*?(?: \w+)?) (?=\{)')
FUNCTION = re.compile(r'( *)(pub )?(?:const )?fn (\w+)')
PATH = re.compile(r'(?:\b[a-z_]\w*::)*\b[A-Z]\w*')
PARAMETER = re.compile(r'\b([a-z_]\w*):(?!:)|[<,] *([A-Z]\w*)(?=[:,>])')  # of a function, and of a type
VARIANT = re.compile(r'^    [A-Z]\w*', re.MULTILINE)
PASSED_OVER = re.compile(r' *(?://|#\[)')  # comments and attributes
VALUE, VIEW, INVARIANT, FIELDS = 'Value', 'view', 'invariant', 'fields'
BOUND = frozenset({'Self', 'self', 'result'})
PRELUDE = {'Some', 'None', 'Ok', 'Err'}  # what clauses have without a `use`


def paths_in(said, before=()):
    """The paths of what a `use` of code brings, by the names that they have here."""
    head, brace, rest = said.strip().partition('{')
    if not brace:
        path, _, alias = head.partition(' as ')
        path = (*before, *(part for part in path.strip().split('::') if part != 'self'))
        return {alias.strip() or path[-1]: path}
    parts, depth = [''], 0
    for sign in rest[:rest.rindex('}')]:
        depth += (sign == '{') - (sign == '}')
        parts = parts + [''] if sign == ',' and depth == 0 else parts[:-1] + [parts[-1] + sign]
    before = (*before, *filter(None, head.split('::')))
    return {name: path for part in parts if part.strip() for name, path in paths_in(part, before).items()}


def group_end(text, start):
    """Where the brace that opens at `start` is closed."""
    depth = 0
    for at in range(start, len(text)):
        depth += (text[at] == '{') - (text[at] == '}')
        if depth == 0:
            return at
    raise Fault('a brace isn\'t closed: %s' % text[start:].split('\n')[0])


def groups_of(text):
    """The texts of the logic in code, each with the name of its ghost member, if it is one, and where it begins. What a
    member is stands behind its type."""
    for found in GROUP.finditer(text):
        start = found.end()
        while start:
            end = group_end(text, start)
            yield found[1] or '', found.start(), text[start + 1:end]
            start = end + 4 if text[end + 1:end + 5] == ' = {' else None


class Code:
    """A file of code."""

    def __init__(self, world, crate, path, text):
        self.world, self.crate, self.path, self.lines = world, crate, path, text.split('\n')
        self.imports, self.uses, self.types, self.models = {}, {}, {}, {}
        self.functions = {}  # public ones by their names, those of a type as TYPE::FUNCTION
        for indent, said in GHOST_USE.findall(text):
            self.imports.update({} if indent else imports_of(said))
        for said in USE.findall(text):
            self.uses.update((name, (crate, *path[1:]) if path[0] == 'crate' else path)
                             for name, path in paths_in(said).items())
        for at, line in enumerate(self.lines):
            self.read(at, line)

    def read(self, at, line):
        """Reads what begins with a line."""
        declares, models, own = TYPE.match(line), MODEL.match(line), OWN.match(line)
        if declares:
            kind, name = declares.groups()
            self.types[name] = Type(self, at, self.end_of(at, kind), name, kind)
        elif models:
            self.models[models[1]] = Block(self, at, self.end_of(at, 'impl'))
        elif own:
            self.add_functions(own[1] + '::', Block(self, at, self.end_of(at, 'impl')))
        elif FUNCTION.match(line) and line[0] != ' ':
            self.add_functions('', Block(self, at, at))

    def add_functions(self, before, block):
        self.functions.update((before + each.name, each) for each in block.functions() if each.is_public)

    def end_of(self, start, kind):
        """The last line of an item that begins with a line."""
        for at in range(start, len(self.lines)):
            line = self.lines[at]
            is_whole = line.endswith((';', '}')) if at == start else kind == 'type' and line.endswith(';')
            if is_whole or line.startswith((')', '}')):
                return at
        raise Fault('%s:%d: no end is found' % (self.path, start + 1))

    def type_at(self, path):
        """The type that a path of code leads to. None: it is the library's, or a parameter."""
        first, *rest = path.split('::')
        if not rest and first in self.types:
            return self.types[first]
        whole = (self.crate,) if first == 'crate' else self.uses.get(first, (first,))
        return self.world.type_by((*whole, *rest))

    def types_in(self, text):
        """The types of ours that code names."""
        found = map(self.type_at, PATH.findall(text))
        return list(dict.fromkeys(each for each in found if each))

    def resolve(self, imports, token):
        """What a name of the logic leads to. A type of the code is known by its name too, and its variants behind it."""
        head, *rest = token.text.split('.')
        if head in imports or head in PRELUDE:
            return self.world.resolve(imports, token, self.path) if head in imports else []
        declared = self.type_at(head)
        if not declared:
            return self.world.resolve(imports, token, self.path)
        return [Part(declared, FIELDS, False)] if rest else declared.parts(False)


@dataclass(eq=False)
class Block:
    """Lines of a file of code, from one to another, counted from 0."""
    code: Code
    start: int
    end: int

    @property
    def whole(self):
        return '\n'.join(self.code.lines[self.start:self.end + 1]) + '\n'

    @property
    def lines(self):
        """The lines, without comments, attributes and uses of the logic."""
        return [re.sub(r' +// .*', '', line) for line in GHOST_USE.sub('', self.whole).split('\n')
                if line and not PASSED_OVER.match(line)]

    @property
    def text(self):
        return '\n'.join(self.lines)

    @property
    def comments(self):
        """How many lines of comments stand in it, and in front of it."""
        lines, first = self.code.lines, self.start
        while first and PASSED_OVER.match(lines[first - 1]):
            first -= 1
        return sum(line.lstrip().startswith('//') for line in lines[first:self.end + 1])

    def targets(self, text, bound):
        """What a text of the logic uses here."""
        imports = dict(self.code.imports)
        for _, said in GHOST_USE.findall(self.whole):
            imports.update(imports_of(said))
        for token in Scan(tokens_of((self.start + 1, line) for line in text.split('\n')), bound).used:
            yield from self.code.resolve(imports, token)

    def functions(self):
        """The functions that stand in it."""
        for at in range(self.start, self.end + 1):
            found = FUNCTION.match(self.code.lines[at])
            if found:
                yield Function(self.code, at, self.head_end(at, found[1]), found[3], bool(found[2]), self)

    def head_end(self, start, indent):
        """The last line of a function's head."""
        depth = 0  # of braces, in clauses
        for at in range(start, len(self.code.lines)):
            line = self.code.lines[at]
            if depth == 0 and line in (indent + '{', indent + '{}'):
                return at - 1
            if depth == 0 and not GROUP.search(line) and line.endswith((';', ' {', ' {}')):
                return at
            depth += line.count('{') - line.count('}')
            if depth == 0 and line.endswith(';'):
                return at
        raise Fault('%s:%d: no end is found' % (self.code.path, start + 1))


@dataclass(eq=False)
class Function(Block):
    """The head of a function: what it takes and gives, and its clauses. It stands in a block."""
    name: str
    is_public: bool
    inside: Block

    def signature(self):
        """Its code before the clauses, and the head of its block, which says what `Self` is."""
        text = self.text
        start = next((start for _, start, _ in groups_of(text)), len(text))
        return self.inside.lines[0] + ' ' + text[:start]

    def uses(self, bound=BOUND):
        """What its clauses use, and the types of what it takes and gives."""
        signature = self.signature()
        bound = bound.union(*PARAMETER.findall(signature))
        for _, _, text in groups_of(self.text):
            yield from self.inside.targets(text, bound)
        for each in self.code.types_in(signature):
            yield from each.parts(True)


@dataclass(eq=False)
class Type(Block):
    """A type or a trait."""
    name: str
    kind: str

    @property
    def crate(self):
        return self.code.crate

    @property
    def path(self):
        return self.code.path

    @property
    def line(self):
        return self.start + 1

    @property
    def model(self):
        return self.code.models.get(self.name)

    def member(self, name):
        """The text of a member that says what the logic sees of it, or None."""
        return next((text for member, _, text in groups_of(self.model.text) if member == name), None)

    def parts(self, is_held):
        """What of it counts: in a text of the logic, or where it is held in memory."""
        if self.kind == 'trait':
            return [Part(self, FIELDS, True)] if is_held and GROUP.search(self.text) else []
        if not self.model:
            return [Part(self, FIELDS, is_held)]
        members = [name for name in (VIEW, INVARIANT) if is_held and self.member(name) is not None]
        return [Part(self, VALUE, False), *(Part(self, name, True) for name in [*members, *[FIELDS][:is_held]])]

    def trait_uses(self, bound):
        """What the members and the clauses of a trait use, the traits above it, and the types of what its functions
        with clauses take and give."""
        members = [(name, text) for name, _, text in groups_of(self.text) if name]
        bound = bound.union(name for name, _ in members)
        for _, text in members:
            yield from self.targets(text, bound)
        for each in self.code.types_in(self.lines[0]):
            yield from each.parts(True)
        for function in self.functions():
            yield from function.uses(bound) if GROUP.search(function.text) else []


@dataclass(frozen=True)
class Part:
    """What of a type counts."""
    type: Type
    name: str
    is_held: bool

    @property
    def size(self):
        """Its lines, without comments."""
        return len(self.type.lines) if self.name == FIELDS else self.type.member(self.name).count('\n') + 1

    @property
    def comments(self):
        """How many lines of comments are about it."""
        return self.type.comments if self.name == FIELDS else 0

    def uses(self):
        """What it uses: definitions, parts of types, and imports of the library."""
        bound = BOUND.union(*PARAMETER.findall(self.type.lines[0]))
        if self.name != FIELDS:
            yield from self.type.model.targets(self.type.member(self.name), bound)
        elif self.type.kind == 'trait':
            yield from self.type.trait_uses(bound)
        else:
            text = VARIANT.sub('', self.type.text) if self.type.kind == 'enum' else self.type.text
            for each in self.type.code.types_in(text):
                yield from each.parts(self.is_held)
