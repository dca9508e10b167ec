"""Reads a package that is written as text, line by line; tests/machine has such.

    import NAME                             a package of before, by its name; those of the API are imported anyway
    interface NAME below I, J               its methods follow, without code
    class NAME below ABOVE, 2 cells         the class above is Object where none is said; its members follow
    implements I 1 2                        an interface with virtual tokens
    table 1: first - third                  its public methods from a virtual token on; - is one of another package
    package table 0: hidden                 those that its package sees
    field NAME TYPE                         their tokens count from 0
    static field TYPE OFFSET
    method NAME(TYPE, TYPE) TYPE: CODE      where no type stands behind, nothing is given
    static method NAME() TYPE, stack 8, 2 locals: CODE | START to END: CLASS at LABEL, START to END: all at LABEL
    statics 1 4                             references in the static image, and other bytes behind them
    array TYPE HEX                          an initialised array, for the first reference that has none
    entry NAME: KIND WHAT TOKEN TYPE        of the constant pool; code goes by its name. `entry A` is the class A
    export NAME 0 2 METHOD                  a class, with the static fields at these offsets, and its static methods
    applet AID METHOD                       an applet and its install method

KIND is class, field, virtual, super, static field or static method. WHAT is a class, for a static field its offset and
for a static method its name, or for both a class of another package and a token. An entry states a type where one
stands behind: `short`, or `(short, A) short`. Classes of the API go by their names, those of an imported package by
`PACKAGE.CLASS`. CLASS of a handler is the name of an entry. CODE is as tests/assembler.py has it. The stack has room
for 4 where nothing is said.
"""
import re

from assembler import assemble
from packages import *

# The classes of the API in the order of their numbers.
NAMES = """
Object Throwable Exception RuntimeException ArithmeticException ArrayStoreException ClassCastException
IndexOutOfBoundsException ArrayIndexOutOfBoundsException NegativeArraySizeException NullPointerException
SecurityException Shareable CardRuntimeException ISOException SystemException APDUException AID APDU Applet JCSystem
Util
""".split()
API_CLASSES = {name: Imported(int(at >= 12), CLASS_TOKENS[at]) for at, name in enumerate(NAMES)}
KINDS = 'static field|static method|class|field|virtual|super'
KEYWORD = re.compile(r'((?:static |package )?\w+) (.*)')
CLASS = re.compile(r'(\w+)(?: below ([\w.]+))?(?:, (\d+) cells?)?')
METHOD = re.compile(r'([\w.]+)\((.*?)\) ?([\w.\[\]]*)(?:, stack (\d+))?(?:, (\d+) locals?)?(?:: (.*))?')
ENTRY = re.compile(r'([\w.]+)(?:: (%s) ([\w.]+)(?: (\d+))?(?: (.+))?)?' % KINDS)
HANDLER = re.compile(r'(\w+) to (\w+): ([\w.]+) at (\w+)')


class Mistake(Exception):
    """A line that says nothing."""


class Reader:
    """What was read of a package's lines."""

    def __init__(self, aid_of, before):
        self.package = Package(aid_of, imports=list(API))
        self.before = before  # packages by their names
        self.imported = {}  # their numbers by their names
        self.pool = []  # names of entries
        self.code = {}  # as text, by methods' names
        self.readers = {
            'import': self.imports, 'interface': self.interface, 'class': self.a_class, 'implements': self.implements,
            'table': self.table, 'package table': self.package_table, 'field': self.field,
            'static field': self.static_field, 'method': self.method, 'static method': self.static_method,
            'statics': self.statics, 'array': self.array, 'entry': self.entry, 'export': self.export,
            'applet': self.applet,
        }

    def read(self, line):
        word, rest = KEYWORD.fullmatch(line).groups()
        self.readers[word](rest)

    def of(self):
        """The class or interface that was begun last."""
        return self.package.classes[-1]

    # ---- types

    def class_of(self, word):
        at, point, name = word.partition('.')
        if point:
            exports = [export[0] for export in self.before[at].exports]
            return Imported(self.imported[at], exports.index(name))
        return API_CLASSES.get(word, word)

    def type_of(self, word):
        if word in NIBBLES:
            return word
        name = word.removesuffix('[]')
        return Reference(self.class_of(name), name != word)

    def types_of(self, words):
        return tuple(self.type_of(word.strip()) for word in words.split(',') if word.strip())

    def stated(self, text):
        """The type that an entry states: a field's, or what a method takes and gives."""
        if not text:
            return None
        if text.startswith('('):
            takes, gives = text[1:].split(')')
            return self.types_of(takes), self.type_of(gives.strip() or VOID)
        return self.type_of(text)

    # ---- classes and their fields

    def imports(self, name):
        self.imported[name] = len(self.package.imports)
        self.package.imports.append((self.before[name].aid, self.before[name].version))

    def interface(self, text):
        name, _, above = text.partition(' below ')
        interfaces = [(self.class_of(word), []) for word in above.split(', ') if word]
        self.package.classes.append(Class(name, interface=True, interfaces=interfaces))

    def a_class(self, text):
        name, above, cells = CLASS.fullmatch(text).groups()
        self.package.classes.append(Class(name, self.class_of(above or 'Object'), int(cells or 0)))

    def implements(self, text):
        name, *tokens = text.split()
        self.of().interfaces.append((self.class_of(name), [int(token) for token in tokens]))

    def table(self, text):
        base, names = text.split(':')
        self.of().public = Table([ABOVE if name == '-' else name for name in names.split()], int(base))

    def package_table(self, text):
        base, names = text.split(':')
        self.of().package = Table(names.split(), int(base))

    def field(self, text):
        _, kind = text.split()
        token = sum(field.offset is None for field in self.of().fields)
        self.of().fields.append(Field(self.type_of(kind), token=token))

    def static_field(self, text):
        kind, offset = text.split()
        self.of().fields.append(Field(self.type_of(kind), offset=int(offset)))

    def statics(self, text):
        references, others = text.split()
        self.package.statics.references, self.package.statics.defaults = int(references), int(others)

    def array(self, text):
        kind, content = text.split()
        self.package.statics.arrays.append((kind, bytes.fromhex(content)))

    def export(self, text):
        name, *words = text.split()
        offsets = [int(word) for word in words if word.isdigit()]
        self.package.exports.append((name, offsets, [word for word in words if not word.isdigit()]))

    def applet(self, text):
        aid, method = text.split()
        self.package.applets.append((bytes.fromhex(aid), method))

    # ---- the constant pool

    def static(self, what, token):
        """A static member: by a class of another package and a token, by its offset, or by its name."""
        if token:
            place = self.class_of(what)
            return place.package, place.token, int(token)
        return int(what) if what.isdigit() else what

    def entry(self, text):
        name, kind, what, token, stated = ENTRY.fullmatch(text).groups()
        if kind in (None, 'class'):
            made = Entry('class', self.class_of(what or name))
        elif kind.startswith('static'):
            made = Entry(kind, self.static(what, token), type=self.stated(stated))
        else:
            made = Entry(kind, self.class_of(what), int(token), self.stated(stated))
        self.pool.append(name)
        self.package.pool.append(made)

    # ---- methods

    def token(self, name):
        """A method's virtual token, or its number in its interface; 0 where it has none."""
        of = self.of()
        if of.interface:
            return len(of.methods)
        for table, least in (of.public, 0), (of.package, 128):
            if name in table.entries:
                return least + table.base + table.entries.index(name)
        return 0

    def method(self, text, static=False):
        name, takes, gives, stack, count, code = METHOD.fullmatch(text).groups()
        self.code[name] = code
        self.of().methods.append(Method(
            name, self.types_of(takes), self.type_of(gives or VOID), self.token(name), static,
            stack=int(stack or 4), locals=int(count or 0), flags=0,
        ))

    def static_method(self, text):
        self.method(text, static=True)

    def handlers(self, text, labels):
        for handler in text.split(', ') if text else []:
            start, end, caught, at = HANDLER.fullmatch(handler).groups()
            catches = 0 if caught == 'all' else self.pool.index(caught)
            yield Handler(labels[start], labels[end] - labels[start], labels[at], catches)

    def whole(self):
        """The package, its code assembled."""
        for m in [m for c in self.package.classes for m in c.methods if not c.interface]:
            code, _, handlers = self.code[m.name].partition(' | ')
            m.code, m.labels = assemble(code, self.pool)
            m.handlers = tuple(self.handlers(handlers, m.labels))
        return self.package


def described(aid_of, lines, before):
    """The package that lines describe, with packages before it by their names."""
    reader = Reader(aid_of, before)
    for line in lines:
        try:
            reader.read(line)
        except (AttributeError, KeyError, ValueError) as error:
            raise Mistake('%s (%s)' % (line, error)) from None
    return reader.whole()
