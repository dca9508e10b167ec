"""Reads class files: names, fields, methods with their code, and the pool's entries as far as they can be used.

Names and types are checked where they are read: they are those that a source of Java can have. So they hold no blank,
no control character, and nothing that can't be printed, and stand as words in the texts that are written of them.
"""
import re
import unicodedata
from bisect import bisect_right
from dataclasses import dataclass, field

from common import Fault, shown

PUBLIC, PRIVATE, PROTECTED, STATIC, FINAL, SYNCHRONIZED = 1, 2, 4, 8, 0x10, 0x20
NATIVE, INTERFACE, ABSTRACT, SYNTHETIC = 0x100, 0x200, 0x400, 0x1000

# How many bytes stand behind the tag of an entry that isn't a text, and words for constants that the profile can't use.
SIZES = {3: 4, 4: 4, 5: 8, 6: 8, 7: 2, 8: 2, 9: 4, 10: 4, 11: 4, 12: 4, 15: 3, 16: 2, 17: 4, 18: 4, 19: 2, 20: 2}
WORDS = {4: 'the type float', 5: 'the type long', 6: 'the type double', 8: 'a constant of type String'}


# General categories of characters: the first of a name in Java, and those behind it. Java allows some that can't be
# seen, and these are refused.
LETTERS = {'Lu', 'Ll', 'Lt', 'Lm', 'Lo', 'Nl', 'Sc', 'Pc'}
FURTHER = {*LETTERS, 'Nd', 'Mn', 'Mc'}
METHODS = '<init>', '<clinit>'  # names that aren't Java's own
NO_CLASSES = 'package-info', 'module-info'  # the same of class files
ONE_TYPE = re.compile(r'\[*(?:[ZBSIJFDC]|L([^;\[]+);)')
MOST_PARAMETERS = 255
MOST_DIMENSIONS = 255


class Refusal(Fault):
    """What is wrong, and in which class, method and line, as far as that is known."""

    def __init__(self, text, place=None):
        super().__init__(text)
        self.text, self.place = text, place

    def __str__(self):
        return '%s: %s' % (self.place, self.text) if self.place else self.text


def is_name(text):
    """Whether a text is a name in Java."""
    kinds = [unicodedata.category(char) for char in text]
    return bool(kinds) and kinds[0] in LETTERS and FURTHER.issuperset(kinds) and shown(text) == text


def is_method_name(text):
    return text in METHODS or is_name(text)


def is_class_name(text):
    """Whether a text is the name of a class, with its package, as class files have it."""
    *packages, name = text.split('/')
    return all(map(is_name, packages)) and (is_name(name) or name in NO_CLASSES)


def is_type(text):
    """Whether a text is the type of a field."""
    found = ONE_TYPE.fullmatch(text)
    return bool(found) and text.count('[') <= MOST_DIMENSIONS and (found[1] is None or is_class_name(found[1]))


def is_method_type(text):
    """Whether a text is the type of a method."""
    taken, is_closed, given = text[1:].partition(')')
    parts = [found[0] for found in ONE_TYPE.finditer(taken)]
    is_whole = text.startswith('(') and is_closed and ''.join(parts) == taken and len(parts) <= MOST_PARAMETERS
    return bool(is_whole) and all(map(is_type, parts)) and (given == 'V' or is_type(given))


def is_any_type(text):
    return is_method_type(text) if text.startswith('(') else is_type(text)


class Refusals(Exception):
    """All that is wrong with something: `all` has a Refusal for each place."""

    def __init__(self, found):
        super().__init__(found)
        self.all = found


@dataclass(frozen=True)
class Reference:
    """A member as code names it."""
    of: str
    name: str
    type: str


@dataclass
class Code:
    """A method's code. Handlers have four parts each: start, end, where they go on, and the class or None. Lines are
    pairs of a place and a line from there on, in order."""
    bytes: bytes
    locals: int
    handlers: list
    lines: list = field(default_factory=list)

    def line(self, at):
        """The line of the instruction at a place, or None where the file doesn't say it."""
        number = bisect_right(self.lines, (at, 1 << 16))
        return self.lines[number - 1][1] if number else None


@dataclass
class Member:
    """A field or a method."""
    flags: int
    name: str
    type: str
    code: Code = None
    is_constant: bool = False

    def has(self, flag):
        return bool(self.flags & flag)

    @property
    def key(self):
        return self.name, self.type

    @property
    def is_virtual(self):
        """Whether calls look it up from the object's class."""
        return not self.has(STATIC | PRIVATE) and self.name != '<init>'


@dataclass
class ClassFile:
    name: str
    above: str
    interfaces: list
    flags: int
    fields: list
    methods: list
    pool: object
    source: str = None

    def has(self, flag):
        return bool(self.flags & flag)


class Bytes:
    """Bytes that are read from the front."""

    def __init__(self, content):
        self.content, self.at = content, 0

    def take(self, count):
        if self.at + count > len(self.content):
            raise Refusal('it is cut off')
        self.at += count
        return self.content[self.at - count:self.at]

    def number(self, count):
        return int.from_bytes(self.take(count), 'big')


class Pool:
    """The constant pool of a class file."""

    def __init__(self, source):
        self.entries, self.checked = [None], set()
        count = source.number(2)
        while len(self.entries) < count:
            tag = source.number(1)
            if tag != 1 and tag not in SIZES:
                raise Refusal('its constant pool has an entry that is none')
            self.entries.append((tag, source.take(source.number(2) if tag == 1 else SIZES[tag])))
            if tag in (5, 6):
                self.entries.append(None)

    def bytes_of(self, index, *tags):
        entry = self.entries[index] if index < len(self.entries) else None
        if entry is None or entry[0] not in tags:
            raise Refusal('an entry of its constant pool isn\'t what it has to be')
        return entry[1]

    def pair(self, index, *tags):
        content = self.bytes_of(index, *tags)
        return int.from_bytes(content[:2], 'big'), int.from_bytes(content[2:], 'big')

    def text(self, index):
        return self.bytes_of(index, 1).decode('utf-8', 'replace')

    def checked_text(self, index, is_right, what):
        """A text that has to be a name or a type."""
        text = self.text(index)
        if (text, what) not in self.checked and not is_right(text):
            raise Refusal('%s isn\'t %s in Java' % (text or 'an empty text', what))
        self.checked.add((text, what))
        return text

    def member_name(self, index):
        return self.checked_text(index, is_method_name, 'the name of a member')

    def type(self, index):
        return self.checked_text(index, is_any_type, 'a type')

    def class_name(self, index):
        return self.checked_text(int.from_bytes(self.bytes_of(index, 7), 'big'), is_class_name, 'the name of a class')

    def class_or_array(self, index):
        """The name of a class, or the type of an array."""
        named = int.from_bytes(self.bytes_of(index, 7), 'big')
        return self.type(named) if self.text(named).startswith('[') else self.class_name(index)

    def member(self, index):
        of, named = self.pair(index, 9, 10, 11)
        name, kind = self.pair(named, 12)
        name, kind = self.member_name(name), self.type(kind)
        if self.entries[index][0] == 9 and kind.startswith('(') or self.entries[index][0] != 9 and kind[0] != '(':
            raise Refusal('an entry of its constant pool isn\'t what it has to be')
        return Reference(self.class_or_array(of), name, type_of_access(name, kind))

    def constant(self, index):
        """The number of a constant that code pushes; of another one a word for it."""
        entry = self.entries[index] if index < len(self.entries) else None
        if entry is None:
            raise Refusal('an entry of its constant pool isn\'t what it has to be')
        tag = entry[0]
        if tag != 3:
            return WORDS.get(tag, 'a constant of type Class')
        return int.from_bytes(self.bytes_of(index, 3), 'big', signed=True)

    def type_of_dynamic(self, index):
        """The type of what invokedynamic calls."""
        _, named = self.pair(index, 18)
        return self.type(self.pair(named, 12)[1])


def attributes(source, pool):
    """Attributes by their names."""
    found = {}
    for _ in range(source.number(2)):
        name = pool.text(source.number(2))
        found.setdefault(name, []).append(source.take(source.number(4)))
    return found


def read_code(content, pool):
    source = Bytes(content)
    source.number(2)
    count = source.number(2)
    code = Code(source.take(source.number(4)), count, [])
    for _ in range(source.number(2)):
        start, end, at, caught = (source.number(2) for _ in range(4))
        code.handlers.append((start, end, at, pool.class_name(caught) if caught else None))
    for table in attributes(source, pool).get('LineNumberTable', []):
        rows = Bytes(table)
        code.lines += [(rows.number(2), rows.number(2)) for _ in range(rows.number(2))]
    code.lines.sort()
    return code


def read_member(source, pool):
    member = Member(source.number(2), pool.member_name(source.number(2)), pool.type(source.number(2)))
    if member.has(SYNTHETIC) and member.has(STATIC):
        member.type = type_of_access(member.name, member.type)
    found = attributes(source, pool)
    member.is_constant = 'ConstantValue' in found
    if 'Code' in found:
        member.code = read_code(found['Code'][0], pool)
    return member


def read_members(source, pool, is_right, word):
    """All fields of a class, or all methods."""
    found = {}
    for _ in range(source.number(2)):
        member = read_member(source, pool)
        if not is_right(member.type) or member.key in found:
            raise Refusal('the %s %s %s' % (word, member.name, 'is there twice' if member.key in found else
                                            'has a type that isn\'t a %s\'s' % word))
        found[member.key] = member
    return list(found.values())


def check_method(method):
    """Refuses a method that is abstract and can't be, one that has no code and has to, and what no constructor and no
    initialiser can be."""
    if method.has(ABSTRACT) and (method.code or method.has(STATIC | PRIVATE) or method.name in METHODS):
        raise Refusal('the method %s can\'t be abstract' % method.name)
    if not method.code and not method.has(ABSTRACT | NATIVE):
        raise Refusal('the method %s has no code' % method.name)
    if method.name in METHODS and (method.has(STATIC) != (method.name == '<clinit>') or result(method.type) != 'V'):
        raise Refusal('the method %s isn\'t as a compiler writes it' % method.name)


def read_class(content):
    """The class of a class file's bytes."""
    source = Bytes(content)
    if source.number(4) != 0xCAFEBABE:
        raise Refusal('it is no class file')
    source.number(4)
    pool = Pool(source)
    flags, name, above = source.number(2), pool.class_name(source.number(2)), pool.class_name(source.number(2))
    interfaces = [pool.class_name(source.number(2)) for _ in range(source.number(2))]
    fields = read_members(source, pool, is_type, 'field')
    methods = read_members(source, pool, is_method_type, 'method')
    for method in methods:
        check_method(method)
    named = attributes(source, pool).get('SourceFile')
    text = pool.text(int.from_bytes(named[0], 'big')) if named else None
    return ClassFile(name, above, interfaces, flags, fields, methods, pool, text)


def with_line(name, line):
    """How a place is named: the line stands behind where it is known."""
    return '%s, line %d' % (name, line) if line else name


def parameters(kind):
    """The types of the parameters of a method's type."""
    found, at = [], 1
    while kind[at] != ')':
        end = at
        while kind[end] == '[':
            end += 1
        end = kind.index(';', end) + 1 if kind[end] == 'L' else end + 1
        found.append(kind[at:end])
        at = end
    return found


def result(kind):
    return kind.partition(')')[2]


def words_of(kind):
    """How many words a type takes in the class file's machine."""
    return 0 if kind == 'V' else 2 if kind in 'JD' else 1


def type_of_access(name, kind):
    """The type of a method by which a class reaches a private field of another one (javac --release 8). What it adds to
    the field, or takes from it, is an int there. It counts as a short, so what is handed over has to lie within one."""
    if not re.fullmatch(r'access\$\d+', name) or not kind.startswith('('):
        return kind
    taken = ['S' if part == 'I' else part for part in parameters(kind)]
    return '(%s)%s' % (''.join(taken), result(kind))
