"""Writes export files of the API's packages, byte by byte, by the layout of the Virtual Machine Specification of Java
Card (The Export File Format). What stands in them is the table of docs/profile/binding.md, and some more, as vendors'
files have it. tests/tools uses it."""
import os
import re
from struct import pack

PAGE = os.path.join(os.path.dirname(os.path.dirname(os.path.abspath(__file__))), 'docs', 'profile', 'binding.md')
LANG, FRAMEWORK = 'java/lang', 'javacard/framework'
IN_LANG = 12
TYPES = {'byte': 'B', 'short': 'S', 'boolean': 'Z', 'void': 'V', '': 'V'}
UTF8, INTEGER, CLASS, PACKAGE = 1, 3, 7, 13
PUBLIC, STATIC, INTERFACE, ABSTRACT = 1, 8, 0x200, 0x400


def rows(pattern):
    with open(PAGE, encoding='utf-8') as file:
        return [found.groups() for found in map(re.compile(pattern).match, file) if found]


def class_rows():
    """Classes in the order of their numbers, each with the class above, or '': whole names."""
    found = []
    for numbers, names, above in rows(r'\| ([\d, ]+) \| (\w+(?:, \w+)*) \| (\w*) ?\|'):
        found += zip(map(int, numbers.split(', ')), names.split(', '), [above] * 30)
    names = {name: '%s/%s' % (LANG if number <= IN_LANG else FRAMEWORK, name) for number, name, _ in found}
    return [(names[name], names.get(above, '')) for _, name, above in sorted(found)]


def member_rows():
    """Members in the order of their numbers: the class, the name, its type in a class file's form, what it is, and its
    default token."""
    full = {name.rpartition('/')[2]: name for name, _ in class_rows()}

    def type_of(word):
        name = word.strip().removesuffix('[]')
        return '[' * word.count('[') + (TYPES[name] if name in TYPES else 'L%s;' % full[name])

    pattern = r'\| \d+ \| (\w+) \| (\w+)\((.*?)\) ?(.*?) \| (\w+).*? \| (\d+) \|'
    for of, name, takes, gives, what, token in rows(pattern):
        kind = '(%s)%s' % (''.join(type_of(word) for word in takes.split(',') if word), type_of(gives))
        yield full[of], '<init>' if what == 'constructor' else name, kind, what, int(token)


class ExportFile:
    """The export file of a package. Tokens are the default ones and `more`, but for some other ones, by names."""

    def __init__(self, package, aid, version, minor):
        self.package, self.minor, self.pool = package, minor, []
        self.more, self.other = 0, {}
        self.this = self.entry(pack('>BBHBBB', PACKAGE, 0, self.text(package), version[1], version[0], len(aid)) + aid)

    def entry(self, content):
        if content not in self.pool:
            self.pool.append(content)
        return self.pool.index(content)

    def text(self, text):
        return self.entry(pack('>BH', UTF8, len(text)) + text.encode())

    def of_class(self, name):
        return self.entry(pack('>BH', CLASS, self.text(name)))

    def constant(self, token, name, value):
        """A field with its constant value."""
        attribute = pack('>HIH', self.text('ConstantValue'), 2, self.entry(pack('>Bi', INTEGER, value)))
        return pack('>BHHHH', token, PUBLIC | STATIC | 0x10, self.text(name), self.text('S'), 1) + attribute

    def method(self, of, name, kind, what, token):
        flags = PUBLIC | (STATIC if what == 'static' else 0)
        token = self.other.get('%s.%s' % (of, name), token + self.more)
        return pack('>BHHH', token, flags, self.text(name), self.text(kind))

    def class_info(self, token, name, above, fields=(), methods=(), flags=PUBLIC):
        """A class with the classes above it, the next one first."""
        token = self.other.get(name, token + self.more)
        supers = b''.join(pack('>H', self.of_class(one)) for one in above)
        interfaces = pack('>BH', 1, self.of_class('javacard/framework/Shareable')) if name.endswith('PIN') else bytes(1)
        return (pack('>BHHH', token, flags, self.of_class(name), len(above)) + supers + interfaces
                + pack('>H', len(fields)) + b''.join(fields) + pack('>H', len(methods)) + b''.join(methods)
                + (bytes([1]) if self.minor == 3 else b''))

    def classes(self, left_out):
        """The classes of the package; methods of classes above are a class's too. Some are left out."""
        above, members = dict(class_rows()), list(member_rows())
        for token, name in enumerate([name for name in above if name.startswith(self.package + '/')]):
            chain = [name]
            while above[chain[-1]]:
                chain.append(above[chain[-1]])
            methods = [row for row in members if row[0] == name or row[0] in chain and row[3] == 'virtual']
            texts = [self.method(*row) for row in methods if '%s.%s' % row[:2] not in left_out]
            if name not in left_out:
                flags = PUBLIC | (INTERFACE | ABSTRACT if name.endswith('/Shareable') else 0)
                yield self.class_info(token, name, chain[1:], [self.constant(0xFF, 'NONE', 0)], texts, flags)

    def whole(self, left_out):
        """Its bytes."""
        classes = list(self.classes(left_out))
        if self.package == FRAMEWORK:
            codes, flags = [self.constant(0xFF, 'SW_%d' % at, 0x6700 + at) for at in range(3)], INTERFACE | ABSTRACT
            classes += [self.class_info(100, 'javacard/framework/ISO7816', (), codes, (), PUBLIC | flags),
                        self.class_info(101, 'javacard/framework/OwnerPIN', ['java/lang/Object'])]
        others = b''
        if self.minor == 3:
            other = pack('>BBHBBB', PACKAGE, 0, self.text('java/io'), 0, 1, 5) + bytes(5)
            others = pack('>BH', 1, self.entry(other))
        pool = pack('>H', len(self.pool)) + b''.join(self.pool)
        head = bytes.fromhex('00FACADE') + bytes([self.minor, 2])
        return head + pool + pack('>H', self.this) + others + bytes([len(classes)]) + b''.join(classes)


def export_file(package, form, aid, version, more, *words):
    """The bytes of an export file: the package's name, the format, AID and version, and what is added to tokens. A word
    NAME is a class or method that is left out, as java/lang/Throwable.<init>; one that is NAME=TOKEN has that token."""
    numbers = tuple(map(int, version.split('.')))
    other = {name: int(token) for name, _, token in (word.partition('=') for word in words) if token}
    file = ExportFile(package, bytes.fromhex(aid), numbers, int(form.partition('.')[2]))
    file.more, file.other = int(more), other
    return file.whole([word for word in words if '=' not in word])
