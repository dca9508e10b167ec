"""Reads export files (.exp), which vendors' converters write of a package.

Their layout is that of the Virtual Machine Specification of Java Card, formats 2.1 to 2.3. Format 2.3 may list the
packages that a package refers to, and end a class with a count of method tokens: each is tried with and without, and
what fits up to the file's end is taken.
"""
from common import Fault, shown
from layout import Bytes

MAGIC = bytes.fromhex('00FACADE')
# By formats: whether packages that are referred to are listed, and whether a class ends with a count of tokens.
FORMS = {
    (2, 1): [(False, False)], (2, 2): [(False, False)],
    (2, 3): [(True, True), (True, False), (False, True), (False, False)],
}
UTF8, INTEGER, CLASS, PACKAGE = 1, 3, 7, 13  # tags of the constant pool
STATIC = 8


def dotted(name):
    return shown(name.replace('/', '.'))


class ExportFile:
    """The package of an export file: its name, AID and version; tokens of its classes by their names; the class above
    each, or None; tokens of their methods, by class, name and type, each with whether it is virtual; and those of their
    fields in the same way, each with whether it is one of objects."""

    def __init__(self, content, lists_packages, counts_tokens):
        self.classes, self.above, self.methods, self.fields = {}, {}, {}, {}
        self.counts_tokens = counts_tokens
        self.bytes = Bytes(content)
        self.bytes.take(6)
        self.pool = [self.entry() for _ in range(self.bytes.number(2))]
        self.name, self.aid, self.version = self.package(self.bytes.number(2))
        for _ in range(self.bytes.number(1) if lists_packages else 0):
            self.package(self.bytes.number(2))
        for _ in range(self.bytes.number(1)):
            self.read_class()
        if self.bytes.at < len(content):
            raise Fault('it has %d bytes behind its end' % (len(content) - self.bytes.at))

    # The constant pool

    def entry(self):
        """An entry of the pool: its tag, and what stands in it."""
        place, tag = self.bytes.at, self.bytes.number(1)
        if tag == UTF8:
            text = self.bytes.take(self.bytes.number(2))
            return tag, text
        if tag == INTEGER:
            return tag, self.bytes.number(4)
        if tag == CLASS:
            return tag, self.bytes.number(2)
        if tag != PACKAGE:
            raise Fault('at byte %d is no entry of a constant pool: tag %d' % (place, tag))
        self.bytes.take(1)
        name, minor, major = self.bytes.number(2), self.bytes.number(1), self.bytes.number(1)
        return tag, (name, self.bytes.take(self.bytes.number(1)), (major, minor))

    def of_pool(self, index, tag, what):
        if index >= len(self.pool) or self.pool[index][0] != tag:
            raise Fault('entry %d of its constant pool isn\'t %s' % (index, what))
        return self.pool[index][1]

    def text(self, index):
        try:
            return self.of_pool(index, UTF8, 'a text').decode('utf-8')
        except UnicodeDecodeError:
            raise Fault('entry %d of its constant pool isn\'t UTF-8' % index) from None

    def class_name(self, index):
        return self.text(self.of_pool(index, CLASS, 'a class'))

    def package(self, index):
        """Name, AID and version of a package."""
        name, aid, version = self.of_pool(index, PACKAGE, 'a package')
        if not 5 <= len(aid) <= 16:
            raise Fault('an AID in it has %d bytes, and not 5 to 16' % len(aid))
        return self.text(name), aid, version

    # Classes

    def read_class(self):
        token = self.bytes.number(1)
        self.bytes.take(2)
        name = self.class_name(self.bytes.number(2))
        if name in self.classes:
            raise Fault('%s stands in it twice' % dotted(name))
        self.classes[name] = token
        above, _ = [self.class_names(size) for size in (2, 1)]  # superclasses, the next one first, and interfaces
        self.above[name] = above[0] if above else None
        for _ in range(self.bytes.number(2)):
            self.read_field(name)
        for _ in range(self.bytes.number(2)):
            self.read_method(name)
        self.bytes.take(1 if self.counts_tokens else 0)

    def class_names(self, size):
        """The names of classes, behind their count."""
        return [self.class_name(self.bytes.number(2)) for _ in range(self.bytes.number(size))]

    def read_field(self, of):
        token, flags = self.bytes.number(1), self.bytes.number(2)
        name, kind = self.text(self.bytes.number(2)), self.text(self.bytes.number(2))
        self.fields[of, name, kind] = token, not flags & STATIC
        for _ in range(self.bytes.number(2)):
            self.text(self.bytes.number(2))
            self.bytes.take(self.bytes.number(4))

    def read_method(self, of):
        token, flags = self.bytes.number(1), self.bytes.number(2)
        name, kind = self.text(self.bytes.number(2)), self.text(self.bytes.number(2))
        if (of, name, kind) in self.methods:
            raise Fault('%s has %s%s twice' % (dotted(of), shown(name), shown(kind)))
        self.methods[of, name, kind] = token, not flags & STATIC and name != '<init>'


def export_file(content):
    """The export file of these bytes. Where no form fits, the fault of the first one is told."""
    if content[:4] != MAGIC:
        raise Fault('it is no export file: it doesn\'t begin with 00FACADE')
    *_, minor, major = Bytes(content).take(6)
    faults = []
    for form in FORMS.get((major, minor), []):
        try:
            return ExportFile(content, *form)
        except Fault as fault:
            faults.append(fault)
    raise faults[0] if faults else Fault('its format %d.%d is none of 2.1 to 2.3' % (major, minor))
