"""A package as it stands in a folder of component files, as far as tools read it (docs/profile/files.md)."""
from common import Fault, shown, system_words
from layout import Bytes

import os
import stat
from dataclasses import dataclass

# The components of a CAP file in the standard's order, each with its tag.
TAGS = {'Header.cap': 1, 'Directory.cap': 2, 'Import.cap': 4, 'Applet.cap': 3, 'Class.cap': 6, 'Method.cap': 7,
        'StaticField.cap': 8, 'Export.cap': 10, 'ConstantPool.cap': 5, 'RefLocation.cap': 9, 'Descriptor.cap': 11}
MAGIC = bytes.fromhex('DECAFFED')
HEAD = 3  # bytes of a tag and a size
MOST = HEAD + 0xFFFF
INTERFACE = 0x80


@dataclass(frozen=True)
class Named:
    """A package as Header and Import name it."""
    aid: bytes
    version: tuple

    def __str__(self):
        return '%s %d.%d' % (self.aid.hex().upper(), *self.version)


@dataclass
class ExportRow:
    """A class that other packages see, and the offsets of its static members by their tokens."""
    offset: int
    fields: list
    methods: list


@dataclass
class MethodRow:
    """A method of a class, as the Descriptor has it."""
    of: int
    token: int
    flags: int
    offset: int


def content_of(path):
    """The bytes of a component file, or None where there is none."""
    try:
        if not stat.S_ISREG(os.stat(path).st_mode):
            raise Fault('%s: it is no regular file' % shown(path))
        with open(path, 'rb') as file:
            return file.read(MOST + 1)
    except FileNotFoundError:
        return None
    except OSError as error:
        raise Fault(system_words(error, path)) from None


def next_named(info):
    """The package that comes next: its minor and its major version, and its AID."""
    minor, major = info.number(1), info.number(1)
    return Named(info.take(info.number(1)), (major, minor))


class Package:
    """The files of a package's components, by their names. Each is read further where it is asked for."""

    def __init__(self, folder):
        self.folder = folder
        if not os.path.isdir(folder):
            os.stat(folder)  # tells what isn't there
            raise Fault('%s: it isn\'t a folder' % shown(folder))
        contents = {name: content_of(self.path(name)) for name in TAGS}
        self.files = {name: content for name, content in contents.items() if content is not None}
        for name, content in self.files.items():
            self.check(name, content)

    def path(self, name):
        return os.path.join(self.folder, name)

    def check(self, name, content):
        """Refuses a file that isn't one component, by its tag and its size."""
        size = int.from_bytes(content[1:HEAD], 'big')
        if len(content) < HEAD or content[0] != TAGS[name] or size != len(content) - HEAD:
            words = '%s: it isn\'t this component: tag %d and a size have to stand in front of so many bytes'
            raise Fault(words % (shown(self.path(name)), TAGS[name]))

    def info(self, name):
        """The bytes of a component behind its tag and its size."""
        if name not in self.files:
            raise Fault('%s: there is no %s in it' % (shown(self.folder), name))
        return Bytes(self.files[name][HEAD:])

    def of(self, name, read):
        """What is read of a component's bytes."""
        info = self.info(name)
        try:
            return read(info)
        except Fault as fault:
            raise Fault('%s: %s' % (shown(self.path(name)), fault)) from None

    def header(self):
        """The format, as major and minor, and the package itself."""
        def read(info):
            if info.take(4) != MAGIC:
                raise Fault('it doesn\'t begin with DECAFFED')
            minor, major, _ = info.take(3)
            return (major, minor), next_named(info)
        return self.of('Header.cap', read)

    def imports(self):
        """The packages that it imports, by their tokens."""
        if 'Import.cap' not in self.files:
            return []
        return self.of('Import.cap', lambda info: [next_named(info) for _ in range(info.number(1))])

    def applets(self):
        """The AIDs of its applets."""
        def row(info):
            aid = info.take(info.number(1))
            info.take(2)
            return aid
        if 'Applet.cap' not in self.files:
            return []
        return self.of('Applet.cap', lambda info: [row(info) for _ in range(info.number(1))])

    def entries(self):
        """The entries of the constant pool: a tag and three bytes each."""
        return self.of('ConstantPool.cap', lambda info: [info.take(4) for _ in range(info.number(2))])

    def exported(self):
        """The rows of the classes that other packages see, by their tokens."""
        def row(info):
            offset, fields, methods = info.number(2), info.number(1), info.number(1)
            numbers = [info.number(2) for _ in range(fields + methods)]
            return ExportRow(offset, numbers[:fields], numbers[fields:])
        if 'Export.cap' not in self.files:
            return []
        return self.of('Export.cap', lambda info: [row(info) for _ in range(info.number(1))])

    def methods(self):
        """The rows of the methods of classes and interfaces."""
        def rows(info):
            _, _, of = info.number(1), info.number(1), info.number(2)
            interfaces, fields, methods = info.number(1), info.number(2), info.number(2)
            info.take(2 * interfaces + 7 * fields)
            for _ in range(methods):
                yield MethodRow(of, info.number(1), info.number(1), info.number(2))
                info.take(8)
        return self.of('Descriptor.cap', lambda info: [one for _ in range(info.number(1)) for one in rows(info)])

    def above(self, offset):
        """The two bytes that name the class above the one at an offset, or None where that is no class's record."""
        record = self.info('Class.cap').content[offset:offset + 3]
        if len(record) < 3 or record[0] & INTERFACE:
            return None
        return int.from_bytes(record[1:], 'big')

    def arrays(self):
        """Of the static image: its bytes, and the count and the bytes of its arrays with values."""
        def read(info):
            size, _, count = info.number(2), info.number(2), info.number(2)
            sizes = []
            for _ in range(count):
                info.take(1)
                sizes.append(len(info.take(info.number(2))))
            return size, count, sum(sizes)
        return self.of('StaticField.cap', read)
