"""Names of what the entries of a constant pool name by offsets and tokens.

Names of other packages come from vendors' export files, from `exports.txt` of tools/convert, and from the API of this
card with its binding; those of the package itself from `exports.txt` and `lines.txt` in its folder.
"""
from common import Fault, content_within, shown
from converter.api import Binding, api_classes
from converter.classfile import Refusal
from converter.folder import LINES
from converter.lines import read_lines
from converter.world import EXPORTS, Known, Package, read_exports
from exportfile import dotted, export_file

import os
import stat

MOST_BYTES = 10_000_000
OUTSIDE = 0x80  # the bit of a class or a static member of another package
NO_CLASS = 0xFFFF
NOT_VIRTUAL = 0x88  # flags of a row of a method: static, and constructor
# By the tags of entries: what it is, and the table of a class that has its names and tokens.
KINDS = {1: ('class', None), 2: ('field', 'fields'), 3: ('virtual method', 'virtual'), 4: ('super method', 'virtual'),
         5: ('static field', 'static_fields'), 6: ('static method', 'static_methods')}


def read_of(path, read):
    """What is read of a file's bytes. A fault names the file."""
    content = content_within(path, MOST_BYTES)
    try:
        return read(content)
    except (Fault, Refusal) as fault:
        raise Fault('%s: %s' % (shown(path), fault)) from None
    except UnicodeDecodeError:
        raise Fault('%s: it is no text in UTF-8' % shown(path)) from None


def beside(folder, name):
    """The path of a regular file in a folder, or None."""
    path = os.path.join(folder, name)
    try:
        return path if stat.S_ISREG(os.stat(path).st_mode) else None
    except OSError:
        return None


def classes_of_export(content):
    """The classes of a vendor's export file."""
    file = export_file(content)
    package = Package(file.name, file.aid, file.version)
    known = {name: Known(name, file.above[name], package, token) for name, token in file.classes.items()}
    for (of, name, kind), (token, is_virtual) in file.methods.items():
        (known[of].virtual if is_virtual else known[of].static_methods)[name, kind] = token
    for (of, name, kind), (token, is_of_objects) in file.fields.items():
        (known[of].fields if is_of_objects else known[of].static_fields)[name, kind] = token
    return known


def member_name(of, name):
    """A member of a class."""
    return 'constructor of %s' % of if name == '<init>' else '%s.%s' % (of, name)


class Names:
    """The classes that have names, by the AIDs of their packages and their tokens. Of several the first counts."""

    def __init__(self):
        self.classes, self.by_name, self.packages = {}, {}, {}

    def add(self, known):
        for one in known.values():
            self.packages.setdefault(one.package.aid, one.package)
            self.classes.setdefault((one.package.aid, one.token), one)
            self.by_name.setdefault(one.name, one)

    def chain(self, known):
        """A class and those above it that have names, the nearest first."""
        seen = []
        while known is not None and known not in seen:
            seen.append(known)
            known = self.by_name.get(known.above)
        return seen

    def member(self, known, table, token):
        """The name of a member by its token, or None. Virtual ones may be of a class above."""
        for one in self.chain(known) if table == 'virtual' else [known]:
            name = next((name for (name, _), number in getattr(one, table).items() if number == token), None)
            if name is not None:
                return member_name(dotted(one.name), shown(name))
        return None

    def by_version(self, named):
        """What is said of the version that has the names, if it isn't the one that is named."""
        version = tuple(self.packages[named.aid].version)
        return '' if version == named.version else ', by version %d.%d' % version

    def of_package(self, named):
        """The name of a package, or None."""
        package = self.packages.get(named.aid)
        return package and dotted(package.name) + self.by_version(named)

    def of_class(self, named, token):
        """The name of a class, or that of its package."""
        known, package = self.classes.get((named.aid, token)), self.of_package(named)
        if known is None:
            return package and 'a class of ' + package
        return dotted(known.name) + self.by_version(named)

    def of_member(self, named, token, table, number):
        """The name of a member, or that of its class, or of its package."""
        known = self.classes.get((named.aid, token))
        if known is None:
            return self.of_class(named, token)
        name = self.member(known, table, number) or 'a member of ' + dotted(known.name)
        return name + self.by_version(named)


class Own:
    """The names of a package's own classes and members, by offsets and tokens."""

    def __init__(self, package):
        self.package, self.classes, self.members = package, {}, {}
        exports, lines = beside(package.folder, EXPORTS), beside(package.folder, LINES)
        if exports:
            self.add_exports(read_of(exports, lambda content: read_exports(content.decode())).values())
        if lines:
            known = read_of(lines, lambda content: read_lines(content.decode()))
            self.classes = {**known.classes, **self.classes}
            self.add_static(known.methods)
            self.add_described(known.methods)

    def add_exports(self, known):
        """Takes the names of the classes that other packages see, if they are this package's."""
        rows, (_, named) = self.package.exported(), self.package.header()
        for one in known:
            if one.package.aid == named.aid and one.token < len(rows):
                self.add_class(one, rows[one.token])

    def add_class(self, known, row):
        self.classes[row.offset] = dotted(known.name)
        for table, offsets in ('static_fields', row.fields), ('static_methods', row.methods):
            self.add_members(known, table, lambda token, its=offsets: its[token:token + 1])
        for table in 'fields', 'virtual':
            self.add_members(known, table, lambda token: [row.offset, token])

    def add_members(self, known, table, place_of):
        """Takes the names of a class's members by their places, which their tokens have. One without a place has no
        name."""
        for (name, _), token in getattr(known, table).items():
            if place_of(token):
                self.members[(table, *place_of(token))] = member_name(dotted(known.name), shown(name))

    def add_static(self, methods):
        """Takes the names of methods by their offsets."""
        for offset, method in methods.items():
            of, _, member = method.name.rpartition('.')
            self.members.setdefault(('static_methods', offset), member_name(of, member))

    def add_described(self, methods):
        """Takes the names of classes and of virtual methods, by the offsets of methods."""
        for row in self.package.methods():
            if row.offset in methods and row.offset:
                of, _, member = methods[row.offset].name.rpartition('.')
                self.classes.setdefault(row.of, of)
                if not row.flags & NOT_VIRTUAL:
                    self.members.setdefault(('virtual', row.of, row.token), member_name(of, member))


class Entries:
    """What the entries of a package's constant pool name."""

    def __init__(self, package, names):
        self.package, self.names, self.own = package, names, Own(package)
        self.entries, self.imports = package.entries(), package.imports()

    def imported(self, token):
        """A package by its token, and its name."""
        if token >= len(self.imports):
            return 'package %d, which isn\'t imported' % token, None
        return 'package %s' % self.imports[token], self.names.of_package(self.imports[token])

    def of_class(self, number):
        """A class by two bytes, and its name."""
        package, token = number >> 8 & ~OUTSIDE, number & 0xFF
        if not number >> 8 & OUTSIDE:
            return 'class at %d' % number, self.own.classes.get(number)
        name = self.names.of_class(self.imports[package], token) if package < len(self.imports) else None
        return 'class %d of %s' % (token, self.imported(package)[0]), name

    def member_of(self, number, table, token):
        """The name of a member, by two bytes of its class and its token; or what is known of its class."""
        package = number >> 8 & ~OUTSIDE
        if number >> 8 & OUTSIDE:
            return self.names.of_member(self.imports[package], number & 0xFF, table, token) \
                if package < len(self.imports) else None
        of = self.own.classes.get(number)
        return self.inherited(number, table, token) or (of and 'a member of ' + of)

    def inherited(self, number, table, token):
        """The name of a member of an own class, which may be one of a class above where it is virtual."""
        seen = set()
        while number not in seen and number is not None and not number >> 8 & OUTSIDE:
            seen.add(number)
            if (table, number, token) in self.own.members:
                return self.own.members[table, number, token]
            number = self.package.above(number) if table == 'virtual' else None
        if number in seen or number in (None, NO_CLASS):
            return None
        return self.member_of(number, table, token)

    def named(self, index):
        """What an entry names: by numbers, and by its name where that is known."""
        tag, *content = self.entries[index]
        number = int.from_bytes(content[:2], 'big')
        what, table = KINDS.get(tag, (None, None))
        if what is None:
            return 'tag %d, which no entry has' % tag, None
        if table is None:
            return self.of_class(number)
        if table.startswith('static') and not content[0] & OUTSIDE:
            offset = int.from_bytes(content[1:], 'big')
            return '%s at %d' % (what, offset), self.own.members.get((table, offset))
        token = content[2]
        return '%s %d of %s' % (what, token, self.of_class(number)[0]), self.member_of(number, table, token)


def names_of(exps=(), exports=(), binding=None):
    """The names of export files, of texts of tools/convert, and of the API, in this order."""
    names, api = Names(), Binding()
    if binding is not None:
        read_of(binding, lambda content: api.read(content.decode()))
    of_api = api_classes(api)
    for path in exps:
        names.add(read_of(path, classes_of_export))
    for path in exports:
        names.add(read_of(path, lambda content: read_exports(content.decode(), of_api)))
    names.add(of_api)
    return names
