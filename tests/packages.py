"""Writes images of packages from what they say: classes, members and references by name, and certificates for them. The
layouts are docs/profile/files.md and docs/profile/certificate.md; tests/linking.py, tests/check, tests/verify,
tests/described.py and benchmarks use it."""
from dataclasses import dataclass, field
from struct import pack

# Types, and those of members: what they take, and what they give.
VOID, BOOLEAN, BYTE, SHORT = 'void', 'boolean', 'byte', 'short'
BOOLEANS, BYTES, SHORTS = 'boolean[]', 'byte[]', 'short[]'
NIBBLES = {VOID: 1, BOOLEAN: 2, BYTE: 3, SHORT: 4, BOOLEANS: 0xA, BYTES: 0xB, SHORTS: 0xC}
PRIMITIVES = {BOOLEAN: 0x8002, BYTE: 0x8003, SHORT: 0x8004}
ARRAYS = {BOOLEANS: 2, BYTES: 3, SHORTS: 4}
ABOVE = 0xFFFF  # in a table, where another package declares the method
NO_TYPE = 0xFFFF
INSTALL = ((BYTES, SHORT, BYTE), VOID)
TOP, WORD, NULL = 'top', 'word', 'null'  # in certificates only


@dataclass(frozen=True)
class Reference:
    """The type of references to a class, or of arrays of them."""
    to: object
    is_array: bool = False


@dataclass(frozen=True)
class Imported:
    """A class of an imported package, by the tokens of both."""
    package: int
    token: int


@dataclass(frozen=True)
class Api:
    """A class of the API in a certificate, by its number."""
    number: int


@dataclass(frozen=True)
class Foreign:
    """A class in a certificate, by the AID of its package and the offset of its record."""
    aid: bytes
    offset: int


@dataclass(frozen=True)
class Handler:
    """It covers so many bytes of its method's code from a pc on, goes on at a pc, and catches the class of an entry of the
    pool, or all where that is 0."""
    start: int
    length: int
    at: int
    catches: int = 0


@dataclass
class Method:
    """A method of a class, or of an interface where there is no code. nargs is counted where it isn't said. Its header has
    two bytes where the flag 8 isn't set; locals doesn't count arguments."""
    name: str
    takes: tuple = ()
    gives: object = VOID
    token: int = 0
    static: bool = False
    abstract: bool = False
    code: bytes = bytes([0x7A])
    nargs: int = None
    stack: int = 4
    locals: int = 2
    flags: int = 8
    handlers: tuple = ()
    labels: dict = field(default_factory=dict)  # pcs by names, where the code is assembled


@dataclass
class Field:
    """A field, static where it has an offset."""
    type: object
    token: int = 0
    offset: int = None


@dataclass
class Table:
    """Virtual methods from a base on: names of methods, offsets, or ABOVE."""
    entries: list = field(default_factory=list)
    base: int = 0


@dataclass
class Class:
    name: str
    above: object = None
    size: int = 0
    public: Table = field(default_factory=Table)
    package: Table = field(default_factory=Table)
    interfaces: list = field(default_factory=list)  # of pairs: a class, and virtual tokens
    fields: list = field(default_factory=list)
    methods: list = field(default_factory=list)
    abstract: bool = False
    interface: bool = False


@dataclass
class Entry:
    """An entry of the pool, with the type that it states, if it does: a field's, or a pair of a method's."""
    kind: str
    of: object
    token: int = 0
    type: object = None


@dataclass
class Statics:
    """The static image: references, initialised arrays (a type and their bytes), default bytes, and bytes with values."""
    references: int = 0
    arrays: list = field(default_factory=list)
    defaults: int = 0
    values: bytes = b''


@dataclass
class Package:
    aid: bytes
    version: tuple = (1, 0)
    imports: list = field(default_factory=list)  # of pairs: an AID and a version
    applets: list = field(default_factory=list)  # of pairs: an AID and a method's name
    exports: list = field(default_factory=list)  # of triples: a class, offsets of static fields, names of static methods
    classes: list = field(default_factory=list)
    pool: list = field(default_factory=list)
    statics: Statics = field(default_factory=Statics)
    placed: list = None  # names of methods in the order of their headers, where that isn't the order of their rows


def u1(number):
    return pack('>B', number)


def u2(number):
    return pack('>H', number)


def named(version, aid):
    """A package as Header and Import have it."""
    major, minor = version
    return u1(minor) + u1(major) + u1(len(aid)) + aid


class Image:
    """What stands where in the image of a package."""

    def __init__(self, package):
        self.package = package
        self.classes, self.methods, self.handlers, self.types = {}, {}, {}, {}
        self.place_classes()
        self.place_methods()
        self.spelled = b''

    # Offsets

    def place_classes(self):
        at = 0
        for c in self.package.classes:
            self.classes[c.name] = at
            at += len(self.record(c, sizes=True))

    def place_methods(self):
        placed = [m for c in self.package.classes for m in c.methods if not c.interface]
        if self.package.placed:
            placed.sort(key=lambda m: self.package.placed.index(m.name))
        handlers = [(m, h) for m in placed for h in m.handlers]
        for number, (m, _) in reversed(list(enumerate(handlers))):
            self.handlers[m.name] = number
        at, bodies = 1 + 8 * len(handlers), []
        for m in placed:
            self.methods[m.name] = at
            bodies.append(self.header(m) + (b'' if m.abstract else m.code))
            at += len(bodies[-1])
        rows = b''.join(self.handler(self.methods[m.name] + len(self.header(m)), h) for m, h in handlers)
        self.method_info = u1(len(handlers)) + rows + b''.join(bodies)

    def handler(self, code, h):
        return u2(code + h.start) + u2(h.length) + u2(code + h.at) + u2(h.catches)

    def header(self, method):
        nargs = len(method.takes) + (0 if method.static else 1) if method.nargs is None else method.nargs
        flags = method.flags | (4 if method.abstract else 0)
        if flags & 8:
            return bytes([16 * flags, method.stack, nargs, method.locals])
        return bytes([16 * flags + method.stack, 16 * nargs + method.locals])

    # References and types

    def class_ref(self, to):
        if to is None:
            return u2(0xFFFF)
        if isinstance(to, Imported):
            return u1(0x80 | to.package) + u1(to.token)
        return u2(self.classes.get(to, to) if isinstance(to, str) else to)

    def nibbles(self, kind):
        if isinstance(kind, Reference):
            bytes_of = self.class_ref(kind.to)
            return [14 if kind.is_array else 6] + [n for b in bytes_of for n in (b >> 4, b & 15)]
        return [NIBBLES[kind]]

    def type_at(self, takes, gives):
        """Where a type descriptor stands; it is written where it isn't there yet."""
        nibbles = [n for kind in (*takes, gives) for n in self.nibbles(kind)]
        padded = nibbles + [0] * (len(nibbles) % 2)
        spelled = u1(len(nibbles)) + bytes(16 * high + low for high, low in zip(padded[::2], padded[1::2]))
        if spelled not in self.types:
            self.types[spelled] = 2 + 2 * len(self.package.pool) + len(self.spelled)
            self.spelled += spelled
        return self.types[spelled]

    def field_type(self, kind):
        return PRIMITIVES[kind] if kind in PRIMITIVES else self.type_at((), kind)

    # Class

    def record(self, c, sizes=False):
        """A record; only its size is right where classes haven't been placed yet."""
        ref = (lambda to: u2(0)) if sizes else self.class_ref
        entry = (lambda e: u2(0)) if sizes else (lambda e: u2(self.methods[e] if isinstance(e, str) else e))
        flags = u1((0x80 if c.interface else 0) | len(c.interfaces))
        if c.interface:
            return flags + b''.join(ref(to) for to, _ in c.interfaces)
        tables = [c.public, c.package]
        return b''.join(
            [flags, ref(c.above), bytes([c.size, 0xFF, 0])]
            + [u1(t.base) + u1(len(t.entries)) for t in tables]
            + [entry(e) for t in tables for e in t.entries]
            + [ref(to) + u1(len(tokens)) + bytes(tokens) for to, tokens in c.interfaces]
        )

    # Descriptor

    def field_row(self, c, f):
        if f.offset is not None:
            return bytes([0, 8, 0]) + u2(f.offset) + u2(self.field_type(f.type))
        return bytes([0, 0]) + u2(self.classes[c.name]) + u1(f.token) + u2(self.field_type(f.type))

    def method_row(self, c, m):
        count = 0 if m.abstract or c.interface else len(m.code)
        flags = u1(8 if m.static else 0)
        handlers = u2(len(m.handlers)) + u2(self.handlers.get(m.name, 0))
        return u1(m.token) + flags + u2(self.methods.get(m.name, 0)) + u2(self.type_at(m.takes, m.gives)) + u2(count) + handlers

    def class_row(self, c):
        flags = (0x80 if c.abstract else 0) | (0x40 if c.interface else 0)
        interfaces = b''.join(self.class_ref(to) for to, _ in c.interfaces)
        counts = u1(len(c.interfaces)) + u2(len(c.fields)) + u2(len(c.methods))
        rows = [self.field_row(c, f) for f in c.fields] + [self.method_row(c, m) for m in c.methods]
        return bytes([0xFF, flags]) + u2(self.classes[c.name]) + counts + interfaces + b''.join(rows)

    def pool_type(self, entry):
        if entry.type is None:
            return u2(NO_TYPE)
        takes, gives = entry.type if isinstance(entry.type, tuple) else ((), entry.type)
        return u2(self.type_at(takes, gives))

    def descriptor(self):
        rows = [self.class_row(c) for c in self.package.classes]
        pool = [self.pool_type(e) for e in self.package.pool]
        return u1(len(rows)) + b''.join(rows) + u2(len(pool)) + b''.join(pool) + self.spelled

    # Constant pool

    def static_ref(self, of):
        if isinstance(of, tuple):
            package, class_token, token = of
            return bytes([0x80 | package, class_token, token])
        return bytes([0]) + u2(self.methods[of] if isinstance(of, str) else of)

    def entry(self, e):
        tag = ['class', 'field', 'virtual', 'super', 'static field', 'static method'].index(e.kind) + 1
        return u1(tag) + (self.static_ref(e.of) if tag > 4 else self.class_ref(e.of) + u1(e.token))

    # The other components

    def statics(self):
        s = self.package.statics
        arrays = b''.join(u1(ARRAYS[kind]) + u2(len(values)) + values for kind, values in s.arrays)
        size = 2 * s.references + s.defaults + len(s.values)
        return u2(size) + u2(s.references) + u2(len(s.arrays)) + arrays + u2(s.defaults) + u2(len(s.values)) + s.values

    def export(self, row):
        name, fields, methods = row
        offsets = [u2(f) for f in fields] + [u2(self.methods[m]) for m in methods]
        return self.class_ref(name) + u1(len(fields)) + u1(len(methods)) + b''.join(offsets)

    def infos(self):
        p = self.package
        infos = {
            1: bytes.fromhex('DECAFFED') + bytes([1, 2, 0]) + named(p.version, p.aid),
            4: u1(len(p.imports)) + b''.join(named(version, aid) for aid, version in p.imports),
            5: u2(len(p.pool)) + b''.join(map(self.entry, p.pool)),
            6: b''.join(map(self.record, p.classes)),
            7: self.method_info,
            8: self.statics(),
            11: self.descriptor(),
        }
        if p.applets:
            infos[3] = u1(len(p.applets)) + b''.join(u1(len(aid)) + aid + u2(self.methods[m]) for aid, m in p.applets)
        if p.exports:
            infos[10] = u1(len(p.exports)) + b''.join(map(self.export, p.exports))
        return infos

    def whole(self):
        """The bytes of the package in format 2.1, components by ascending tags."""
        infos = self.infos()
        return b''.join(u1(tag) + u2(len(infos[tag])) + infos[tag] for tag in sorted(infos))

    # Certificates

    def class_name(self, to):
        if isinstance(to, Api):
            return bytes([1, 0]) + u2(to.number)
        if isinstance(to, Foreign):
            return u1(len(to.aid)) + to.aid + u2(to.offset)
        return u1(0) + u2(self.classes[to] if isinstance(to, str) else to)

    def stated(self, kind):
        """A type in a certificate, or bytes in its place."""
        if isinstance(kind, bytes):
            return kind
        if isinstance(kind, Reference):
            return u1(7 if kind.is_array else 3) + self.class_name(kind.to)
        return u1([TOP, WORD, NULL, None, BOOLEANS, BYTES, SHORTS].index(kind))

    def state(self, pc, locals, operands):
        types = [b''.join(map(self.stated, kinds)) for kinds in (locals, operands)]
        return u2(pc) + u2(len(locals)) + types[0] + u1(len(operands)) + types[1]

    def certificate(self, *methods):
        """Rows as they are handed in: a method's name or offset, and its states, each a pc, locals and operands."""
        rows = [(self.methods[m] if isinstance(m, str) else m, states) for m, states in methods]
        return u2(len(rows)) + b''.join(u2(m) + u2(len(states)) + b''.join(self.state(*s) for s in states) for m, states in rows)


def image(package):
    """The bytes of a package."""
    return Image(package).whole()


# Component files, as a folder of a package has them

FILES = {
    1: 'Header.cap', 3: 'Applet.cap', 4: 'Import.cap', 5: 'ConstantPool.cap', 6: 'Class.cap', 7: 'Method.cap', 8: 'StaticField.cap',
    10: 'Export.cap', 11: 'Descriptor.cap',
}


def components(image):
    """The tags and infos of an image's components one behind the other, or None where it can't be cut so."""
    found, at = [], 0
    while at < len(image):
        size = int.from_bytes(image[at + 1:at + 3], 'big')
        if at + 3 + size > len(image):
            return None
        found.append((image[at], image[at + 3:at + 3 + size]))
        at += 3 + size
    return found


def component(tag, info):
    return u1(tag) + u2(len(info)) + info


def component_files(image):
    """The files of an image, by their names: one for each component, or one alone where components have no files or not this order."""
    parts = components(image)
    tags = [tag for tag, _ in parts or []]
    if parts is None or any(tag not in FILES for tag in tags) or tags != sorted(set(tags)):
        return {'Header.cap': image}
    return {FILES[tag]: component(tag, info) for tag, info in parts}


# The API, and packages over it

LANG = (bytes.fromhex('F04A430101'), (1, 0))
FRAMEWORK = (bytes.fromhex('F04A430102'), (1, 0))
OBJECT = Imported(0, 0)  # of packages that import java.lang first
SHAREABLE, APDU, APPLET = Imported(1, 0), Imported(1, 6), Imported(1, 7)  # and javacard.framework then
API = [LANG, FRAMEWORK]

# The default table: the tokens of classes 1 to 22, and of members 1 to 55.
CLASS_TOKENS = [*range(12), *range(10)]
MEMBER_TOKENS = [
    *[0] * 13, *range(3), 0, 1, 0, 1, 0, 1, *range(3), *range(1, 8), *range(8), *range(8), *range(7),
]

# A whole package, an applet: its install method is at 1, and its process method, which returns, at 10.
SMALL = bytes.fromhex("""
    01000FDECAFFED01020400010 5F001020304 03000A0106F001020304010001 0400090100 0105F04A430102
    05000A00020100000003000001 0600100080 0700FF00050300 00000AFFFFFFFF 07000D000130 8F00008B00017A00207A
    08000A00000000000000000000 0B003101FF0100000000000002FF090001000600070000000005010 00A00090001000000000002FFFF000D04B4 3106680061 0110
""".replace(' ', '').replace('\n', ''))


# Its parts that format 2.2 spells otherwise, and how.
IN_2_2 = [
    ('01000FDECAFFED0102040001 05F001020304', '010010DECAFFED0202040001 05F00102030400'),
    ('05000A00020100000003000001', '05000A00020100020003000201'),
    ('060010 00800700FF00050300 00000AFFFFFFFF', '060012 0000 00800700FF0005030000000AFFFFFFFF'),
    ('0B003101FF010000', '0B003101FF010002'),
]


def in_format_2_2(applet):
    """The package, or one with other code, in format 2.2, with what that has besides."""
    for old, new in IN_2_2:
        applet = applet.replace(bytes.fromhex(old), bytes.fromhex(new))
    return applet


def changed(*pairs):
    """SMALL with bytes changed: places, and what stands there."""
    bytes_of = bytearray(SMALL)
    for place, byte in pairs:
        bytes_of[place] = byte
    return bytes(bytes_of)


def aid(number):
    return bytes([0xF0, 9, 9, 9, number])


def package(number, *classes, **more):
    """A package of its own that imports the API's."""
    return Package(aid(number), classes=list(classes), **{'imports': API, **more})


def cls(name, above=OBJECT, **more):
    return Class(name, above, **more)


def table(*entries, base=0):
    return Table(list(entries), base)


def chained(packages, count, interfaces=False):
    """Packages of so many classes or interfaces each, all in one chain: each extends the one before it, the first of a
    package the last of the package before."""
    described = []
    for number in range(packages):
        above = Imported(2, 0) if number else None
        classes = []
        for at in range(count):
            name = 'C%d' % at
            if interfaces:
                classes.append(Class(name, interface=True, interfaces=[(above, [])] if above else []))
            else:
                classes.append(cls(name, above or OBJECT))
            above = name
        imports = [*API, (aid(number - 1), (1, 0))] if number else API
        described.append(package(number, *classes, imports=imports, exports=[(above, [], [])]))
    return described


def bound(*lines):
    """The default table's text, with these lines in place of its own."""
    text = {('package', '1'): 'package 1 F04A430101 1 0', ('package', '2'): 'package 2 F04A430102 1 0'}
    text.update({('class', str(i + 1)): 'class %d %d' % (i + 1, t) for i, t in enumerate(CLASS_TOKENS)})
    text.update({('member', str(i + 1)): 'member %d %d' % (i + 1, t) for i, t in enumerate(MEMBER_TOKENS)})
    text.update({tuple(line.split()[:2]): line for line in lines})
    return '\n'.join(text.values()) + '\n'


def api_packages(superclasses, members, tokens=CLASS_TOKENS):
    """The API's packages, as others are described: classes in the order of their numbers with the one above each, members one behind the other
    by six words each (a class, a name, its form, its token, what it takes and what it gives), and the tokens of classes."""
    home = {name: int(number > 12) for number, name in enumerate(superclasses, 1)}
    token = dict(zip(superclasses, tokens))
    classes, statics = {}, {name: [] for name in superclasses}

    def class_ref(name, at):
        return name if home[name] == at else Imported(home[name], token[name])

    def kind(word, at):
        name = word.removesuffix('[]')
        return Reference(class_ref(name, at), name != word) if name in home else word

    for name, above in superclasses.items():
        above = None if above == '-' else class_ref(above, home[name])
        classes[name] = Class(name, above, interface=name == 'Shareable', abstract=name == 'Applet')
    for of, name, form, place, takes, gives in zip(*[iter(members)] * 6):
        at, c = home[of], classes[of]
        takes = tuple(kind(t, at) for t in takes.split(',') if t != '-')
        c.methods.append(Method('%s.%s' % (of, name), takes, kind(gives, at), static=form == 'static'))
        if form == 'virtual':
            c.public.base = c.public.base if c.public.entries else int(place)
            c.public.entries.append(c.methods[-1].name)
        else:
            statics[of].append(c.methods[-1].name)
    for at, (aid_of, version) in enumerate(API):
        own = [classes[name] for name in superclasses if home[name] == at]
        exports = [(c.name, [], statics[c.name]) for c in sorted(own, key=lambda c: token[c.name])]
        yield Package(aid_of, version, imports=API[:at], exports=exports, classes=own)
