"""The classes that a package sees: its own, those of packages that it imports, and the API's. Also the texts in which
packages are handed on to later ones (`--import`).

A line of such a text is one of these. Names and types are those of class files; a class's lines stand below its own.

    package NAME AID MAJOR MINOR
    class NAME TOKEN ABOVE          the nearest class above that other packages see
    interface NAME TOKEN
    implements NAME                 an interface that it implements or extends, all of them
    virtual NAME TYPE TOKEN         a public or protected method, inherited ones too
    closed NAME TYPE                one of these that other packages can't override: it overrides a package-visible one
    method NAME TYPE TOKEN          of an interface, inherited ones too
    static NAME TYPE TOKEN          a static method or a constructor
    field NAME TYPE TOKEN           of objects
    static_field NAME TYPE TOKEN
"""
import re
from dataclasses import dataclass, field

from converter.classfile import PROTECTED, PUBLIC, Refusal, is_class_name, is_method_name, is_method_type, is_name
from converter.classfile import is_type, parameters, result

OBJECT, SHAREABLE = 'java/lang/Object', 'javacard/framework/Shareable'
PRIMITIVES = 'ZBS'
WORDS = {'I': 'int', 'J': 'long', 'F': 'float', 'D': 'double', 'C': 'char'}
EXPORTS = 'exports.txt'  # the name of such a text
MOST = 255  # classes, tokens, locals: what a byte counts
DIGITS = 9  # of a number, at most, without zeros that lead


@dataclass(frozen=True)
class Package:
    name: str
    aid: bytes
    version: tuple


@dataclass
class Known:
    """A class or an interface, and its members' tokens, each by its name and type. A class of the package itself has a
    class file and no package, and perhaps no token; of its static members the tokens are those that others see."""
    name: str
    above: str = None
    package: Package = None
    token: int = None
    is_interface: bool = False
    interfaces: list = field(default_factory=list)
    virtual: dict = field(default_factory=dict)  # of an interface: its methods
    package_virtual: dict = field(default_factory=dict)
    closed: set = field(default_factory=set)
    fields: dict = field(default_factory=dict)
    static_methods: dict = field(default_factory=dict)
    static_fields: dict = field(default_factory=dict)
    file: object = None


class World:
    """All classes by their names."""

    def __init__(self, known):
        self.known = dict(known)

    def find(self, name):
        if name not in self.known:
            raise Refusal('the class %s isn\'t in the package, the API or an import' % dotted(name))
        return self.known[name]

    def chain(self, name):
        """A class and those above it, the nearest first."""
        seen = set()
        while name is not None:
            if name in seen:
                raise Refusal('the class %s is above itself' % dotted(name))
            seen.add(name)
            found = self.find(name)
            yield found
            name = found.above

    def all_interfaces(self, names):
        """Interfaces and those that they extend, each once."""
        found = []
        for name in names:
            interface = self.find(name)
            if not interface.is_interface:
                raise Refusal('%s isn\'t an interface' % dotted(name))
            found += [n for n in [name, *interface.interfaces] if n not in found]
        return found

    def check_type(self, kind):
        """Refuses a type that the profile hasn't."""
        if kind.startswith('('):
            for part in [*parameters(kind), *([] if result(kind) == 'V' else [result(kind)])]:
                self.check_type(part)
        elif kind.startswith('[['):
            raise Refusal('an array of arrays isn\'t in the profile')
        elif kind.strip('[') in WORDS:
            raise Refusal('the type %s isn\'t in the profile' % WORDS[kind.strip('[')])
        elif kind.strip('[') not in PRIMITIVES:
            self.find(kind.strip('[')[1:-1])


def dotted(name):
    return name.replace('/', '.')


TABLES = {
    'virtual': 'virtual', 'method': 'virtual', 'static': 'static_methods', 'field': 'fields',
    'static_field': 'static_fields',
}


def number_of(text, most=MOST):
    """A number in decimal digits, of one byte where nothing else is said."""
    digits = text.lstrip('0') or text[:1]
    if not re.fullmatch('[0-9]+', text) or len(digits) > DIGITS or int(digits) > most:
        raise ValueError(text)
    return int(digits)


def aid_of(text):
    """An AID in hexadecimal."""
    if not re.fullmatch('([0-9A-Fa-f]{2}){5,16}', text):
        raise ValueError(text)
    return bytes.fromhex(text)


def word(text, is_right):
    """A word of a line, which is of a kind."""
    if not is_right(text):
        raise ValueError(text)
    return text


def check_new(package, known):
    """Refuses a package by the name or the AID of another one, of which classes are known."""
    for other in [known.package for known in known.values()]:
        if package.name == other.name:
            raise Refusal('the package %s is known already, from the API or an import' % dotted(package.name))
        if package.aid == other.aid:
            raise Refusal('the package %s has the AID of %s' % (dotted(package.name), dotted(other.name)))


class Exports:
    """The text of a package that was converted before, read line by line: `known` has its classes by their names.
    A class is of the package that the text is of, and neither the package nor the class is known from elsewhere: else
    a library could stand in the place of the API, or of another library."""

    def __init__(self, before):
        self.before, self.known, self.package, self.at = before, {}, None, None

    def take(self, first, *rest):
        """Takes the words of a line."""
        if first == 'package':
            self.take_package(*rest)
        elif first in ('class', 'interface'):
            self.take_class(first == 'interface', *rest)
        elif first == 'implements':
            name, = rest
            self.at.interfaces.append(word(name, is_class_name))
        elif first == 'closed':
            name, kind = rest
            self.at.closed.add((word(name, is_name), word(kind, is_method_type)))
        else:
            self.take_member(first, *rest)

    def take_package(self, name, aid, major, minor):
        if self.package:
            raise Refusal('it is of a second package')
        package = Package(word(name, is_class_name), aid_of(aid), (number_of(major), number_of(minor)))
        check_new(package, self.before)
        self.package = package

    def take_class(self, is_interface, name, token, *above):
        above = None if is_interface and not above else word(*above, is_class_name)
        if word(name, is_class_name).rpartition('/')[0] != self.package.name:
            raise Refusal('the class %s isn\'t of the package %s' % (dotted(name), dotted(self.package.name)))
        if name in self.known or name in self.before:
            raise Refusal('the class %s is known already' % dotted(name))
        self.at = self.known[name] = Known(name, above, self.package, number_of(token), is_interface)

    def take_member(self, kind_of_member, name, kind, token):
        is_field = kind_of_member.endswith('field')
        key = word(name, is_name if is_field else is_method_name), word(kind, is_type if is_field else is_method_type)
        getattr(self.at, TABLES[kind_of_member])[key] = number_of(token)


def read_exports(text, before=()):
    """The classes of a package that was converted before, by their names. Classes that are known before are those of
    the API and of other imports."""
    exports = Exports(dict(before))
    for number, line in enumerate(text.split('\n'), 1):
        words = line.split()
        try:
            if words and not words[0].startswith('#'):
                exports.take(*words)
        except Refusal as refusal:
            raise Refusal('line %d: %s' % (number, refusal)) from None
        except (ValueError, IndexError, KeyError, AttributeError, TypeError):
            raise Refusal('line %d is none of %s' % (number, EXPORTS)) from None
    if exports.package is None:
        raise Refusal('it names no package')
    return exports.known


def seen_above(world, of):
    """The nearest class above that other packages see."""
    return next(k.name for k in world.chain(of.above) if k.token is not None)


def write_exports(package, world, exported):
    """The text for later packages."""
    major, minor = package.version
    lines = ['# What later packages name of this one. Written by tools/convert.',
             'package %s %s %d %d' % (package.name, package.aid.hex().upper(), major, minor)]
    for k in exported:
        head = '%s %d' % (k.name, k.token)
        lines.append('interface ' + head if k.is_interface else 'class %s %s' % (head, seen_above(world, k)))
        lines += ['implements ' + name for name in k.interfaces]
        lines += ['closed %s %s' % key for key in sorted({*k.closed, *k.virtual} & {*k.closed, *k.package_virtual})]
        hidden = {f.key for f in k.file.fields if not f.has(PUBLIC | PROTECTED)}
        for word in ['method' if k.is_interface else 'virtual', 'static', 'field', 'static_field']:
            shown = [(token, key) for key, token in getattr(k, TABLES[word]).items() if token is not None]
            shown = [(token, key) for token, key in sorted(shown) if word != 'field' or key not in hidden]
            lines += ['%s %s %s %d' % (word, *key, token) for token, key in shown]
    return '\n'.join(lines) + '\n'
