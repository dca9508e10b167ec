"""Spells classes and types as a package's components have them, and gathers the packages that it imports."""
from converter.assemble import u1, u2
from converter.classfile import Refusal, parameters, result
from converter.world import MOST

NIBBLES = {'V': 1, 'Z': 2, 'B': 3, 'S': 4, '[Z': 0xA, '[B': 0xB, '[S': 0xC}
STATED = {'Z': 0x8002, 'B': 0x8003, 'S': 0x8004}


class References:
    """Classes by two bytes, and types by where their descriptors stand behind those of so many entries of the pool."""

    def __init__(self, world, class_offsets, pool_size):
        self.world, self.class_offsets = world, class_offsets
        self.imports = []
        self.types, self.spelled, self.begin = {}, b'', 2 + 2 * pool_size

    def of_class(self, name):
        """A class; a package that is named for the first time is imported."""
        k = self.world.find(name)
        if k.package is None:
            return u2(self.class_offsets[name])
        if k.package not in self.imports:
            self.imports.append(k.package)
        return u1(0x80 | self.imports.index(k.package)) + u1(k.token)

    def nibbles(self, kind):
        if kind in NIBBLES:
            return [NIBBLES[kind]]
        reference = self.of_class(kind.strip('[')[1:-1])
        return [0xE if kind[0] == '[' else 6] + [n for byte in reference for n in (byte >> 4, byte & 15)]

    def of_type(self, kind):
        """Where the descriptor of a type stands; it is written where it isn't there yet."""
        parts = [*parameters(kind), result(kind)] if kind[0] == '(' else [kind]
        nibbles = [n for part in parts for n in self.nibbles(part)]
        if len(nibbles) > MOST:
            raise Refusal('a method has too many parameters')
        padded = nibbles + [0] * (len(nibbles) % 2)
        spelled = u1(len(nibbles)) + bytes(16 * high + low for high, low in zip(padded[::2], padded[1::2]))
        if spelled not in self.types:
            self.types[spelled] = self.begin + len(self.spelled)
            self.spelled += spelled
        return u2(self.types[spelled])

    def of_field_type(self, kind):
        return u2(STATED[kind]) if kind in STATED else self.of_type(kind)
