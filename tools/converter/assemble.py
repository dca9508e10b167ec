"""Spells instructions of the card as bytes."""
from bisect import bisect_left

from converter.classfile import Refusal
from converter.translate import Entry
from instructions import NAMES, OPCODES

SWITCHES = OPCODES['stableswitch'], OPCODES['slookupswitch']
LONGEST = 0x7FFF  # of a method's code
# Instructions on fields whose entry is one byte.
NARROW = [OPCODES[how + form] for how in ('getfield_', 'putfield_') for form in 'abs']
OF_THIS = [OPCODES['getfield_%s_this' % form] for form in 'abs']


def u1(number):
    return number.to_bytes(1, 'big')


def u2(number):
    return number.to_bytes(2, 'big')


def spelled(number, size):
    return (number % 256 ** size).to_bytes(size, 'big')


def wide(opcode):
    """The opcode of the same with two bytes behind it."""
    return OPCODES[NAMES[opcode] + '_w']


def with_entry(card, index):
    """A field's instruction, by how far its entry stands in the pool."""
    if index < 256:
        return u1(card.opcode) + u1(index)
    if card.opcode in OF_THIS:
        name = NAMES[card.opcode].replace('_this', '')
        return u1(OPCODES['aload_0']) + u1(wide(OPCODES[name])) + u2(index)
    return u1(wide(card.opcode)) + u2(index)


class Assembler:
    """Spells one method's code; `places` has the place of each instruction, by that in the class file."""

    def __init__(self, cards, pool):
        self.cards, self.pool, self.wide = cards, pool, set()
        while True:
            self.place()
            further = {n for n, card in enumerate(cards) if n not in self.wide and self.is_far(n, card)}
            if not further:
                break
            self.wide |= further
        if self.size > LONGEST:
            raise Refusal('the method has more than %d bytes' % LONGEST)
        self.code = b''.join(self.bytes_of(n, card) for n, card in enumerate(cards))

    def place(self):
        self.starts, at = [], 0
        self.places = {}
        for n, card in enumerate(self.cards):
            self.places.setdefault(card.at, at)
            self.starts.append(at)
            at += self.size_of(n, card)
        self.size = at
        self.keys = list(self.places)

    def size_of(self, n, card):
        if card.opcode in SWITCHES:
            return 1 + 2 * len(card.targets) + (4 if card.opcode == SWITCHES[0] else 2 + 2 * len(card.operands))
        if card.targets:
            return 3 if n in self.wide else 2
        return len(self.plain(card))

    def at(self, place):
        """Where the first instruction stands that is at a place of the class file or behind it."""
        number = bisect_left(self.keys, place)
        return self.places[self.keys[number]] if number < len(self.keys) else self.size

    def offset(self, n, target):
        return self.at(target) - self.starts[n]

    def is_far(self, n, card):
        return bool(card.targets) and card.opcode not in SWITCHES and not -128 <= self.offset(n, card.targets[0]) <= 127

    def plain(self, card):
        """An instruction without targets."""
        if card.opcode in NARROW or card.opcode in OF_THIS:
            return with_entry(card, self.pool[card.entry])
        operands = [u2(self.pool[o]) if isinstance(o, Entry) else spelled(o[1], o[0]) for o in card.operands]
        return u1(card.opcode) + b''.join(operands)

    def bytes_of(self, n, card):
        if not card.targets:
            return self.plain(card)
        offsets = [self.offset(n, target) for target in card.targets]
        if card.opcode not in SWITCHES:
            opcode, size = (wide(card.opcode), 2) if n in self.wide else (card.opcode, 1)
            return u1(opcode) + spelled(offsets[0], size)
        matches = [number for _, number in card.operands]
        if card.opcode == SWITCHES[0]:
            numbers = [offsets[0], matches[0], matches[-1], *offsets[1:]]
        else:
            pairs = sorted(zip(matches, offsets[1:]))
            numbers = [offsets[0], len(pairs), *(n for pair in pairs for n in pair)]
        return u1(card.opcode) + b''.join(spelled(n, 2) for n in numbers)
