"""Decodes the code of class files. Instructions for which the profile has none stand there as refused ones."""
from dataclasses import dataclass

from converter.classfile import Refusal, parameters, result, words_of
from instructions import OPCODES

# Instructions that stand for one of the card's: the opcode of a class file, and the last of its family where there are
# several; what is taken, the top at the right; what is given; the card's instruction, of a family the first. Taken is a
# reference r, anything x, a number n of which the low 16 bits count, one e that has to lie within a short, or an index
# i. Given is a reference r, a byte b, a short s, a length l, or nothing.
SIMPLE = """
00 - - nop           01 - r aconst_null   32 ri r aaload       33 ri b baload       35 ri s saload
53 rir - aastore     54 rin - bastore     56 rin - sastore     57 x - pop           58 xx - pop2
BE r l arraylength   BF r - athrow        99-9E e - ifeq       9F-A4 ee - if_scmpeq A5-A6 rr - if_acmpeq
C6-C7 r - ifnull     A7 - - goto          C8 - - goto
"""

# Operators: the opcode of a class file, what is taken, the name, the card's instruction.
OPERATORS = """
60 nn add sadd   64 nn sub ssub   68 nn mul smul   6C ee div sdiv   70 ee rem srem   74 n neg sneg    78 nn shl sshl
7A en shr sshr   7C en ushr sushr 7E nn and sand   80 nn or sor     82 nn xor sxor
"""

# What `dup` and its like leave of the operands on top, by their places counted from the top; the card's instruction,
# and the byte behind it where it has one.
MOVES = """
59 11 dup - 5A 121 dup_x 12 5B 1321 dup_x 13 5C 2121 dup2 - 5D 21321 dup_x 23 5E 214321 dup_x 24 5F 12 swap_x 11
"""

# Opcodes for which there is nothing in the profile: what they are for, how many words they take and give, and how many
# bytes of operands they have. Those for which a number isn't a constant have a minus there.
REFUSED = """
09-0A long 0 2 0    0B-0D float 0 1 0   0E-0F double 0 2 0  14 constant - - 2   16 long 0 2 1       17 float 0 1 1
18 double 0 2 1     1E-21 long 0 2 0    22-25 float 0 1 0   26-29 double 0 2 0  2E int 2 1 0        2F long 2 2 0
30 float 2 1 0      31 double 2 2 0     34 char 2 1 0       37 long 2 0 1       38 float 1 0 1      39 double 2 0 1
3F-42 long 2 0 0    43-46 float 1 0 0   47-4A double 2 0 0  4F int 3 0 0        50 long 4 0 0       51 float 3 0 0
52 double 4 0 0     55 char 3 0 0       61 long 4 2 0       62 float 2 1 0      63 double 4 2 0     65 long 4 2 0
66 float 2 1 0      67 double 4 2 0     69 long 4 2 0       6A float 2 1 0      6B double 4 2 0     6D long 4 2 0
6E float 2 1 0      6F double 4 2 0     71 long 4 2 0       72 float 2 1 0      73 double 4 2 0     75 long 2 2 0
76 float 1 1 0      77 double 2 2 0     79 long 3 2 0       7B long 3 2 0       7D long 3 2 0       7F long 4 2 0
81 long 4 2 0       83 long 4 2 0       85 long 1 2 0       86 float 1 1 0      87 double 1 2 0     88 long 2 1 0
89 float 2 1 0      8A double 2 2 0     8B float 1 1 0      8C float 1 2 0      8D double 1 2 0     8E double 2 1 0
8F double 2 2 0     90 double 2 1 0     92 char 1 1 0       94 long 4 1 0       95-96 float 2 1 0   97-98 double 4 1 0
A8 subroutine 0 0 2 A9 subroutine 0 0 1 AD long 2 0 0       AE float 1 0 0      AF double 2 0 0     BA dynamic - - 4
C2-C3 lock 1 0 0    C5 arrays - 1 3     C9 subroutine 0 0 4
"""
WORDS = {
    'subroutine': 'a subroutine', 'dynamic': 'a lambda or invokedynamic', 'lock': 'synchronized',
    'arrays': 'an array of arrays',
}
ENDING = [0xA8, 0xA9, 0xAD, 0xAE, 0xAF, 0xC9]  # of these
ELEMENTS = {4: 'Z', 8: 'B', 9: 'S'}  # of newarray
OTHERS = {5: 'char', 6: 'float', 7: 'double', 10: 'int', 11: 'long'}
LACKING = '%s isn\'t in the profile'


def rows(text, width):
    """A table by opcodes: for each its place in its family, and the words of its row."""
    found = {}
    for first, *words in zip(*[iter(text.split())] * width):
        low, _, high = first.partition('-')
        for at, opcode in enumerate(range(int(low, 16), int(high or low, 16) + 1)):
            found[opcode] = at, *words
    return found


SIMPLE, OPERATORS, MOVES, REFUSED = rows(SIMPLE, 4), rows(OPERATORS, 4), rows(MOVES, 4), rows(REFUSED, 5)


@dataclass
class Instruction:
    """What stands at a place: an operation and its operands. Branches name places of the class file's code, a switch
    its default first. Nothing goes on behind an instruction that ends."""
    at: int
    operation: str
    operands: tuple
    targets: tuple = ()
    ends: bool = False


class Decoder:
    """Decodes one method's code."""

    def __init__(self, code, pool):
        self.code, self.pool, self.at, self.start = code, pool, 0, 0

    def number(self, count, signed=False):
        if self.at + count > len(self.code):
            raise Refusal('its code is cut off')
        self.at += count
        return int.from_bytes(self.code[self.at - count:self.at], 'big', signed=signed)

    def made(self, operation, *operands, targets=(), ends=False):
        return Instruction(self.start, operation, operands, targets, ends)

    def instructions(self):
        """All instructions in their order. One for which the profile has none stands there with why: `refused`. With a
        refusal of the whole comes its place in the code."""
        found = []
        while self.at < len(self.code):
            self.start = self.at
            try:
                found.append(self.instruction(self.number(1)))
            except Refusal as refusal:
                raise Refusal(refusal.text, self.start) from None
        return found

    def refused(self, what, takes, gives, ends=False):
        """An instruction that is refused, and how many words it takes and gives."""
        return self.made('refused', LACKING % what, takes, gives, ends=ends)

    def one_refused(self, opcode, is_wide=False):
        _, word, takes, gives, size = REFUSED[opcode]
        operand = self.number(int(size) * (2 if is_wide else 1))
        what = WORDS.get(word, 'the type ' + word)
        if word == 'constant':
            what, takes, gives = self.pool.constant(operand), 0, 2
        elif word == 'dynamic':
            kind = self.pool.type_of_dynamic(operand >> 16)
            takes, gives = sum(map(words_of, parameters(kind))), words_of(result(kind))
        elif word == 'arrays':
            takes = operand & 0xFF
        return self.refused(what, int(takes), int(gives), opcode in ENDING)

    def instruction(self, opcode):
        if opcode in REFUSED:
            return self.one_refused(opcode)
        if opcode in SIMPLE:
            return self.simple(opcode, *SIMPLE[opcode])
        if opcode in OPERATORS:
            _, takes, name, card = OPERATORS[opcode]
            return self.made('operate', takes, name, OPCODES[card])
        if opcode in MOVES:
            _, places, card, behind = MOVES[opcode]
            card = bytes([OPCODES[card]]) + bytes.fromhex(behind.strip('-'))
            return self.made('move', [int(place) for place in places], card)
        for read in self.constant, self.on_local, self.on_member, self.other:
            found = read(opcode)
            if found:
                return found
        raise Refusal(LACKING % ('the opcode %d' % opcode))

    def simple(self, opcode, at, takes, gives, card):
        targets = ()
        if 0x99 <= opcode <= 0xA7 or opcode >= 0xC6:
            targets = self.start + self.number(4 if opcode == 0xC8 else 2, signed=True),
        ends = opcode in (0xA7, 0xBF, 0xC8)
        return self.made('simple', takes.strip('-'), gives.strip('-'), OPCODES[card] + at, targets=targets, ends=ends)

    def constant(self, opcode):
        if 0x02 <= opcode <= 0x08:
            return self.made('push', opcode - 3)
        if opcode in (0x10, 0x11):
            return self.made('push', self.number(opcode - 0x0F, signed=True))
        if opcode in (0x12, 0x13):
            constant = self.pool.constant(self.number(opcode - 0x11))
            return self.made('push', constant) if isinstance(constant, int) else self.refused(constant, 0, 1)
        return None

    def on_local(self, opcode):
        """Loads and stores of ints (i) and references (a), and increments."""
        size = 1
        if opcode == 0xC4:
            opcode, size = self.number(1), 2
        if opcode in REFUSED:
            return self.one_refused(opcode, is_wide=True)
        if opcode == 0x84:
            return self.made('increment', self.number(size), self.number(size, signed=True))
        for operation, general, short in ('load', 0x15, 0x1A), ('store', 0x36, 0x3B):
            for kind, at in ('i', 0), ('a', 4):
                if opcode == general + at:
                    return self.made(operation, kind, self.number(size))
                if short + 4 * at <= opcode < short + 4 * at + 4:
                    return self.made(operation, kind, opcode - short - 4 * at)
        return None

    def on_member(self, opcode):
        if 0xB2 <= opcode <= 0xB5:
            of = 'static' if opcode < 0xB4 else 'object'
            return self.made('field', of, 'get' if opcode % 2 == 0 else 'put', self.pool.member(self.number(2)))
        if 0xB6 <= opcode <= 0xB9:
            reference = self.pool.member(self.number(2))
            self.number(2 if opcode == 0xB9 else 0)
            return self.made('call', ['virtual', 'special', 'static', 'interface'][opcode - 0xB6], reference)
        if opcode in (0xBB, 0xBD, 0xC0, 0xC1):
            names = {0xBB: 'new', 0xBD: 'new_references', 0xC0: 'cast', 0xC1: 'test'}
            read = self.pool.class_name if opcode == 0xBB else self.pool.class_or_array
            return self.made(names[opcode], read(self.number(2)))
        return None

    def other(self, opcode):
        if opcode in (0x91, 0x93):
            return self.made('narrow', 'B' if opcode == 0x91 else 'S')
        if opcode in (0xAA, 0xAB):
            return self.switch(opcode == 0xAA)
        if opcode in (0xAC, 0xB0, 0xB1):
            return self.made('return', {0xAC: 'sreturn', 0xB0: 'areturn', 0xB1: 'return'}[opcode], ends=True)
        if opcode == 0xBC:
            kind = self.number(1)
            if kind in ELEMENTS:
                return self.made('new_words', ELEMENTS[kind])
            return self.refused('the type %s' % OTHERS.get(kind, kind), 1, 1)
        return None

    def switch(self, is_table):
        """A switch by the numbers that it knows, with a target for each behind the default."""
        self.number(-self.at % 4)
        default, first = self.number(4, signed=True), self.number(4, signed=True)
        last = self.number(4, signed=True) if is_table else None
        count = last - first + 1 if is_table else first
        if not 0 <= count * (4 if is_table else 8) <= len(self.code) - self.at:
            raise Refusal('a switch has more cases than its code has room for')
        if is_table:
            matches, targets = range(first, last + 1), [self.number(4, signed=True) for _ in range(count)]
        else:
            pairs = [(self.number(4, signed=True), self.number(4, signed=True)) for _ in range(count)]
            matches, targets = [m for m, _ in pairs], [t for _, t in pairs]
        targets = tuple(self.start + target for target in [default, *targets])
        return self.made('switch', 'table' if is_table else 'lookup', list(matches), targets=targets, ends=True)
