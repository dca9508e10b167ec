"""Lays out static fields: what the initialiser of each class gives them, and their places in the static image."""
from dataclasses import dataclass, field

from converter.assemble import spelled
from converter.bytecode import Decoder
from converter.classfile import Refusal, Refusals, with_line
from converter.layout import is_reference, static_fields
from converter.numbers import BYTE, SHORT, lies_in
from converter.world import dotted

ONLY = 'a static field can be initialised by constants and by arrays of constants only'
SIZES = {'Z': 1, 'B': 1, 'S': 2}
LONGEST = 0x7FFF  # bytes of an array
ARRAYS = {'[Z': 2, '[B': 3, '[S': 4}


@dataclass
class Array:
    kind: str
    values: list
    is_placed: bool = False


class Initialiser:
    """Follows the code that initialises a class's static fields: `values` has what they get, by name and type. What is
    refused is passed over up to the next field that gets something: `faults` has places and texts."""

    def __init__(self, known, code):
        self.known, self.operands, self.values, self.faults, is_followed = known, [], {}, [], True
        for instruction in Decoder(code.bytes, known.file.pool).instructions():
            if not is_followed:
                is_followed = self.is_put(instruction)
                continue
            try:
                getattr(self, 'on_' + instruction.operation, self.on_another)(*instruction.operands)
            except (Refusal, IndexError) as refusal:
                self.faults.append((instruction.at, refusal.text if isinstance(refusal, Refusal) else ONLY))
                self.operands, is_followed = [], self.is_put(instruction)

    def is_put(self, instruction):
        return instruction.operation == 'field' and instruction.operands[:2] == ('static', 'put')

    def on_another(self, *operands):
        raise Refusal(ONLY)

    def on_push(self, number):
        self.operands.append(number)

    def on_simple(self, takes, gives, card):
        """Null, or a component of an array that is being made."""
        if (takes, gives) == ('', 'r'):
            self.operands.append(None)
            return
        if takes != 'rin':
            raise Refusal(ONLY)
        array, index, value = self.operands[-3:]
        del self.operands[-3:]
        if not isinstance(array, Array) or not 0 <= index < len(array.values):
            raise Refusal(ONLY)
        array.values[index] = value

    def on_narrow(self, kind):
        if not lies_in((self.operands[-1],) * 2, BYTE if kind == 'B' else SHORT):
            raise Refusal(ONLY)

    def on_new_words(self, kind):
        length = self.operands.pop()
        if not 0 <= length * SIZES[kind] <= LONGEST:
            raise Refusal('an array in the static image has at most %d bytes' % LONGEST)
        self.operands.append(Array(kind, [0] * length))

    def on_move(self, places, card):
        if places != [1, 1]:
            raise Refusal(ONLY)
        self.operands.append(self.operands[-1])

    def on_field(self, of, how, member):
        if (of, how, member.of) != ('static', 'put', self.known.name):
            raise Refusal(ONLY)
        value = self.operands.pop()
        if isinstance(value, Array):
            if value.is_placed or member.type != '[' + value.kind:
                raise Refusal(ONLY)
            value.is_placed = True
        self.values[member.name, member.type] = value

    def on_return(self, card):
        pass


def initial_values(known):
    """What the static fields of a class hold at first, those that its initialiser says."""
    code = next((m.code for m in known.file.methods if m.name == '<clinit>'), None)
    if code is None:
        return {}
    found = Initialiser(known, code)
    if found.faults:
        lines = dict.fromkeys((code.line(at), text) for at, text in found.faults)
        raise Refusals([Refusal(text, with_line(dotted(known.name), line)) for line, text in lines])
    return found.values


@dataclass
class Statics:
    """The static image: places by class, and name and type; arrays by their types and bytes."""
    places: dict = field(default_factory=dict)
    arrays: list = field(default_factory=list)
    references: int = 0
    defaults: int = 0
    values: bytes = b''


def laid_out(classes, values):
    """The static image of a package's classes: initialised arrays, other references, numbers that are 0, the others.
    Values are those of each class."""
    rows = [((k.name, f.key), f.type, values[k.name].get(f.key)) for k in classes for f in static_fields(k.file)]
    image, at = Statics(), 0
    for where, kind, value in sorted(rows, key=lambda row: rank(*row[1:])):
        image.places[where] = at
        at += SIZES.get(kind, 2)
        if isinstance(value, Array):
            size = SIZES[value.kind]
            image.arrays.append((ARRAYS['[' + value.kind], b''.join(spelled(v, size) for v in value.values)))
        if is_reference(kind):
            image.references += 1
        elif value:
            image.values += spelled(value, SIZES[kind])
        else:
            image.defaults += SIZES[kind]
    return image


def rank(kind, value):
    """The part of the static image in which a field stands."""
    return (0 if isinstance(value, Array) else 1) if is_reference(kind) else (3 if value else 2)
