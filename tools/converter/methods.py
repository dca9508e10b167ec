"""Writes the Method component: the code of all methods, headers and handlers. Also the order of the constant pool."""
from converter.assemble import Assembler, u1, u2
from converter.classfile import Refusal, parameters
from converter.layout import place_of
from converter.world import MOST

# Kinds of entries in the order of the pool. Fields of objects come first, as instructions have a byte for them.
ORDER = ['field', 'virtual', 'super', 'static method', 'static field', 'class']
STOP = 0x8000


class Methods:
    """What was translated, as bytes. A method is known by its class, and its name and type.

    `pool` has the entries with their indexes, `offsets` where headers stand, `rows` the bytes of code, the handlers and
    the first handler of each method, `codes` what was assembled, `info` the component."""

    def __init__(self, classes, translated):
        entries = [card.entry for m in translated.values() for card in m.cards if card.entry]
        entries += [entry for m in translated.values() for _, _, _, entry in m.handlers if entry]
        ordered = sorted(dict.fromkeys(entries), key=lambda entry: ORDER.index(entry.kind))
        self.pool = {entry: number for number, entry in enumerate(ordered)}
        self.offsets, self.rows = {}, {}
        self.codes = codes = {where: Assembler(m.cards, self.pool) for where, m in translated.items()}
        covering = {where: ranges(codes[where], m) for where, m in translated.items()}
        count = sum(map(len, covering.values()))
        if count > MOST:
            raise too_many(classes, covering, count)
        handlers = {where: list(self.handlers(rows)) for where, rows in covering.items()}
        at, table, content = 1 + 8 * count, b'', b''
        for where, method in written(classes):
            head = header(method, translated.get(where))
            code = codes[where].code if where in codes else b''
            rows = handlers.get(where, [])
            self.offsets[where] = at + len(content)
            self.rows[where] = len(code), len(rows), len(table) // 8 if rows else 0
            table += b''.join(handler_row(at + len(content) + len(head), *row) for row in rows)
            content += head + code
        self.info = u1(count) + table + content

    def handlers(self, rows):
        """Handlers of a method, with the index of what they catch, and whether one behind covers the same code."""
        for number, (start, end, to, entry) in enumerate(rows):
            is_covered = any(first < end and start < last for first, last, _, _ in rows[number + 1:])
            yield start, end - start, to, self.pool[entry] if entry else 0, is_covered


def ranges(assembled, method):
    """Handlers of a method by places of the card's code: start, end, where they go on, and the entry of what they
    catch. Those that cover nothing are left out."""
    rows = [(*map(assembled.at, places), entry) for *places, entry in method.handlers]
    return [row for row in rows if row[0] < row[1]]


def too_many(classes, covering, count):
    """The refusal of too many handlers, at the method that has most of them."""
    known, method = max(((k, method) for k in classes for method in k.file.methods),
                        key=lambda pair: len(covering.get((pair[0].name, pair[1].key), [])))
    most = len(covering[known.name, method.key])
    return Refusal('the package has %d handlers, and at most there are %d: %d are of this method, as javac splits the '
                   'range of a try at each return and jump out of it' % (count, MOST, most), place_of(known, method))


def written(classes):
    """The methods that have headers, in their order."""
    for k in classes:
        for method in [] if k.is_interface else k.file.methods:
            if method.name != '<clinit>':
                yield (k.name, method.key), method


def handler_row(begin, start, length, to, caught, is_covered):
    return u2(begin + start) + u2(length + (0 if is_covered else STOP)) + u2(begin + to) + u2(caught)


def header(method, translated):
    """A method's header, in its short form where that has room. An abstract method has no translation."""
    if translated is None:
        abstract, stack, arguments, locals = 0x40, 0, len(parameters(method.type)) + 1, 0
    else:
        abstract, stack, arguments, locals = 0, translated.stack, translated.arguments, translated.locals
    if max(stack, arguments, locals) < 16:
        return bytes([abstract + stack, 16 * arguments + locals])
    return bytes([0x80 + abstract, stack, arguments, locals])
