"""Turns the code of a class file's method into instructions of the card."""
import re
from dataclasses import dataclass

from converter.bytecode import Decoder
from converter.classfile import PRIVATE, Reference, Refusal, Refusals, STATIC, parameters, with_line
from converter.layout import method_of, place_of
from converter.numbers import BYTE, INT, SHORT, lies_in
from converter.ranges import Ranges, TOO_MANY
from converter.world import MOST, OBJECT, dotted
from instructions import OPCODES

TESTS_NULL = Reference('java/util/Objects', 'requireNonNull', '(Ljava/lang/Object;)Ljava/lang/Object;')
KINDS = {'Z': 10, 'B': 11, 'S': 12}  # of arrays, for newarray, checkcast and instanceof
FORMS = {'Z': 'b', 'B': 'b', 'S': 's'}  # of instructions on fields; of a reference a
BEFORE = -1  # the place in front of a method's code


STRINGS = 'a switch over Strings isn\'t in the profile'
HASH_OF_STRING = Reference('java/lang/String', 'hashCode', '()I')
OF_STRING = re.compile(r'\bjava\.lang\.String\b|\bof type String\b')  # what else is told where one is switched over
LIBRARIES = re.compile('javax?/|javacardx?/')  # packages that are Java's or Java Card's own


def has_member(known, member):
    """Whether a class itself has a member, whoever may name it."""
    key = member.name, member.type
    tables = (known.virtual, known.package_virtual, known.fields, known.static_methods, known.static_fields)
    return any(key in table for table in tables) or bool(known.file and method_of(known, key))


@dataclass(frozen=True)
class Entry:
    """An entry of the constant pool. `of` is a class; of a static member of the package itself it is a class, and a
    name and type."""
    kind: str
    of: object
    token: int = None
    type: str = None


@dataclass
class Card:
    """An instruction of the card, at a place of the class file's code. Its operands are entries of the pool, or pairs
    of a size and a number. A branch has a target, and a switch its default and then one for each of its numbers."""
    at: int
    opcode: int
    operands: tuple = ()
    targets: tuple = ()

    @property
    def entry(self):
        return next((o for o in self.operands if isinstance(o, Entry)), None)


@dataclass
class Translated:
    """A method of the card: instructions, handlers as in the class file with entries in place of classes, counts."""
    cards: list
    handlers: list
    stack: int
    arguments: int
    locals: int


class Translator:
    """Translates one method of a class."""

    def __init__(self, world, known, method):
        self.world, self.known, self.method, self.at = world, known, method, 0
        self.faults, self.cards, self.depth, self.used = [], [], 0, 0

    def translated(self):
        """The method of the card; or all that is refused, each line with each reason once."""
        self.tried(BEFORE, self.world.check_type, self.method.type)
        found = self.tried(BEFORE, self.whole)
        if self.faults:
            name = '%s.%s' % (dotted(self.known.name), self.method.name)
            lines = [(self.method.code.line(max(at, 0)), text) for at, text in sorted(self.faults)]
            switched = {line for line, text in lines if text == STRINGS}
            told = [(line, text) for line, text in lines if line not in switched or not OF_STRING.search(text)]
            raise Refusals([Refusal(text, with_line(name, line)) for line, text in dict.fromkeys(told)])
        return found

    def tried(self, at, work, *arguments):
        """What a work gives; where it is refused that is noted for a place of the code."""
        try:
            return work(*arguments)
        except Refusal as refusal:
            self.faults.append((refusal.place if isinstance(refusal.place, int) else at, refusal.text))
            return None

    def whole(self):
        code = self.method.code
        self.instructions = Decoder(code.bytes, self.known.file.pool).instructions()
        self.check_members()
        if code.locals > MOST:
            raise Refusal(TOO_MANY % (MOST, 'locals'))
        ranges = Ranges(self.method, self.instructions)
        self.faults += [(at, text) for at, text in ranges.faults.items() if at not in self.refused]
        self.refused.update(ranges.faults)
        self.states = ranges.states
        self.stops = {place for handler in code.handlers for place in handler[:3]}
        self.stops.update(target for i in self.instructions for target in i.targets)
        number = 0
        while number < len(self.instructions):
            waiting = self.instructions[number:number + 5]
            number += self.tried(waiting[0].at, self.translate, waiting) or 1
        arguments = len(parameters(self.method.type)) + (not self.method.has(STATIC))
        handlers = [(*places, self.tried(places[2], self.class_entry, caught) if caught else None)
                    for *places, caught in code.handlers]
        for count, word in (self.depth, 'operands'), (max(self.used, arguments), 'locals'):
            if count > MOST:
                raise Refusal(TOO_MANY % (MOST, word))
        return Translated(self.cards, handlers, self.depth, arguments, max(self.used - arguments, 0))

    def check_members(self):
        """Refuses instructions and members before numbers are looked at, so that the reason is the plainer one. What is
        refused so is looked at no more."""
        switches = {before.at: i.at for before, i in zip(self.instructions, self.instructions[1:])
                    if i.operation == 'switch' and HASH_OF_STRING in before.operands}
        self.faults += [(at, STRINGS) for at in switches]
        for instruction in self.instructions:
            if instruction.operation == 'refused':
                self.faults.append((instruction.at, instruction.operands[0]))
            for member in [operand for operand in instruction.operands if isinstance(operand, Reference)]:
                if instruction.at not in switches:
                    self.tried(instruction.at, self.check_member, member)
        self.refused = {at for at, _ in self.faults} | set(switches.values())

    def check_member(self, member):
        """Refuses a member that no class has, or whose type the profile hasn't: the member first."""
        if member != TESTS_NULL and not member.of.startswith('[') and not self.is_there(member):
            raise self.missing(member)
        self.world.check_type(member.type)

    def is_there(self, member):
        """Whether a member is one of its class or of those above. Of a class that isn't known it is as if it were, as
        the class is told; but not of one by a name of Java's or Java Card's own libraries, unless it is made anew."""
        if member.of not in self.world.known:
            return member.name == '<init>' or not LIBRARIES.match(member.of)
        above = list(self.world.chain(member.of))
        names = {name for k in above for name in [k.name, *k.interfaces]} | {OBJECT}
        return any(has_member(self.world.known[name], member) for name in names if name in self.world.known)

    def translate(self, waiting):
        """Translates the first of the instructions, perhaps with some behind it; gives how many. What is never reached
        is left out."""
        self.at, self.targets = waiting[0].at, waiting[0].targets
        if self.at not in self.states or self.at in self.refused:
            return 1
        self.depth = max(self.depth, len(self.states[self.at][1]))
        for fuse in self.increment_by, self.field_of_this, self.test_of_null:
            count = fuse(waiting)
            if count:
                return count
        getattr(self, 'on_' + waiting[0].operation)(*waiting[0].operands)
        return 1

    def emit(self, opcode, *operands, targets=()):
        self.cards.append(Card(self.at, opcode, operands, targets))

    # Several instructions in one

    def are_together(self, waiting, *operations):
        """Whether these operations stand first, and control flow comes only to the first of them."""
        some = waiting[:len(operations)]
        apart = self.stops | self.refused
        return [i.operation for i in some] == list(operations) and not any(i.at in apart for i in some[1:])

    def increment_by(self, waiting):
        """A short local plus or minus a constant is `sinc`."""
        if not self.are_together(waiting, 'load', 'push', 'operate', 'narrow', 'store'):
            return 0
        load, push, operator, narrow, store = (i.operands for i in waiting)
        by = {'add': push[0], 'sub': -push[0]}.get(operator[1], INT[1])
        if load != store or load[0] != 'i' or narrow != ('S',) or not lies_in((by, by), BYTE):
            return 0
        self.on_increment(load[1], by)
        return 5

    def field_of_this(self, waiting):
        """A field of the object in local 0."""
        if not self.are_together(waiting, 'load', 'field') or waiting[0].operands != ('a', 0):
            return 0
        of, how, field = waiting[1].operands
        if (of, how) != ('object', 'get'):
            return 0
        self.emit(OPCODES['getfield_%s_this' % FORMS.get(field.type, 'a')], self.field_entry(field))
        self.used = max(self.used, 1)
        return 2

    def test_of_null(self, waiting):
        """A test for null, as the compiler writes it for an object around a new one (x.new Inner()): null is thrown,
        and that throws what the class file's machine throws."""
        if waiting[0].operation != 'call' or waiting[0].operands != ('static', TESTS_NULL):
            return 0
        is_dropped = self.are_together(waiting, 'call', 'simple') and waiting[1].operands[-1] == OPCODES['pop']
        if not is_dropped:
            self.emit(OPCODES['dup'])
            self.depth = max(self.depth, len(self.states[self.at][1]) + 1)
        count = 2 if is_dropped else 1
        self.emit(OPCODES['ifnonnull'], targets=(waiting[count].at,))
        self.emit(OPCODES['aconst_null'])
        self.emit(OPCODES['athrow'])
        return count

    # Numbers, locals and the stack

    def on_simple(self, takes, gives, card):
        self.emit(card, targets=self.targets)

    def on_operate(self, takes, name, card):
        self.emit(card)

    def on_move(self, places, card):
        self.emit(card[0], *((1, byte) for byte in card[1:]))

    def on_push(self, number):
        number = (number + 0x8000) % 0x10000 - 0x8000
        if -1 <= number <= 5:
            self.emit(OPCODES['sconst_0'] + number)
        else:
            size, name = (1, 'bspush') if lies_in((number, number), BYTE) else (2, 'sspush')
            self.emit(OPCODES[name], (size, number))

    def access(self, name, local):
        """A load or a store of a local."""
        self.used = max(self.used, local + 1)
        if local < 4:
            self.emit(OPCODES[name + '_0'] + local)
        else:
            self.emit(OPCODES[name], (1, local))

    def on_load(self, kind, local):
        self.access('aload' if kind == 'a' else 'sload', local)

    def on_store(self, kind, local):
        self.access('astore' if kind == 'a' else 'sstore', local)

    def on_increment(self, local, by):
        self.used = max(self.used, local + 1)
        size = 1 if lies_in((by, by), BYTE) else 2
        self.emit(OPCODES['sinc' if size == 1 else 'sinc_w'], (1, local), (size, by))

    def on_narrow(self, kind):
        """A cast to short changes no word, nor does one to byte of what lies in a byte."""
        value = self.states[self.at][1][-1]
        if kind == 'B' and not (isinstance(value, tuple) and lies_in(value, BYTE)):
            self.emit(OPCODES['s2b'])

    def on_switch(self, kind, matches):
        """A switch; a case that no short can be is refused."""
        if any(not lies_in((m, m), SHORT) for m in matches):
            raise Refusal('a case of a switch isn\'t a short')
        self.emit(OPCODES['s%sswitch' % kind], *((2, m) for m in matches), targets=self.targets)

    def on_return(self, card):
        self.emit(OPCODES[card])

    # Arrays

    def on_new_words(self, kind):
        self.emit(OPCODES['newarray'], (1, KINDS[kind]))

    def on_new_references(self, name):
        if name.startswith('['):
            raise Refusal('an array of arrays isn\'t in the profile')
        self.emit(OPCODES['anewarray'], self.class_entry(name))

    # Classes, fields and methods

    def class_entry(self, name):
        return Entry('class', self.world.find(name).name)

    def on_new(self, name):
        self.emit(OPCODES['new'], self.class_entry(name))

    def tested(self, opcode, name):
        """A cast or a test: the kind stands in front of the entry."""
        if not name.startswith('['):
            self.emit(opcode, (1, 0), self.class_entry(name))
        else:
            self.world.check_type(name)
            element = name[1:]
            if element in KINDS:
                self.emit(opcode, (1, KINDS[element]), (2, 0))
            else:
                self.emit(opcode, (1, 14), self.class_entry(element[1:-1]))

    def on_cast(self, name):
        self.tested(OPCODES['checkcast'], name)

    def on_test(self, name):
        self.tested(OPCODES['instanceof'], name)

    def missing(self, member):
        known = self.world.known.get(member.of)
        is_of_api = LIBRARIES.match(member.of) and not (known and known.file)
        what = 'isn\'t in the profile\'s API' if is_of_api else 'isn\'t among the members that a package can name'
        return Refusal('%s.%s %s' % (dotted(member.of), member.name, what))

    def field_entry(self, member):
        """An entry for a field of objects, of the class that declares it."""
        for k in self.world.chain(member.of):
            if (member.name, member.type) in k.fields:
                return Entry('field', k.name, k.fields[member.name, member.type], member.type)
        raise self.missing(member)

    def static_entry(self, kind, k, key):
        """An entry for a static member or a constructor of a class that has it."""
        if k.file is not None:
            return Entry(kind, (k.name, key), None, key[1])
        table = k.static_methods if kind == 'static method' else k.static_fields
        return Entry(kind, k.name, table[key], key[1])

    def static_field_entry(self, member):
        key = member.name, member.type
        for k in self.world.chain(member.of):
            for name in [k.name, *k.interfaces]:
                if name in self.world.known and key in self.world.find(name).static_fields:
                    return self.static_entry('static field', self.world.find(name), key)
        raise self.missing(member)

    def on_field(self, of, how, member):
        entry = self.static_field_entry(member) if of == 'static' else self.field_entry(member)
        name = '%s%s_%s' % (how, 'static' if of == 'static' else 'field', FORMS.get(member.type, 'a'))
        self.emit(OPCODES[name], entry)

    def on_call(self, how, member):
        if member.of.startswith('['):
            raise Refusal('a method of an array isn\'t in the profile')
        getattr(self, 'call_' + how)(member, (member.name, member.type))

    def virtual_token(self, k, member):
        """The token of a virtual method, or None."""
        key = member.name, member.type
        return k.virtual.get(key, k.package_virtual.get(key))

    def is_private(self, k, key):
        method = method_of(k, key) if k.file else None
        return method is not None and method.has(PRIVATE) and not method.has(STATIC)

    def call_virtual(self, member, key):
        k = self.world.find(member.of)
        token = self.virtual_token(k, member)
        if self.is_private(k, key):
            self.emit(OPCODES['invokespecial'], self.static_entry('static method', k, key))
        elif token is None or k.is_interface:
            raise self.missing(member)
        else:
            self.emit(OPCODES['invokevirtual'], Entry('virtual', k.name, token, member.type))

    def call_special(self, member, key):
        """A constructor, a private method, or one of the class above."""
        k = self.world.find(member.of)
        if self.is_private(k, key) or member.name == '<init>' and key in k.static_methods:
            self.emit(OPCODES['invokespecial'], self.static_entry('static method', k, key))
            return
        token = self.virtual_token(k, member)
        if token is None or k.is_interface:
            raise self.missing(member)
        self.emit(OPCODES['invokespecial'], Entry('super', self.known.name, token, member.type))

    def call_static(self, member, key):
        for k in self.world.chain(member.of):
            if key in k.static_methods and member.name != '<init>':
                self.emit(OPCODES['invokestatic'], self.static_entry('static method', k, key))
                return
        raise self.missing(member)

    def call_interface(self, member, key):
        k = self.world.find(member.of)
        if k.is_interface and key in k.virtual:
            words = len(parameters(member.type)) + 1
            self.emit(OPCODES['invokeinterface'], (1, words), self.class_entry(k.name), (1, k.virtual[key]))
        elif key in self.world.find(OBJECT).virtual:
            token = self.world.find(OBJECT).virtual[key]
            self.emit(OPCODES['invokevirtual'], Entry('virtual', OBJECT, token, member.type))
        else:
            raise self.missing(member)


def translate(world, known, method):
    """A method of a class, for the card."""
    if method.code is None:
        raise Refusal('it has no code', place_of(known, method))
    return Translator(world, known, method).translated()
