"""Works out between which numbers each int of a method lies, so that shorts can stand in for ints.

A class file computes with 32 bits, a card with 16. The card's word always has the low 16 bits of the class file's int.
Sums, differences, products, shifts to the left and operations on bits need no more. A comparison, a quotient, a shift
to the right, a length and a switch do: there the int has to lie within a short, or the place is refused. A cast to
short or byte brings it back. An index may be more than a short's greatest number by as much as keeps it negative on the
card: no array has so many components, and both throw the same.

A value is a range, REFERENCE, TOLD where it comes from something that is refused for itself, or None where nothing is
known. An operand has a source beside it: a local and a number, where it is the sum of both as they are now, or None. By
that a comparison says something of a local, on either way that goes on from it.
"""
from heapq import heappop, heappush

from converter.classfile import Refusal, STATIC, parameters, result
from converter.numbers import BYTE, INT, OPERATORS, SHORT, common, left_of, lies_in, widened
from converter.world import MOST
from instructions import OPCODES

OF_TYPE = {'Z': BYTE, 'B': BYTE, 'S': SHORT}
REFERENCE, TOLD = 'reference', 'told'
GIVEN = {'r': REFERENCE, 'b': BYTE, 's': SHORT, 'l': (0, SHORT[1])}
NEEDED = {'e': SHORT, 'i': (SHORT[0], 0xFFFF)}
# The card's branches that compare numbers, by conditions.
WITH_ZERO, WITH_ANOTHER = (range(OPCODES[first], OPCODES[first] + 6) for first in ('ifeq', 'if_scmpeq'))
PATIENCE = 4  # how often a loop is looked at before its numbers are widened
MOST_WORK = 5000000  # values that are looked at: some seconds, and many times what a compiler's code takes
AT_ONCE = 3  # so many handlers or places are looked at as quickly as one value
TOO_MANY = 'the method needs more than %d %s'
WIDE = 'an int here may need more than 16 bits: cast the value to short or byte before'


def values_of(kind):
    """What is known of a value of a type, for each word of the class file's machine."""
    if kind in OF_TYPE:
        return [OF_TYPE[kind]]
    return [TOLD] * (2 if kind in 'JD' else 1) if kind in 'IJFDC' else [REFERENCE]


def joined(one, other):
    if isinstance(one, tuple) and isinstance(other, tuple):
        return min(one[0], other[0]), max(one[1], other[1])
    return TOLD if TOLD in (one, other) else one if one == other else None


class Ranges:
    """What is known before each instruction that is reached: `states` has locals, operands and sources, by places.
    `faults` has what is refused, by places."""

    def __init__(self, method, instructions):
        self.method, self.instructions = method, {i.at: i for i in instructions}
        order = [i.at for i in instructions]
        self.behind = dict(zip(order, order[1:]))
        self.heads = {target for i in instructions for target in i.targets if target <= i.at}
        self.heads.update(at for start, end, at, _ in method.code.handlers if at < end)
        self.states, self.visits, self.faults, self.waiting, self.never = {}, {}, {}, [], {}
        self.work = 0
        self.run()

    def run(self):
        first = [] if self.method.has(STATIC) else [REFERENCE]
        first += [value for kind in parameters(self.method.type) for value in values_of(kind)]
        self.arrive(0, tuple(first + [None] * (self.method.code.locals - len(first))), (), ())
        while self.waiting:
            self.visit(self.instructions[heappop(self.waiting)])
            if not self.waiting:
                self.reach_the_rest()

    def reach_the_rest(self):
        """Ways that no run takes are followed too where they lead to code that no other way leads to."""
        self.count_work(len(self.never) // AT_ONCE)
        for at, state in sorted(self.never.items()):
            if at not in self.states:
                self.arrive(at, *state)
                break

    def arrive(self, at, *state):
        """A state goes on at a place, and is joined with what has arrived there before."""
        if at not in self.instructions:
            raise Refusal('control flow goes on where no instruction is')
        if len(state[1]) > MOST:
            raise Refusal(TOO_MANY % (MOST, 'operands'))
        self.count_work(1 + len(state[0]) + len(state[1]))
        before = self.states.get(at)
        if before:
            state = self.with_one_before(at, before, state)
        if state != before:
            self.states[at] = state
            if at not in self.waiting:
                heappush(self.waiting, at)

    def with_one_before(self, at, before, now):
        if len(before[1]) != len(now[1]):
            raise Refusal('ways meet with unlike numbers of operands', at)
        self.visits[at] = self.visits.get(at, 0) + 1
        grows = at in self.heads and self.visits[at] > PATIENCE
        found = []
        for was, values in zip(before[:2], now):
            values = [joined(*pair) for pair in zip(was, values)]
            if grows:
                values = [widened(b, n) if isinstance(n, tuple) else n for b, n in zip(was, values)]
            found.append(tuple(values))
        return *found, tuple(b if b == n else None for b, n in zip(before[2], now[2]))

    def count_work(self, more):
        self.work += more
        if self.work > MOST_WORK:
            raise Refusal('it would take too long to work out its numbers')

    def visit(self, instruction):
        self.at = instruction.at
        locals, operands, sources = self.states[self.at]
        handlers = self.method.code.handlers
        self.count_work((len(self.waiting) + len(handlers)) // AT_ONCE)
        for at in dict.fromkeys(at for start, end, at, _ in handlers if start <= self.at < end):
            self.arrive(at, locals, (REFERENCE,), (None,))
        self.locals, self.operands, self.compared = list(locals), list(zip(operands, sources)), None
        getattr(self, 'on_' + instruction.operation)(*instruction.operands)
        for target in instruction.targets:
            self.go_on(target, 0)
        if not instruction.ends:
            self.go_on(self.behind.get(self.at), 1)

    def go_on(self, target, is_contrary):
        """Goes on at a place, behind a comparison with what its condition says, or its contrary."""
        operands, sources = zip(*self.operands) if self.operands else ((), ())
        locals = self.locals if self.compared is None else self.locals_where(is_contrary)
        if locals is None:
            self.never[target] = tuple(self.locals), operands, sources
        else:
            self.arrive(target, tuple(locals), operands, sources)

    def locals_where(self, is_contrary):
        """The locals where a condition holds, or its contrary; None where that is never so."""
        condition, pairs = self.compared
        found = left_of(condition ^ is_contrary, *[value for value, _ in pairs])
        locals = list(self.locals)
        for (low, high), (_, source) in zip(found or [], pairs):
            if source and isinstance(locals[source[0]], tuple):
                local, more = source
                locals[local] = common(locals[local], (low - more, high - more))
                if locals[local] is None:
                    return None
        return locals if found else None

    # Operands

    def give(self, *values):
        self.operands += [(value, None) for value in values]

    def taken(self, wanted):
        """Takes as many operands as are wanted, the last one on top, each with its source."""
        return [self.take(one) for one in reversed(wanted)][::-1]

    def take(self, wanted='x'):
        """Takes the operand on top; a number that is wanted exactly has to lie within the range for it."""
        value, source = self.operands.pop()
        if wanted in 'nei' and not isinstance(value, tuple):
            if value == TOLD:
                return TOLD, None
            value, source = INT, None
        if wanted in NEEDED and not lies_in(value, NEEDED[wanted]):
            self.faults.setdefault(self.at, WIDE)
        return value, source

    def typed(self, kind):
        """Takes a value as one of a type."""
        for _ in values_of(kind):
            value, _ = self.take('n' if kind in OF_TYPE else 'x')
        if kind in OF_TYPE and value != TOLD and not lies_in(value, OF_TYPE[kind]):
            self.faults.setdefault(self.at, WIDE)

    def local_changes(self, local, by=None):
        """A local is another one from now on, or more by a number."""
        for number, (value, source) in enumerate(self.operands):
            if source and source[0] == local:
                self.operands[number] = value, None if by is None else (local, source[1] - by)

    # Instructions

    def on_refused(self, text, takes, gives):
        self.taken('x' * takes)
        self.give(*[TOLD] * gives)

    def on_simple(self, takes, gives, card):
        pairs = self.taken(takes)
        if card in WITH_ZERO:
            pairs.append(((0, 0), None))
        if (card in WITH_ZERO or card in WITH_ANOTHER) and TOLD not in [value for value, _ in pairs]:
            self.compared = (card - (WITH_ZERO if card in WITH_ZERO else WITH_ANOTHER)[0]), pairs
        self.give(*[GIVEN[gives]] if gives else [])

    def on_operate(self, takes, name, card):
        pairs = self.taken(takes)
        values = [value for value, _ in pairs]
        if TOLD in values:
            self.give(TOLD)
        else:
            self.operands.append((OPERATORS[name](*values), self.source_of(name, pairs)))

    def source_of(self, name, pairs):
        """The source of a sum or a difference of a number that has one and a constant, where 32 bits have room."""
        by = {'add': 1, 'sub': -1}.get(name)
        if by and pairs[1][1] and name == 'add':
            pairs = pairs[::-1]
        if not by or not pairs[0][1] or pairs[1][0][0] != pairs[1][0][1]:
            return None
        (value, (local, more)), ((constant, _), _) = pairs
        return (local, more + by * constant) if self.has_room(value, by * constant) else None

    def has_room(self, value, by):
        return lies_in((value[0] + by, value[1] + by), INT)

    def on_move(self, places, card):
        top = [self.take() for _ in range(max(places))]
        self.operands += [top[place - 1] for place in places]

    def on_push(self, number):
        self.give((number, number))

    def number_in(self, local):
        """The number in a local."""
        value = self.locals[local]
        return value if isinstance(value, tuple) or value == TOLD else INT

    def on_load(self, kind, local):
        self.operands.append((self.number_in(local), (local, 0)) if kind == 'i' else (REFERENCE, None))

    def on_store(self, kind, local):
        self.locals[local], _ = self.take()
        self.local_changes(local)

    def on_increment(self, local, by):
        value = self.number_in(local)
        if value != TOLD:
            self.locals[local] = OPERATORS['add'](value, (by, by))
            self.local_changes(local, by if self.has_room(value, by) else None)

    def on_narrow(self, kind):
        value, source = self.take('n')
        is_kept = value != TOLD and lies_in(value, OF_TYPE[kind])
        self.operands.append((value, source) if is_kept else (OF_TYPE[kind], None))

    def on_switch(self, kind, matches):
        self.take('e')

    def on_return(self, card):
        if card != 'return':
            self.typed(result(self.method.type))

    def on_field(self, of, how, field):
        if how == 'put':
            self.typed(field.type)
        if of == 'object':
            self.take()
        if how == 'get':
            self.give(*values_of(field.type))

    def on_call(self, how, method):
        for kind in reversed(parameters(method.type)):
            self.typed(kind)
        if how != 'static':
            self.take()
        if result(method.type) != 'V':
            self.give(*values_of(result(method.type)))

    def on_new(self, name):
        self.give(REFERENCE)

    def on_new_words(self, kind):
        self.take('e')
        self.give(REFERENCE)

    on_new_references = on_new_words

    def on_cast(self, name):
        pass

    def on_test(self, name):
        self.take()
        self.give((0, 1))
