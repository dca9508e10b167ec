"""Works out the least certificate of a package from what it says (tests/packages.py): a state at each place where a branch or a handler goes
on, and at no other, and each the least. Tests and their order are those of docs/profile/check.md, what instructions do to types is what
tests/effects.table says. It is written from these, and shares nothing with the program. It asks for packages that can be linked.
"""
import re
from collections import Counter

from assembler import ENDS, FORMS
from lookups import *

class Fault(Exception):
    """A reason, or a pc and a reason, why there is no certificate."""


# ---- instructions

NAMES = {opcode: (name, kinds) for name, (opcode, kinds) in FORMS.items()}
SHAPES = {
    'dup_x': [16 * m + n for m in range(1, 5) for n in (0, *range(m, m + 5))], 'swap_x': [0x11, 0x12, 0x21, 0x22], 'newarray': [10, 11, 12],
    'checkcast': [0, 10, 11, 12, 14], 'instanceof': [0, 10, 11, 12, 14],
}


def decoded(code, pc):
    """The instruction at a pc: its name, its operands, where it branches, and what stands behind it."""
    if code[pc] not in NAMES:
        raise Fault(pc, 'BadOpcode')
    name, kinds = NAMES[code[pc]]
    at, operands = pc + 1, []

    def number(kind):
        nonlocal at
        at += int(kind[1])
        if at > len(code):
            raise Fault(pc, 'CutShort')
        return int.from_bytes(code[at - int(kind[1]):at], 'big', signed=kind[0] in 'sb')

    if kinds in (['table'], ['pairs']):
        targets = [pc + number('s2')]
        if kinds == ['pairs']:
            return name, [], targets + [pc + (number('s2'), number('s2'))[1] for _ in range(number('u2'))], at
        low, high = number('s2'), number('s2')
        if low > high:
            raise Fault(pc, 'BadOperand')
        return name, [], targets + [pc + number('s2') for _ in range(low, high + 1)], at
    for kind in kinds:
        operands.append(number(kind))
        if operands[0] not in SHAPES.get(name, operands):
            raise Fault(pc, 'BadOperand')
    return name, operands, [pc + o for o, kind in zip(operands, kinds) if kind[0] == 'b'], at


# What is taken and given where no operand says it: w a word, r a reference, x anything, n null, and arrays or null: R of references, B of
# bytes or booleans, S of shorts, Y any.
SIMPLE = """
nop|goto - -   aconst_null - n   sconst_.*|.*push - w   baload Bw w   saload Sw w   aastore Rwr -   bastore Bww -   sastore Sww -   pop x -   pop2 xx -
sadd|ssub|smul|sdiv|srem|sshl|sshr|sushr|sand|sor|sxor ww w   sneg|s2b w w   if(eq|ne|lt|ge|gt|le) w -   if(non)?null r -   if_acmp.. rr -   if_scmp.. ww -
s(table|lookup)switch w -   arraylength Y w
""".split()
SIMPLE = {name: (takes, gives) for pattern, takes, gives in zip(*[iter(SIMPLE)] * 3) for name in FORMS if re.fullmatch(pattern, name)}
WORDY, ANY, REFERRING = lambda t: t == WORD, lambda t: True, lambda t: t not in (TOP, WORD)
OF_REFERENCES = lambda t: t == NULL or isinstance(t, Reference) and t.is_array
WANTED = {
    'w': WORDY, 'r': REFERRING, 'x': ANY, 'R': OF_REFERENCES, 'B': [NULL, BYTES, BOOLEANS].__contains__, 'S': [NULL, SHORTS].__contains__,
    'Y': lambda t: OF_REFERENCES(t) or t in ARRAYS,
}
KINDS = {10: BOOLEANS, 11: BYTES, 12: SHORTS}
FORM = {'a': lambda kind: kind not in PRIMITIVES, 'b': (BOOLEAN, BYTE).__contains__, 's': (SHORT,).__contains__}


@dataclass
class Effect:
    """What an instruction asks of a local and of operands, and what it puts in their place; it may be possible on no state."""
    takes: list = ()
    gives: object = ()  # types, or a function of the operands that are taken and the local
    local: int = None
    wants: object = ANY
    stores: bool = False
    possible: bool = True


class Flow:
    """A method of the last package of a world, and what control flow carries through it."""

    def __init__(self, world, of, m):
        self.world, self.at, self.m, self.faults = world, len(world.packages) - 1, m, set()
        this = [] if m.static else [Reference((self.at, of.name))]
        self.entry, self.gives = (this + world.arguments(self.at, m) + [TOP] * m.locals, []), world.declared(self.at, m.gives)
        self.pool = world.packages[self.at].pool

    # What instructions do

    def entry_at(self, index, *kinds):
        if index >= len(self.pool) or self.pool[index].kind not in kinds:
            raise Fault('BadOperand')
        return self.pool[index]

    def class_at(self, index):
        return self.world.class_at(self.at, self.entry_at(index, 'class').of)

    def field(self, name, index):
        takes, local, wants = [], None, ANY
        if 'static' in name:
            home, offset = self.world.static(self.at, self.entry_at(index, 'static field').of, 1)
            kind = next(f.type for d in self.world.packages[home].classes for f in d.fields if f.offset == offset)
        else:
            e = self.entry_at(index, 'field')
            home, of = self.world.class_at(self.at, e.of)
            kind = next(f.type for f in self.world.classes[home, of].fields if f.offset is None and f.token == e.token)
            wants = self.world.under(Reference((home, of)))
            takes, local, wants = ([], 0, wants) if name.endswith('_this') else ([wants], None, ANY)
        t, = self.world.declared(home, kind)
        takes, gives = (takes + [self.world.under(t)], []) if name[0] == 'p' else (takes, [t])
        return Effect(takes, gives, local, wants, possible=FORM[name.split('_')[1]](kind))

    def called(self, name, operands):
        """The package and the method that a call names, and what its object has to be, if it has one."""
        if name == 'invokeinterface':
            count, index, token = operands
            c = self.class_at(index)
            m = next((m for m in self.world.classes[c].methods if m.token == token), None)
            if not self.world.classes[c].interface or m is None or len(m.takes) + 1 != count:
                raise Fault('BadOperand')
            return c[0], m, [REFERRING]
        e = self.entry_at(operands[0], *{'invokevirtual': ['virtual'], 'invokestatic': ['static method']}.get(name, ['super', 'static method']))
        if e.kind != 'static method':
            c = self.world.class_at(self.at, e.of)
            return *self.world.virtual(self.at, self.world.chain(c)[e.kind == 'super'], e.token), [self.world.under(Reference(c))]
        home, of = self.world.static(self.at, e.of, 2)
        c, m = self.world.methods[home, of]
        if m.static != (name == 'invokestatic'):
            raise Fault('BadOperand')
        return home, m, [] if m.static else [self.world.under(Reference((home, c.name)))]

    def effect(self, name, o):
        if found := re.fullmatch('([as])(load|store)(_(.))?', name):
            wants, local = REFERRING if found[1] == 'a' else WORDY, int(found[4]) if found[4] else o[0]
            return Effect([], lambda taken, held: [held], local, wants) if found[2] == 'load' else Effect([wants], [], local, stores=True)
        if name in SIMPLE:
            return Effect([WANTED[t] for t in SIMPLE[name][0].strip('-')], [{'w': WORD, 'n': NULL}[t] for t in SIMPLE[name][1].strip('-')])
        if name.startswith(('get', 'put')):
            return self.field(name, o[0])
        if name.startswith('invoke'):
            home, m, this = self.called(name, o)
            return Effect(this + list(map(self.world.under, self.world.arguments(home, m))), self.world.declared(home, m.gives))
        if name.startswith('dup') or name == 'swap_x':
            m, n = divmod(o[0], 16) if o else (2 if name == 'dup2' else 1, 0)
            swaps = name == 'swap_x'
            return Effect([ANY] * (m + n if swaps else max(m, n)), lambda taken, held: taken[n:] + taken[:n] if swaps else taken[-m:] + taken)
        if name in ('checkcast', 'instanceof'):
            t = KINDS[o[0]] if o[0] in KINDS else self.world.reference(self.class_at(o[1]), o[0] == 14)
            return Effect([REFERRING], [t if name == 'checkcast' else WORD])
        if name in ('new', 'anewarray'):
            c = self.class_at(o[0])
            is_open = self.world.classes[c].interface or self.world.classes[c].abstract
            return Effect([], [Reference(c)], possible=not is_open) if name == 'new' else Effect([WORDY], [self.world.reference(c, True)])
        result = [t for t in self.gives if t != WORD]
        return {
            'sinc': lambda: Effect(local=o[0], wants=WORDY),
            'newarray': lambda: Effect([WORDY], [KINDS[o[0]]]),
            'aaload': lambda: Effect([OF_REFERENCES, WORDY], lambda taken, held: [NULL if taken[0] == NULL else Reference(taken[0].to)]),
            'areturn': lambda: Effect([self.world.under(*result) if result else ANY], possible=bool(result)),
            'sreturn': lambda: Effect([WORDY], possible=self.gives == [WORD]),
            'return': lambda: Effect(possible=not self.gives),
            'athrow': lambda: Effect([self.world.under(THROWABLE)]),
        }[name]()

    def changed(self, name, operands, locals, stack):
        """The state behind an instruction. Reasons against it in turn: the entry, a local, how many operands, their types, room."""
        e = self.effect(name.removesuffix('_w'), operands)
        if e.local is not None and e.local >= len(locals):
            raise Fault('BadLocal')
        if len(e.takes) > len(stack):
            raise Fault('StackUnder')
        below = len(stack) - len(e.takes)
        rest, taken, held = stack[:below], stack[below:], None if e.local is None else locals[e.local]
        if not (e.possible and e.wants(held) and all(wants(t) for wants, t in zip(e.takes, taken))):
            raise Fault('WrongType')
        rest = rest + list(e.gives(taken, held) if callable(e.gives) else e.gives)
        if len(rest) > self.m.stack:
            raise Fault('StackOver')
        return (locals[:e.local] + taken + locals[e.local + 1:] if e.stores else locals), rest

    # Where control flow goes

    def read(self):
        """The instructions by their pcs, and what handlers cover and catch: the first fault ends this."""
        code, self.code, self.caught, pc = self.m.code, {}, [], 0
        if not code:
            raise Fault(0, 'FallsOff')
        while pc < len(code):
            self.code[pc] = decoded(code, pc)
            pc = self.code[pc][3]
        for h in self.m.handlers:
            if h.at not in self.code:
                raise Fault(h.at, 'NoTarget')
            e = self.pool[h.catches] if 0 < h.catches < len(self.pool) else None
            c = Reference(self.world.class_at(self.at, e.of)) if e and e.kind == 'class' else NULL if h.catches else THROWABLE
            if c == NULL or not self.world.under(THROWABLE)(c):
                raise Fault(h.at, 'WrongType')
            self.caught.append((range(h.start, h.start + h.length % 0x8000), h.at, c))

    def find_places(self):
        """The pcs at which a branch or a handler goes on from what control flow reaches, whatever the values."""
        self.places, live, to_see = set(), set(), {0}
        while to_see:
            pc = to_see.pop()
            live.add(pc)
            name, _, targets, behind = self.code[pc]
            falls = set() if name in ENDS else {behind}
            self.faults |= {(pc, 'NoTarget') for target in targets if target not in self.code}
            self.faults |= {(pc, 'FallsOff') for target in falls if target not in self.code}
            entered = {at for at in targets if at in self.code} | {at for covers, at, _ in self.caught if pc in covers}
            self.places |= entered
            to_see |= {at for at in entered | falls if at in self.code and at not in live}

    def arrive(self, source, pc, locals, stack):
        """A state goes on from a pc, the entry's from None, to a place: the one there becomes the least above both. Where ways of unlike depths
        meet each goes on by itself, as it isn't said which is told."""
        at, came = (pc, len(stack)), (locals, stack)
        self.sources.setdefault(at, set()).add(source)
        held = self.states.get(at, came)
        self.states[at] = tuple([self.world.joined(t, u) for t, u in zip(a, b)] for a, b in zip(held, came))
        if held != self.states[at] or at not in self.seen:
            self.waiting.add(at)

    def visit(self, pc, locals, stack):
        """What goes on behind an instruction where no place is, once its state has gone on to places."""
        name, operands, targets, behind = self.code[pc]
        for covers, at, caught in self.caught:
            if pc in covers and self.m.stack == 0:
                raise Fault('CertMismatch')
            if pc in covers:
                self.arrive(pc, at, locals, [caught])
        locals, stack = self.changed(name, operands, locals, stack)
        on = targets if name in ENDS else [*targets, behind]
        for at in self.places.intersection(on):
            self.arrive(pc, at, locals, stack)
        return None if name in ENDS or behind in self.places or behind not in self.code else (behind, locals, stack)

    def follow(self, *at):
        while at:
            pc = at[0]
            try:
                at = self.visit(*at)
            except Fault as fault:
                self.faults.add((pc, *fault.args))
                return

    def settle(self):
        """States at places rise until none is to be looked at again."""
        self.states, self.sources, self.waiting, self.seen = {}, {}, set(), set()
        if 0 in self.places:
            self.arrive(None, 0, *self.entry)
        else:
            self.follow(0, *self.entry)
        while self.waiting:
            at = self.waiting.pop()
            self.seen.add(at)
            self.follow(at[0], *self.states[at])
        depths = Counter(pc for pc, _ in self.states)
        for (pc, _), sources in self.sources.items():
            self.faults |= {(source, 'CertMismatch') for source in sources - {None} if depths[pc] > 1}

    def least(self):
        """The least states by their pcs, and the faults that may be told, none where there are states."""
        try:
            self.read()
            self.find_places()
            self.settle()
        except Fault as fault:
            self.faults.add(fault.args)
        return {} if self.faults else {pc: held for (pc, _), held in self.states.items()}, self.faults


def spelled(packages, t):
    """A type as a certificate of the last package says it."""
    if not isinstance(t, Reference):
        return t
    home, name = t.to
    if home < 2:
        return Reference(Api(1 + [c.name for p in packages[:2] for c in p.classes].index(name)), t.is_array)
    return Reference(name if home == len(packages) - 1 else Foreign(packages[home].aid, Image(packages[home]).classes[name]), t.is_array)


def certificate(packages):
    """Of the last package its certificate and None, or None and why there is none: the offset of the method that is told, and the faults that
    may be told of it."""
    world, places, rows = World(packages), Image(packages[-1]), []
    methods = [(places.methods[m.name], c, m) for c in packages[-1].classes if not c.interface for m in c.methods if not m.abstract]
    for offset, c, m in sorted(methods, key=lambda row: row[0]):
        states, faults = Flow(world, c, m).least()
        if faults:
            return None, (offset, faults)
        if states:
            rows.append((offset, [(pc, *([spelled(packages, t) for t in types] for types in states[pc])) for pc in sorted(states)]))
    return places.certificate(*rows), None
