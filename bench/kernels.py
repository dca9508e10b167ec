"""The kernels of bench/calls: two packages written as text, the turns of each kernel, and the same packages with all
references resolved, as calls_limit.c reads them.

Each kernel is a static method of the second package that takes how many turns to make and gives a word. The first
package has the object that is called across contexts, which its method `start` makes.
"""
import os
import sys
from dataclasses import dataclass
from struct import pack

HERE = os.path.dirname(os.path.abspath(__file__))
sys.path.insert(0, os.path.join(os.path.dirname(HERE), 'tests'))
sys.dont_write_bytecode = True
from assembler import assemble  # noqa: E402
from packages import *  # noqa: E402

EXCEPTION = Imported(0, 2)
UTIL = 9  # its token
TURN = ((SHORT,), SHORT)

# The server's package

SERVICE, SERVER = 'Service', 'Server'
SERVER_POOL = {
    'Server': Entry('class', SERVER),
    'total': Entry('field', SERVER, 0, SHORT),
    'the_one': Entry('static field', 0, type=Reference(SERVER)),
}
SERVER_CODE = {
    'start': 'new Server; putstatic_a the_one; return',
    'add': 'getfield_s_this total; sload_1; sadd; putfield_s_this total; getfield_s_this total; sreturn',
}

# The package of the kernels

SHAPE, ACCOUNT, NODE, MINE, OP = 'Shape', 'Account', 'Node', 'Mine', 'Op'
# The card puts a global array, as the APDU buffer is one, and an array that is cleared on deselect into static fields.
BUFFER_OFFSET, CLEARED_OFFSET = 2, 4
POOL = {
    'Square': Entry('class', 'Square'),
    'Disc': Entry('class', 'Disc'),
    'Twice': Entry('class', 'Twice'),
    'Minus': Entry('class', 'Minus'),
    'Account': Entry('class', ACCOUNT),
    'Node': Entry('class', NODE),
    'Mine': Entry('class', MINE),
    'Op': Entry('class', OP),
    'Service': Entry('class', Imported(2, 0)),
    'x': Entry('field', ACCOUNT, 0, SHORT),
    'y': Entry('field', ACCOUNT, 1, SHORT),
    'low': Entry('field', ACCOUNT, 2, BYTE),
    'next': Entry('field', NODE, 0, Reference(NODE)),
    'area': Entry('virtual', SHAPE, 1, TURN),
    'edge': Entry('virtual', SHAPE, 2, TURN),
    'turns': Entry('virtual', ACCOUNT, 1, ((Reference(ACCOUNT), SHORT), SHORT)),
    'mine': Entry('static field', 0, type=Reference(MINE)),
    'buffer': Entry('static field', BUFFER_OFFSET, type=BYTES),
    'cleared': Entry('static field', CLEARED_OFFSET, type=BYTES),
    'count': Entry('static field', 6, type=SHORT),
    'small': Entry('static field', 8, type=BYTE),
    'the_one': Entry('static field', (2, 1, 0), type=Reference(Imported(2, 1))),
    'fib': Entry('static method', 'fib', type=TURN),
    'deep': Entry('static method', 'deep', type=TURN),
    'getShort': Entry('static method', (1, UTIL, 4), type=((BYTES, SHORT), SHORT)),
    'setShort': Entry('static method', (1, UTIL, 5), type=((BYTES, SHORT, SHORT), SHORT)),
    'arrayCopy': Entry('static method', (1, UTIL, 0), type=((BYTES, SHORT, BYTES, SHORT, SHORT), SHORT)),
}

# What methods of objects do.
METHODS = {
    'Square.area': 'sload_1; sload_1; sadd; sreturn',
    'Square.edge': 'sload_1; sconst_3; ssub; sreturn',
    'Disc.area': 'sload_1; sconst_5; sxor; sreturn',
    'Shape.edge': 'sload_1; sconst_1; sadd; sreturn',
    'Twice.apply': 'sload_1; sload_1; sadd; sreturn',
    'Minus.apply': 'bspush 7; sload_1; ssub; sreturn',
    'turns': '''
        outer: sload_2; ifeq done; sspush 1000; sstore_3
        inner: getfield_s_this x; aload_1; getfield_s y; sadd; putfield_s_this x
        aload_1; getfield_s_this x; sload_3; sxor; putfield_s y
        getfield_s_this x; putfield_s_this y
        aload_1; getfield_b_this low; putfield_b low
        sinc 3 -1; sload_3; ifne inner; sinc 2 -1; goto outer
        done: getfield_s_this x; sreturn''',
    'fib': '''
        sload_0; sconst_2; if_scmpge more; sload_0; sreturn
        more: sload_0; sconst_1; ssub; invokestatic fib; sload_0; sconst_2; ssub; invokestatic fib; sadd; sreturn''',
    'deep': 'getstatic_a mine; athrow',
}


def loop(body, first='', inner=1000, step=-1):
    """So many times as local 0 says, `inner` turns of a body that is handed their number in local 1 and keeps its
    result in local 2."""
    return '''%s; sconst_0; sstore_2
        outer: sload_0; ifeq_w done; sspush %d; sstore_1
        inner: %s
        sinc 1 %d; sload_1; ifne_w inner; sinc 0 -1; goto_w outer
        done: sload_2; sreturn''' % (first or 'nop', inner, body, step)


TWO_SHAPES = 'new Square; astore_3; new Disc; astore 4'
TWO_OPS = 'new Twice; astore_3; new Minus; astore 4'
CHANGE = 'aload_3; aload 4; astore_3; astore 4'
SUM = 'aload_3; sload_1; baload; sload_2; sadd; sstore_2'
NATIVES = '''
    aload_3; sload_1; invokestatic getShort; sload_2; sadd; sstore_2
    aload_3; sload_1; sconst_1; ssub; sload_2; invokestatic setShort; pop
    aload_3; sload_1; sconst_2; ssub; aload_3; sload_1; bspush 8; invokestatic arrayCopy; pop'''


@dataclass(frozen=True)
class Kernel:
    """What it measures, its code, how many turns are made, and what its code from `start` to `end` catches at `h`."""
    what: str
    code: str
    turns: int
    catches: int = None


KERNELS = {
    'words': Kernel('words of one frame', loop('sload_2; sload_1; sadd; sstore_2'), 1000),
    'static': Kernel('fib by invokestatic', '''
        sconst_0; sstore_1
        outer: sload_0; ifeq done; bspush 15; invokestatic fib; sload_1; sadd; sstore_1; sinc 0 -1; goto outer
        done: sload_1; sreturn''', 150),
    'virtual': Kernel('invokevirtual', loop(
        'aload_3; sload_2; invokevirtual area; aload 4; sload_1; invokevirtual edge; sadd; sstore_2; ' + CHANGE,
        TWO_SHAPES), 120),
    'interface': Kernel('invokeinterface', loop(
        'aload_3; sload_2; sload_1; sadd; invokeinterface 2 Op 0; sstore_2; ' + CHANGE, TWO_OPS), 150),
    'switch': Kernel('a call that switches the context', loop(
        'aload_3; sload_1; invokeinterface 2 Service 0; sload_2; sxor; sstore_2',
        'getstatic_a the_one; astore_3'), 200),
    'fields': Kernel('fields of objects', 'new Account; new Account; sload_0; invokevirtual turns; sreturn', 120),
    'bytes': Kernel('arrays of bytes: a sieve', '''
        sspush 200; newarray 11; astore_3; sconst_0; sstore_2
        outer: sload_0; ifeq_w done; sconst_0; sstore_1
        clear: aload_3; sload_1; sconst_0; bastore; sinc 1 1; sload_1; sspush 200; if_scmplt clear
        sconst_2; sstore_1
        next: aload_3; sload_1; baload; ifne no
        sinc 2 1; sload_1; sload_1; sadd; sstore 4; goto test
        cross: aload_3; sload 4; sconst_1; bastore; sload 4; sload_1; sadd; sstore 4
        test: sload 4; sspush 200; if_scmplt cross
        no: sinc 1 1; sload_1; sspush 200; if_scmplt next; sinc 0 -1; goto_w outer
        done: sload_2; sreturn''', 400),
    'shorts': Kernel('arrays of shorts', loop(
        'aload_3; sload_1; aload_3; sload_1; saload; sload_2; sadd; sastore; '
        'aload_3; sload_1; sconst_1; ssub; saload; sload_1; sxor; sstore_2',
        'sspush 1001; newarray 12; astore_3'), 150),
    'own': Kernel('bytes of an own array', loop(SUM, 'sspush 200; newarray 11; astore_3', 180), 800),
    'buffer': Kernel('bytes of a global array', loop(SUM, 'getstatic_a buffer; astore_3', 180), 800),
    'cleared': Kernel('bytes of an array cleared on deselect', loop(SUM, 'getstatic_a cleared; astore_3', 180), 800),
    'statics': Kernel('static fields', loop(
        'getstatic_s count; sload_1; sadd; putstatic_s count; getstatic_b small; getstatic_s count; sadd; s2b; '
        'putstatic_b small; getstatic_s count; getstatic_b small; sxor; putstatic_s count; getstatic_s count; '
        'sstore_2'), 150),
    'objects': Kernel('new objects', '''
        aconst_null; astore_1
        next: sload_0; ifeq done; new Node; dup; aload_1; putfield_a next; astore_1; sinc 0 -1; goto next
        done: sconst_0; sreturn''', 21000),
    'caught': Kernel('throws that the frame catches', loop(
        'start: aload_3; athrow; end: h: pop; sload_1; sload_2; sxor; sstore_2', 'new Mine; astore_3'), 150, 6),
    'one_up': Kernel('throws that the caller catches', loop(
        'start: sload_1; invokestatic deep; pop; end: goto on; h: pop; sload_1; sload_2; sxor; sstore_2; on: nop',
        'new Mine; putstatic_a mine'), 120, 6),
    'natives': Kernel('native members: getShort, setShort, arrayCopy', loop(
        NATIVES, 'sspush 200; newarray 11; astore_3', 180, -2), 800),
    'global': Kernel('native members on a global array', loop(NATIVES, 'getstatic_a buffer; astore_3', 180, -2), 800),
}


def method(name, text, pool, **more):
    code, labels = assemble(text, list(pool))
    handlers = ()
    if 'h' in labels and 'catches' in more:
        handlers = (Handler(labels['start'], labels['end'] - labels['start'], labels['h'], more.pop('catches')),)
    more.pop('catches', None)
    return Method(name, code=code, handlers=handlers, stack=8, **more)


def server():
    """The package of the server: a shareable interface, and a class with one object."""
    interface = Class(SERVICE, OBJECT, interface=True, interfaces=[(SHAREABLE, [])],
                      methods=[Method('Service.add', *TURN)])
    one = cls(SERVER, size=1, fields=[Field(SHORT, 0), Field(Reference(SERVER), offset=0)],
              public=table('add', base=1), interfaces=[(SERVICE, [1]), (SHAREABLE, [])],
              methods=[method('start', SERVER_CODE['start'], SERVER_POOL, static=True),
                       method('add', SERVER_CODE['add'], SERVER_POOL, takes=(SHORT,), gives=SHORT, token=1)])
    return package(1, interface, one, pool=list(SERVER_POOL.values()), statics=Statics(references=1),
                   exports=[(SERVICE, [], []), (SERVER, [0], [])])


def of_objects(name, token, takes=(SHORT,)):
    return method(name, METHODS[name], POOL, takes=takes, gives=SHORT, token=token)


def kernels():
    """The package of the kernels."""
    fields = [Field(SHORT, 0), Field(SHORT, 1), Field(BYTE, 2)]
    statics = [Field(Reference(MINE), offset=0), Field(BYTES, offset=BUFFER_OFFSET),
               Field(BYTES, offset=CLEARED_OFFSET), Field(SHORT, offset=6), Field(BYTE, offset=8)]
    static = {name: METHODS[name] for name in ('fib', 'deep')}
    called = [method(name, text, POOL, takes=(SHORT,), gives=SHORT, static=True) for name, text in static.items()]
    called += [method(name, k.code, POOL, takes=(SHORT,), gives=SHORT, static=True, locals=6, catches=k.catches)
               for name, k in KERNELS.items()]
    above = Method('Shape.area', *TURN, token=1, abstract=True)
    classes = [
        Class(OP, OBJECT, interface=True, methods=[Method('Op.apply', *TURN)]),
        cls(SHAPE, public=table('Shape.area', 'Shape.edge', base=1), abstract=True,
            methods=[above, of_objects('Shape.edge', 2)]),
        cls('Square', SHAPE, public=table('Square.area', 'Square.edge', base=1),
            methods=[of_objects('Square.area', 1), of_objects('Square.edge', 2)]),
        cls('Disc', SHAPE, public=table('Disc.area', 'Shape.edge', base=1), methods=[of_objects('Disc.area', 1)]),
        cls('Twice', public=table('Twice.apply', base=1), interfaces=[(OP, [1])],
            methods=[of_objects('Twice.apply', 1)]),
        cls('Minus', public=table('Minus.apply', base=1), interfaces=[(OP, [1])],
            methods=[of_objects('Minus.apply', 1)]),
        cls(ACCOUNT, size=3, fields=fields, public=table('turns', base=1),
            methods=[of_objects('turns', 1, (Reference(ACCOUNT), SHORT))]),
        cls(NODE, size=1, fields=[Field(Reference(NODE), 0)]),
        cls(MINE, EXCEPTION),
        cls('Kernels', fields=statics, methods=called),
    ]
    return package(2, *classes, pool=list(POOL.values()), statics=Statics(references=3, defaults=3),
                   imports=[*API, (aid(1), (1, 0))])


# With all references resolved

# The API's classes by their tokens, and the class above each, as its number from 0 on.
LANG_CLASSES = 12
ABOVE_OF = [-1, 0, 1, 2, 3, 3, 3, 3, 7, 3, 3, 3, -1, 3, 13, 13, 13, 0, 0, 0, 0, 0]
SHAREABLE_NUMBER = 12
# The native members that are called, by what a pool says of each: how many words they take.
NATIVES = {(1, UTIL, 0): 5, (1, UTIL, 4): 2, (1, UTIL, 5): 3}
INSTANCES_OF = [4, 5, 6, 8, 9, 10, 11, 14, 15, 16]  # the runtime's exceptions, in the order of their numbers


class Resolved:
    """The packages with numbers in place of references: of classes, of methods, of cells and of static fields."""

    def __init__(self, packages):
        self.images = [Image(p) for p in packages]
        self.classes = [{'super': above, 'cells': 0, 'virtual': [], 'lists': [], 'shared': 0} for above in ABOVE_OF]
        self.methods, self.handlers, self.pool, self.statics, self.code = [], [], [], 0, b''
        self.numbers = {}
        for number, native in enumerate(NATIVES):
            self.numbers[native] = number
            self.methods.append([0, 0, NATIVES[native], 0, 0, number + 1, 0, 0])
        self.static_starts = []
        for at, image in enumerate(self.images):
            self.add(at, image)

    def class_of(self, at, to):
        if isinstance(to, str):
            return self.numbers[at, to]
        if to.package < 2:
            return to.token + LANG_CLASSES * to.package
        return self.numbers[0, self.images[0].package.exports[to.token][0]]

    def add(self, at, image):
        made = image.package
        own = [(c, m) for c in made.classes for m in c.methods if not c.interface and not m.abstract]
        for c in made.classes:
            self.numbers[at, c.name] = len(self.classes)
            self.classes.append({'super': -1, 'cells': 0, 'virtual': [], 'lists': [], 'shared': 0})
        for _, m in own:
            self.numbers[at, m.name] = len(self.methods)
            self.methods.append(self.method(image, m))
        for c in made.classes:
            self.describe(at, c)
        self.static_starts.append(self.statics)
        self.statics += 2 * made.statics.references + made.statics.defaults
        self.pool += [self.entry(at, e) for e in made.pool]
        self.code += image.method_info
        for c, m in own:
            self.add_handlers(at, image, m)

    def method(self, image, m):
        code = len(self.code) + image.methods[m.name] + len(image.header(m))
        nargs = len(m.takes) + (0 if m.static else 1)
        return [code, len(self.pool), nargs, m.locals, m.stack, 0, 0, 0]

    def add_handlers(self, at, image, m):
        row = self.methods[self.numbers[at, m.name]]
        row[6:] = [len(self.handlers), len(m.handlers)]
        for h in m.handlers:
            caught = self.class_of(at, image.package.pool[h.catches].of)
            self.handlers.append([row[0] + h.start, row[0] + h.start + h.length, row[0] + h.at, caught])

    def describe(self, at, c):
        row = self.classes[self.numbers[at, c.name]]
        row['super'] = self.class_of(at, c.above)
        above = self.classes[row['super']]
        row['cells'] = above['cells'] + c.size
        row['virtual'] = above['virtual'] + [-1] * (c.public.base + len(c.public.entries) - len(above['virtual']))
        for place, entry in enumerate(c.public.entries, c.public.base):
            row['virtual'][place] = self.numbers.get((at, entry), -1)
        row['lists'] = list(above['lists'])
        for to, tokens in c.interfaces:
            row['lists'].append((self.class_of(at, to), [] if c.interface else [row['virtual'][t] for t in tokens]))
        row['shared'] = int(any(to == SHAREABLE_NUMBER for to, _ in row['lists']))

    def entry(self, at, e):
        """Three numbers: what it leads to, how many words a call takes, and whether it is a shared interface."""
        if e.kind == 'class':
            number = self.class_of(at, e.of)
            return [number, 0, self.classes[number]['shared']]
        if e.kind == 'field':
            row = self.classes[self.class_of(at, e.of)]
            return [self.classes[row['super']]['cells'] + e.token, 0, 0]
        if e.kind == 'virtual':
            return [e.token, len(e.type[0]) + 1, 0]
        if e.kind == 'static field':
            if isinstance(e.of, tuple):
                return [self.static_starts[0] + self.images[0].package.exports[e.of[1]][1][e.of[2]], 0, 0]
            return [self.static_starts[at] + e.of, 0, 0]
        return [self.numbers[e.of if isinstance(e.of, tuple) else (at, e.of)], len(e.type[0]), 0]

    def sections(self):
        """Lists of numbers, in the order in which calls_limit.c reads them."""
        classes, virtual, lists, listed = [], [], [], []
        for row in self.classes:
            classes += [row['super'], row['cells'], len(virtual), len(lists) // 2, len(row['lists']), row['shared']]
            virtual += row['virtual']
            for to, found in row['lists']:
                lists += [to, len(listed)]
                listed += found
        flat = lambda rows: [number for row in rows for number in row]
        of_kernels = self.static_starts[1]
        statics = [self.statics, of_kernels + BUFFER_OFFSET, of_kernels + CLEARED_OFFSET]
        return [classes, virtual, lists, listed, flat(self.methods), flat(self.handlers), flat(self.pool),
                list(self.code), statics, INSTANCES_OF]

    def whole(self):
        """Numbers of four bytes, each section behind how many there are."""
        return b''.join(pack('<%di' % (len(s) + 1), len(s), *s) for s in self.sections())


def images():
    """The packages as the card reads them: each behind two bytes that say how long it is."""
    made = [image(server()), image(kernels())]
    return b''.join(u2(len(bytes_of)) + bytes_of for bytes_of in made)
