"""Two packages with random code, as text for tests/described.py: a server with a shareable interface, and a client that
calls it. Each method's code is well typed by the way in which it is made; what it throws, and where, is left to chance.
"""
from dataclasses import dataclass, field

SERVER_AID, CLIENT_AID = 'F0AA000005', 'F0AA000006'
SERVER_APPLET, CLIENT_APPLET = SERVER_AID + '01', CLIENT_AID + '01'
BINARY = ['sadd', 'ssub', 'smul', 'sdiv', 'srem', 'sshl', 'sshr', 'sushr', 'sand', 'sor', 'sxor']
UNARY = ['sneg', 's2b']
ZERO_TESTS = ['ifeq', 'ifne', 'iflt', 'ifge', 'ifgt', 'ifle']
TESTS = ['if_scmpeq', 'if_scmpne', 'if_scmplt', 'if_scmpge', 'if_scmpgt', 'if_scmple']
CAUGHT = ['all', 'all', 'SecurityException', 'NullPointerException', 'ArrayIndexOutOfBoundsException',
          'ArithmeticException', 'RuntimeException', 'CardRuntimeException', 'ISOException', 'ClassCastException',
          'NegativeArraySizeException']
NATIVE_SHORTS = 'getShort makeShort compare copy copyOnce fill setShort'.split()


@dataclass
class Room:
    """What code of a method may name: locals by their kinds, fields of its object, static fields, and calls."""
    shorts: list
    bytes: list  # locals with arrays of bytes
    words: list  # with arrays of shorts
    objects: list = field(default_factory=list)  # with objects of Base
    services: list = field(default_factory=list)  # with what may be a Service
    counter: int = 0  # a local that counts turns
    fields: list = field(default_factory=list)  # of this: name and form
    arrays: list = field(default_factory=list)  # of this: name and kind
    kept: list = field(default_factory=list)  # fields of this with a Base
    statics: list = field(default_factory=list)
    helpers: list = field(default_factory=list)  # static methods of two shorts


class Code:
    """Random code of one method."""

    def __init__(self, chance, room):
        self.chance, self.room, self.labels, self.handlers, self.loops = chance, room, 0, [], 0

    def pick(self, *some):
        return self.chance.choice(some)

    def label(self):
        self.labels += 1
        return 'l%d' % self.labels

    # ---- expressions: each is a text of instructions that leaves one operand

    def constant(self):
        small = self.chance.randrange(-300, 300)
        value = self.pick(0, 1, 2, 3, 4, 5, -1, 7, 8, 100, 255, 256, -128, 32767, -32768, small)
        if -1 <= value <= 5:
            return 'sconst_m1' if value < 0 else 'sconst_%d' % value
        return ('bspush %d' if -128 <= value < 128 else 'sspush %d') % value

    def index(self, depth):
        """Mostly within short arrays."""
        if self.chance.random() < 0.7:
            return self.short(depth - 1) + '; bspush 3; sand'
        return self.short(depth - 1)

    def short(self, depth):
        room, makers = self.room, [self.constant, self.local]
        if room.fields:
            makers.append(self.get_field)
        if room.statics:
            makers.append(self.get_static)
        if depth > 0:
            makers += [self.binary, self.binary, self.unary, self.element, self.length, self.native, self.doubled]
            if room.helpers:
                makers.append(self.helper)
            if room.objects or room.kept:
                makers += [self.member, self.is_derived, self.object_field]
            if room.services:
                makers += [self.service, self.service]
        maker = self.chance.choice(makers)
        return maker(depth) if maker not in (self.constant, self.local, self.get_field, self.get_static) else maker()

    def local(self):
        return 'sload %d' % self.chance.choice(self.room.shorts)

    def get_field(self):
        name, form = self.chance.choice(self.room.fields)
        return self.pick('aload_0; getfield_%s %s', 'getfield_%s_this %s') % (form, name)

    def get_static(self):
        name, form = self.chance.choice(self.room.statics)
        return 'getstatic_%s %s' % (form, name)

    def binary(self, depth):
        return '; '.join([self.short(depth - 1), self.short(depth - 1), self.chance.choice(BINARY)])

    def unary(self, depth):
        return '%s; %s' % (self.short(depth - 1), self.chance.choice(UNARY))

    def doubled(self, depth):
        return '; '.join([self.short(depth - 1), self.pick('dup', 'dup_x 16', 'sconst_2; dup_x 18; pop',
                                                           'sconst_3; swap_x 17'), self.chance.choice(BINARY)])

    def element(self, depth):
        array, load = self.pick(('bytes', 'baload'), ('words', 'saload'))
        return '; '.join([self.array(array), self.index(depth), load])

    def length(self, depth):
        return self.array(self.pick('bytes', 'words')) + '; arraylength'

    def array(self, kind):
        if self.chance.random() < 0.05:
            return 'aconst_null'
        mine = [name for name, of in self.room.arrays if of == kind]
        if mine and self.chance.random() < 0.5:
            return 'getfield_a_this ' + self.chance.choice(mine)
        return 'aload %d' % self.chance.choice(self.room.bytes if kind == 'bytes' else self.room.words)

    def native(self, depth):
        name = self.chance.choice(NATIVE_SHORTS)
        one, other = self.array('bytes'), self.array('bytes')
        at, to, count = self.index(depth), self.index(depth), self.index(depth)
        words = {
            'getShort': [one, at], 'makeShort': [self.short(depth - 1), self.short(depth - 1)],
            'compare': [one, at, other, to, count], 'copy': [one, at, other, to, count],
            'copyOnce': [one, at, other, to, count], 'fill': [one, at, count, self.short(depth - 1)],
            'setShort': [one, at, self.short(depth - 1)],
        }[name]
        return '; '.join(words + ['invokestatic ' + name])

    def helper(self, depth):
        return '; '.join([self.short(depth - 1), self.short(depth - 1),
                          'invokestatic ' + self.chance.choice(self.room.helpers)])

    def an_object(self):
        if self.room.kept and self.chance.random() < 0.6 or not self.room.objects:
            return 'getfield_a_this ' + self.chance.choice(self.room.kept)
        return 'aload %d' % self.chance.choice(self.room.objects)

    def member(self, depth):
        return '; '.join([self.an_object(), self.short(depth - 1), 'invokevirtual ' + self.pick('v0', 'v1')])

    def is_derived(self, depth):
        return self.an_object() + '; instanceof 0 Derived'

    def object_field(self, depth):
        return self.an_object() + '; ' + self.pick('getfield_s x', 'getfield_b y')

    def service(self, depth):
        service = 'aload %d; checkcast 0 Service' % self.chance.choice(self.room.services)
        if self.chance.random() < 0.5:
            return '%s; %s; invokeinterface 2 Service 0' % (service, self.short(depth - 1))
        return '%s; %s; invokeinterface 2 Service 1' % (service, self.array('bytes'))

    # ---- statements: each leaves the operands as they were

    def statement(self, depth):
        makers = [self.set_local, self.set_local, self.increment, self.set_element, self.drop]
        if self.room.fields:
            makers += [self.set_field, self.set_field]
        if self.room.arrays:
            makers.append(self.set_array)
        if self.room.statics:
            makers.append(self.set_static)
        if self.room.objects or self.room.kept:
            makers += [self.set_object_field, self.set_object]
        if self.room.services:
            makers.append(self.service_procedure)
        if depth > 0:
            makers += [self.branch, self.branch, self.guarded, self.guarded, self.switch, self.throws]
            if self.loops < 2:
                makers.append(self.loop)
        return self.chance.choice(makers)(depth)

    def block(self, depth):
        return '; '.join(self.statement(depth) for _ in range(self.chance.randint(1, 3)))

    def set_local(self, depth):
        return '%s; sstore %d' % (self.short(2), self.chance.choice(self.room.shorts))

    def increment(self, depth):
        return 'sinc %d %d' % (self.chance.choice(self.room.shorts), self.chance.randint(-128, 127))

    def set_field(self, depth):
        name, form = self.chance.choice(self.room.fields)
        if self.chance.random() < 0.5:
            return '%s; putfield_%s_this %s' % (self.short(2), form, name)
        return 'aload_0; %s; putfield_%s %s' % (self.short(2), form, name)

    def set_array(self, depth):
        name, kind = self.chance.choice(self.room.arrays)
        made = '%s; newarray %d' % (self.pick('bspush 8', 'bspush 4', self.short(1) + '; bspush 7; sand', 'sconst_m1'),
                                    11 if kind == 'bytes' else 12)
        transient = '%s; %s; invokestatic %s' % (self.pick('bspush 8', 'sconst_5', 'sconst_m1'), self.pick(
            'sconst_1', 'sconst_2', 'sconst_2', 'sconst_3'), 'transientBytes' if kind == 'bytes' else 'transientShorts')
        return 'aload_0; %s; putfield_a %s' % (self.pick(made, self.array(kind), transient), name)

    def set_static(self, depth):
        name, form = self.chance.choice(self.room.statics)
        return '%s; putstatic_%s %s' % (self.short(2), form, name)

    def set_element(self, depth):
        array, store = self.pick(('bytes', 'bastore'), ('words', 'sastore'))
        return '; '.join([self.array(array), self.index(2), self.short(2), store])

    def drop(self, depth):
        return self.short(2) + '; pop'

    def set_object_field(self, depth):
        return '%s; %s; %s' % (self.an_object(), self.short(2), self.pick('putfield_s x', 'putfield_b y'))

    def set_object(self, depth):
        made = 'new %s; dup; invokespecial Object.new' % self.pick('Base', 'Derived')
        if self.room.kept and self.chance.random() < 0.5:
            return 'aload_0; %s; putfield_a %s' % (made, self.chance.choice(self.room.kept))
        if not self.room.objects:
            return self.drop(depth)
        return '%s; astore %d' % (self.pick(made, self.an_object() + '; checkcast 0 Derived'),
                                  self.chance.choice(self.room.objects))

    def service_procedure(self, depth):
        return 'aload %d; checkcast 0 Service; invokeinterface 1 Service 2' % self.chance.choice(self.room.services)

    def condition(self, to, over):
        """A test that leads over some text, in the short form where that is short."""
        wide = '' if over.count(';') < 20 else '_w'
        if self.chance.random() < 0.5:
            return '%s; %s%s %s' % (self.short(1), self.chance.choice(ZERO_TESTS), wide, to)
        return '%s; %s; %s%s %s' % (self.short(1), self.short(1), self.chance.choice(TESTS), wide, to)

    def branch(self, depth):
        other, end, one, two = self.label(), self.label(), self.block(depth - 1), self.block(depth - 1)
        return '; '.join([
            self.condition(other, one), one, 'goto%s %s' % ('' if two.count(';') < 20 else '_w', end),
            '%s: nop' % other, two, '%s: nop' % end,
        ])

    def loop(self, depth):
        self.loops += 1
        first, counter = self.label(), self.room.counter + self.loops - 1
        text = '; '.join([
            'bspush %d' % self.chance.randint(1, 5), 'sstore %d' % counter, '%s: nop' % first,
            self.block(depth - 1), 'sinc %d -1' % counter, 'sload %d' % counter, 'ifgt_w ' + first,
        ])
        self.loops -= 1
        return text

    def guarded(self, depth):
        start, end, handler, behind = (self.label() for _ in range(4))
        body = self.block(depth - 1)
        caught = self.chance.choice(CAUGHT)
        self.handlers.append('%s to %s: %s at %s' % (start, end, caught, handler))
        return '; '.join(['%s: nop' % start, body, '%s: goto_w %s' % (end, behind), '%s: pop' % handler,
                          self.block(depth - 1), '%s: nop' % behind])

    def switch(self, depth):
        cases, behind = [self.label() for _ in range(3)], self.label()
        table = self.pick('stableswitch %s 0 1 %s %s', 'slookupswitch %s 0:%s 2:%s') % tuple(cases)
        parts = [self.short(1) + '; sconst_3; sand', table]
        for case in cases:
            parts += ['%s: nop' % case, self.block(depth - 1), 'goto_w ' + behind]
        return '; '.join(parts + ['%s: nop' % behind])

    def throws(self, depth):
        around = self.label()
        thrown = self.pick('sspush %d; invokestatic throwIt' % self.chance.choice([0x6A80, 0x6985, 0x9000, 0x1234]),
                           'sconst_0; newarray 11; astore %d' % self.room.bytes[-1])
        return '%s; %s; %s: nop' % (self.condition(around, thrown), thrown, around)

    # ---- whole code

    def text(self, before, behind, caught=False):
        """Code with what stands before and behind the random part, and its handlers. What it throws may be caught."""
        body = [before, self.block(3), self.block(2), behind]
        if caught:
            body[1:3] = ['first: nop', *body[1:3], 'last: goto_w out; caught: pop; out: nop']
            self.handlers.append('first to last: all at caught')
        body = '; '.join(body)
        return body + (' | ' + ', '.join(self.handlers) if self.handlers else '')


ENTRIES = """
    entry Object.new: static method Object 0
    entry Applet.new: static method Applet 0
    entry register: virtual Applet 1
    entry getBuffer: virtual APDU 1
    entry receive: virtual APDU 2
    entry sendAtOnce: virtual APDU 7
    entry throwIt: static method ISOException 1
    entry lookupAID: static method JCSystem 1
    entry ask: static method JCSystem 3
    entry transientBytes: static method JCSystem 5
    entry transientShorts: static method JCSystem 6
    entry copy: static method Util 0
    entry copyOnce: static method Util 1
    entry fill: static method Util 2
    entry compare: static method Util 3
    entry getShort: static method Util 4
    entry setShort: static method Util 5
    entry makeShort: static method Util 6
"""
EXCEPTIONS = sorted(set(CAUGHT) - {'all'})


def starts(shorts, arrays):
    """Locals get their first values."""
    parts = ['sconst_%d; sstore %d' % (place % 6, local) for place, local in enumerate(shorts)]
    parts += ['bspush %d; newarray %d; astore %d' % (size, kind, local) for local, kind, size in arrays]
    return '; '.join(parts)


def helper(chance, number, helpers):
    """A static method of two shorts."""
    room = Room(shorts=[0, 1, 2], bytes=[3], words=[4], counter=5, statics=[('count', 's'), ('mark', 'b')],
                helpers=helpers)
    code = Code(chance, room)
    return '    static method h%d(short, short) short, stack 12, 5 locals: %s' % (
        number, code.text(starts([2], [(3, 11, 4), (4, 12, 4)]), code.short(2) + '; sreturn'))


def member(chance, name, helpers):
    """A member of Base or Derived."""
    room = Room(shorts=[1, 2], bytes=[3], words=[4], counter=5, fields=[('x', 's'), ('y', 'b')], helpers=helpers,
                statics=[('count', 's'), ('mark', 'b')])
    code = Code(chance, room)
    return '    method %s(short) short, stack 12, 5 locals: %s' % (
        name, code.text(starts([2], [(3, 11, 4), (4, 12, 4)]), code.short(2) + '; sreturn'))


def package(text):
    """The lines of a package, without the spaces in front."""
    return [line.strip() for line in text.split('\n') if line.strip()]


def applet_room(services):
    return Room(shorts=[2, 3, 4], bytes=[5, 6], words=[7], objects=[], services=services, counter=9,
                fields=[('a', 's'), ('b', 'b')], arrays=[('buf', 'bytes'), ('list', 'words')], kept=['base'],
                statics=[('count', 's'), ('mark', 'b')], helpers=['h0', 'h1'])


SEND = ("aload_1; invokevirtual getBuffer; astore 5; aload 5; sconst_0; getfield_s_this a; invokestatic setShort; "
        "pop; aload 5; sconst_2; getfield_b_this b; invokestatic setShort; pop; aload 5; sconst_4; getstatic_s count; "
        "invokestatic setShort; pop; aload 5; bspush 6; sload_2; invokestatic setShort; pop; aload_1; sconst_0; "
        "bspush 8; invokevirtual sendAtOnce; return")
INSTALL = ("    static method install(byte[], short, byte), stack 5, 0 locals: new %s; dup; invokespecial Applet.new; "
           "dup; bspush 8; newarray 11; putfield_a buf; dup; bspush 6; newarray 12; putfield_a list; "
           "dup; new Derived; dup; invokespecial Object.new; putfield_a base; invokevirtual register; return")


def classes(chance, helpers):
    return '\n'.join([
        '    class Base, 2 cells', '        table 1: v0 v1', '        field x short', '        field y byte',
        member(chance, 'v0', helpers), member(chance, 'v1', helpers),
        '    class Derived below Base, 1 cells', '        table 1: Derived.v0 -', '        field z short',
        member(chance, 'Derived.v0', helpers),
    ])


def common(name):
    return '\n'.join([
        '    entry %s' % name, '    entry Base', '    entry Derived', '    entry v0: virtual Base 1',
        '    entry v1: virtual Base 2', '    entry x: field Base 0 short', '    entry y: field Base 1 byte',
        '    entry a: field %s 0 short' % name, '    entry b: field %s 1 byte' % name,
        '    entry buf: field %s 2 byte[]' % name, '    entry list: field %s 3 short[]' % name,
        '    entry base: field %s 4 Base' % name, '    entry count: static field 2 short',
        '    entry mark: static field 4 byte', '    entry h0: static method h0', '    entry h1: static method h1',
        ENTRIES, *['    entry ' + exception for exception in EXCEPTIONS], '    statics 1 3',
    ])


def fields():
    return '\n'.join([
        '        field a short', '        field b byte', '        field buf byte[]', '        field list short[]',
        '        field base Base', '        static field byte[] 0', '        static field short 2',
        '        static field byte 4',
    ])


def applet(chance, name, services, before):
    """The process method of an applet, and the helpers of its package."""
    code = Code(chance, applet_room(services))
    start = starts([2, 3, 4], [(6, 11, 6), (7, 12, 5)])
    process = '    method process(APDU), stack 14, 10 locals: %s' % code.text(
        '%s; aload_1; invokevirtual getBuffer; astore 5; aconst_null; astore 8%s' % (start, before), SEND,
        caught=chance.random() < 0.8)
    return '\n'.join([process, helper(chance, 0, []), helper(chance, 1, ['h0']), INSTALL % name])


def service(chance, name, takes, shorts, arrays, behind):
    """A member of the server's shareable interface."""
    room = applet_room([])
    room.shorts, room.bytes = shorts, [5, 6]
    code = Code(chance, room)
    start = starts([local for local in (2, 3, 4)], [(6, 11, 6), (7, 12, 5)])
    return '    method %s, stack 14, 10 locals: %s' % (name % takes, code.text(start + arrays, behind(code)))


def server(chance):
    """The lines of the server's package."""
    short_result = lambda code: code.short(2) + '; sreturn'  # noqa: E731
    return package('\n'.join([
        '    applet %s install' % SERVER_APPLET,
        '    interface Service below Shareable', '        method Service.m0(short) short',
        '        method Service.m1(byte[]) short', '        method Service.m2()',
        classes(chance, ['h0', 'h1']),
        '    class Server below Applet, 5 cells', '        implements Service 8 9 10',
        '        implements Shareable', '        table 5: process - shared m0 m1 m2', fields(),
        applet(chance, 'Server', [], ''),
        '    method shared(AID, byte) Shareable, stack 1, 0 locals: aload_0; areturn',
        service(chance, 'm0(%s) short', 'short', [1, 2, 3, 4], '; bspush 5; newarray 11; astore 5', short_result),
        service(chance, 'm1(%s) short', 'byte[]', [2, 3, 4], '; aload_1; astore 5', short_result),
        service(chance, 'm2(%s)', '', [2, 3, 4], '; bspush 5; newarray 11; astore 5', lambda code: 'return'),
        common('Server'), '    export Service', '    export Server',
    ]))


ASKS = ("; aload_1; invokevirtual receive; sstore_2; aload 5; sconst_5; sload_2; invokestatic lookupAID; sconst_1; "
        "invokestatic ask; astore 8")


def client(chance):
    """The lines of the client's package."""
    return package('\n'.join([
        '    import server', '    applet %s install' % CLIENT_APPLET, classes(chance, ['h0', 'h1']),
        '    class Client below Applet, 5 cells', '        table 5: process - -', fields(),
        applet(chance, 'Client', [8], ASKS), common('Client'), '    entry Service: class server.Service',
    ]))
