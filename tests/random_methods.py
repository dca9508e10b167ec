"""Code by chance over the pool of tests/check, for tests/verify: blocks that branch to one another at will, with handlers around them.
Most of it is carried by a certificate, and little of it is sensible.
"""
CLASSES = ['Object', 'A', 'B', 'C', 'Open', 'E', 'Exception', 'APDU', 'byte[]', 'boolean[]', 'short[]', 'Object[]', 'A[]', 'B[]', 'C[]', 'E[]']
TAKES, MORE_LOCALS = 'B C short A[]', 4
OBJECTS, WORDS, MIXED = ['0', '1', '3', '4'], ['2', '5'], ['6', '7']  # what locals hold, once they are written
CAUGHT = ['0', 'E', 'Exception', 'Throwable']


def pushed(chance):
    """An instruction that pushes a reference."""
    return chance.choice(['getstatic_a Some.' + chance.choice(CLASSES), 'aload ' + chance.choice(OBJECTS), 'aconst_null', 'new B', 'new C'])


def moves(chance):
    """Instructions from no operand to none, which change locals."""
    to, of, word = chance.choice(OBJECTS), chance.choice(OBJECTS), chance.choice(WORDS)
    return chance.choice([
        'aload %s; astore %s' % (of, to), pushed(chance) + '; astore ' + to, pushed(chance) + '; astore ' + to, '%s; checkcast 0 %s; astore %s' % (pushed(chance), chance.choice('ABCE'), to),
        '%s; %s; swap_x 17; astore %s; pop' % (pushed(chance), pushed(chance), to), 'sload_2; sinc 2 1; sconst_1; sadd; sstore ' + word, 'sconst_3; anewarray %s; astore %s' % (chance.choice('ABCE'), to),
        'sconst_0; sstore ' + chance.choice(MIXED), pushed(chance) + '; astore ' + chance.choice(MIXED), 'getstatic_a Some.B[]; sconst_0; aaload; astore ' + to, pushed(chance) + '; pop',
    ])


def branches(chance, goal):
    """Instructions that may go on elsewhere, with no operand there or behind them."""
    return chance.choice([
        'sload_2; ifeq_w ' + goal(), 'aload %s; ifnull_w %s' % (chance.choice(OBJECTS), goal()), 'sload_2; sconst_1; if_scmplt_w ' + goal(),
        '%s; %s; if_acmpne_w %s' % (pushed(chance), pushed(chance), goal()),
    ])


def ends(chance, goal, taking):
    """What ends a block: it goes on behind, or elsewhere, with an operand where one is taken."""
    return chance.choice([
        'goto_w ' + goal(), 'goto_w ' + goal(), 'return', 'sload_2; stableswitch %s 0 1 %s %s' % (goal(), goal(), goal()), 'sload_2; slookupswitch %s 9:%s' % (goal(), goal()),
        '%s; goto_w %s' % (pushed(chance), taking()), 'getstatic_a Some.E; athrow', 'nop', 'nop',
    ])


def mistakes(chance):
    """Instructions that no certificate carries, or seldom."""
    return chance.choice(['sconst_0; pop2', 'aload 6; pop', 'sload 7; pop', 'aload_0; getfield_a A.next; astore_0', 'sconst_0', 'aload 4; putstatic_a Some.A', 'new Open; pop', 'sload_1; pop'])


def random_code(chance):
    """The text of code and its handlers, in a static method that takes TAKES and has MORE_LOCALS."""
    count = chance.randint(2, 9)
    plain, takers = ['b%d' % i for i in range(count)], ['t%d' % i for i in range(chance.randint(1, 3))]
    goal, taking = lambda: chance.choice(plain), lambda: chance.choice(takers)
    blocks = ['sconst_0; sstore 5; %s; astore 4' % pushed(chance).replace('aload 4', 'aload 0')]
    for label in plain:
        parts = [moves(chance) if chance.random() < 0.7 else branches(chance, goal) for _ in range(chance.randint(1, 6))]
        parts += [mistakes(chance)] if chance.random() < 0.03 else []
        blocks.append('%s: nop; %s; %s' % (label, '; '.join(parts), ends(chance, goal, taking)))
    blocks.append('goto_w ' + goal())
    blocks += ['%s: %s %s; %s' % (t, 'astore', chance.choice(OBJECTS + MIXED), 'goto_w ' + goal()) for t in takers]
    handlers = []
    for _ in range(chance.choice([0, 1, 1, 2, 3])):
        first, last = sorted(chance.choices(range(count), k=2))
        handlers.append('%s %s %s %s' % (plain[first], plain[last], taking(), chance.choice(CAUGHT)))
    return '; '.join(blocks), handlers
