"""Random statements in Java on the ints i and j and the short s, beside what tests/random_expressions.py has: loops
within loops, conditions that count, handlers. They end, as every loop counts k up. What is compared is bounded often
enough that the converter accepts about a third of them.
"""
COMPARISONS = ['<', '<=', '>', '>=', '==', '!=']
LIMITS = ['a', 'b', 'c', 'v.length', '9', '0', '-1', '32766', '32767', '-32768', '(b & 15)', '(a & 3 | 0x7FFC)']
COUNTED = ['i', 'j', 'i', 'j', 'i++', 'j--', '--i', '++j', 'i + 1', 'j - 2', '2 + i']
VALUES = ['0', '1', 'v.length', 'a', 'b', 'c', 'c & 7', 'v.length - 1', 's', '(short) (i + j)', '(byte) i',
          '(short) (j * 3)', 'i & 0xFF', 'j >> 1', 'i % 9', '(b & 3 | 0x7FFC)', '((a & 3) - 32768)', 'i', 'j',
          '(s = (short) (i - 1))']
PLACES = ['i', 'j', 'i + j', 'i++', '--j', 'i & 7', '(short) (i - j)', 'c', 'i + 1']


def condition(chance):
    if chance.random() < 0.3:
        operator = chance.choice([' && ', ' || '])
        return '%s(%s%s%s)' % (chance.choice(['', '!']), condition(chance), operator, condition(chance))
    return '%s %s %s' % (chance.choice(COUNTED), chance.choice(COMPARISONS), chance.choice(LIMITS + ['i', 'j']))


def plain(chance):
    """A statement without others in it."""
    return chance.choice([
        '%s = %s;' % (chance.choice('ij'), chance.choice(VALUES)),
        '%s;' % chance.choice(['i++', 'j++', 'i--', 'j--', 'i += 3', 'j -= 2', 's++', 'i += c']),
        's %s %s;' % (chance.choice(['+=', '-=', '^=']), chance.choice(VALUES)),
        's += v[%s];' % chance.choice(PLACES),
        'v[%s] = (short) (%s);' % (chance.choice(PLACES), chance.choice(VALUES)),
        's += %s ? %s : %s;' % (condition(chance), chance.choice(VALUES), chance.choice(VALUES)),
        's /= %s;' % chance.choice(['i', 'j', 'c']),
    ])


def block(chance, depth, is_in_loop):
    return '{ %s }' % ' '.join(statement(chance, depth, is_in_loop) for _ in range(chance.randint(1, 3)))


def statement(chance, depth, is_in_loop=False):
    if depth == 0 or chance.random() < 0.35:
        return plain(chance)
    if is_in_loop and chance.random() < 0.2:
        return 'if (%s) { %s; }' % (condition(chance), chance.choice(['break', 'continue']))
    inner, form = condition(chance), chance.choice(['if', 'else', 'while', 'for', 'do', 'try'])
    if form == 'if':
        return 'if (%s) %s' % (inner, block(chance, depth - 1, is_in_loop))
    if form == 'else':
        either = block(chance, depth - 1, is_in_loop), block(chance, depth - 1, is_in_loop)
        return 'if (%s) %s else %s' % (inner, *either)
    if form == 'while':
        return 'while (++k < 20 && %s) %s' % (inner, block(chance, depth - 1, True))
    if form == 'for':
        head = '%s = %s; ++k < 20 && %s; %s' % (chance.choice('ij'), chance.choice(VALUES), inner,
                                               chance.choice(['i++', 'j++', 'i--', 'j--', 'i += 2']))
        return 'for (%s) %s' % (head, block(chance, depth - 1, True))
    if form == 'do':
        return 'do %s while (++k < 20 && (%s));' % (block(chance, depth - 1, True), inner)
    caught = chance.choice(['IndexOutOfBoundsException', 'ArithmeticException'])
    parts = block(chance, depth - 1, is_in_loop), caught, depth, block(chance, depth - 1, is_in_loop)
    return 'try %s catch (%s e%d) %s' % parts


def body(chance):
    first = chance.choice(VALUES[:6] + VALUES[-5:-3]).replace('s', 'b')
    work = ' '.join(statement(chance, 2) for _ in range(chance.randint(1, 3)))
    return 'short s = 1; byte k = 0; short[] v = new short[9]; int i = %s, j = 5; v[3] = 77; v[0] = -2; %s ' \
        'return (short) (s * 31 + i * 3 + j);' % (first, work)
