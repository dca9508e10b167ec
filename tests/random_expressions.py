"""Random methods in Java on shorts and bytes, as an applet and as a program of the JDK that answers the same.
tests/convert compares both: what the converter accepts has to be computed with 16 bits as Java computes it with 32.
"""
import itertools

import random_statements

CONSTANTS = [-32768, -1000, -256, -129, -128, -17, -2, -1, 0, 1, 2, 3, 7, 15, 16, 31, 32, 127, 128, 255, 256, 4096,
             32767, 32768, 40000, 65535, 65536, 100000]
SHORTS = [-32768, -32767, -12345, -256, -129, -128, -1, 0, 1, 2, 127, 128, 255, 256, 12345, 32766, 32767]
BYTES = [-128, -127, -1, 0, 1, 2, 7, 100, 127]
DISTANCES = [0, 1, 2, 3, 7, 8, 15, 16, 17, 31, 32, 33, -1]
OPERATORS = ['+', '-', '*', '/', '%', '&', '|', '^', '<<', '>>', '>>>', '+', '-', '*', '&', '>>']
ASSIGNMENTS = ['+=', '-=', '*=', '/=', '%=', '^=', '<<=', '>>=', '>>>=']
COMPARISONS = ['<', '<=', '>', '>=', '==', '!=']
BOUNDS = ['a', 'b', 'c', 'v.length', '(c & 15)', '(b & 0x7FFF)', '0', '5', '127', '128', '32767', '-3', '-32768']
EDGES = ['(a & 3 | 0x7FFC)', '(b & 3 | 0x7FFC)', '((a & 3) - 32768)', '((b & 3) - 32768)']
STEPS = ['i++', '++i', 'i--', '--i', 'i++', 'i += 2', 'i -= 3', 'i += c', 'i = (short) (i + 1)']
INDEXES = ['i', 'i & 7', 'a + i', 'i + b', 'i - c', 'i + 1', 'c', 'i + i + 4', 'i + i + 5']
FORMS = ['loop', 'locals', 'locals', 'ints', 'arrays', 'within', 'within']
WITHIN = 'held = b; class Local { short fNUMBER() { held %s (short) %s; return held %s %s; } } ' \
    'return new Local().fNUMBER();'
TESTS_OF_NULL = [
    'Outer o = a > b ? null : new Outer(); try { %s } catch (NullPointerException e) { return 7; }' % work for work in (
        'return o.new Inner().sum(b);', 'return o.four;', 'return (short) (b + o.four);',
        'return ((Outer) java.util.Objects.requireNonNull(o)).four;')]
CALLS = 8  # of each method

APPLET = """package random;

import javacard.framework.*;

public class Expressions extends Applet {
    private static short held;

    static class Outer {
        final short four = 4;
        class Inner { short sum(short a) { return (short) (a + four); } }
    }

    %s

    public static short call(short number, short a, short b, byte c) {
        switch (number) {
            %s
            default: return 0;
        }
    }

    public static void install(byte[] array, short offset, byte length) {
        new Expressions().register();
    }

    public void process(APDU apdu) {
        if (selectingApplet()) {
            return;
        }
        byte[] buffer = apdu.getBuffer();
        apdu.setIncomingAndReceive();
        try {
            short a = Util.getShort(buffer, (short) 5), b = Util.getShort(buffer, (short) 7);
            Util.setShort(buffer, (short) 0, call(Util.getShort(buffer, (short) 2), a, b, buffer[9]));
            apdu.setOutgoingAndSend((short) 0, (short) 2);
        } catch (ArithmeticException e) {
            ISOException.throwIt((short) 0x6A00);
        } catch (IndexOutOfBoundsException e) {
            ISOException.throwIt((short) 0x6A01);
        }
    }
}
"""

PROGRAM = """package random;

public class Program {
    public static void main(String[] words) {
        for (String line : words[0].split(";")) {
            String[] n = line.split(" ");
            try {
                short a = Short.parseShort(n[1]), b = Short.parseShort(n[2]);
                int given = Expressions.call(Short.parseShort(n[0]), a, b, Byte.parseByte(n[3])) & 0xFFFF;
                System.out.println(String.format("data %04X sw 9000", given));
            } catch (ArithmeticException e) {
                System.out.println("sw 6A00");
            } catch (IndexOutOfBoundsException e) {
                System.out.println("sw 6A01");
            }
        }
    }
}
"""


def condition(chance, depth):
    if depth > 0 and chance.random() < 0.2:
        return '(%s %s %s)' % (condition(chance, depth - 1), chance.choice(['&&', '||']), condition(chance, depth - 1))
    comparison = chance.choice(COMPARISONS)
    return '(%s %s %s)' % (expression(chance, depth - 1), comparison, expression(chance, depth - 1))


def expression(chance, depth):
    """An int of the shorts a and b, the byte c and constants."""
    if depth <= 0 or chance.random() < 0.12:
        return chance.choice(['a', 'b', 'c', 'a', 'b', 'c', '(%d)' % chance.choice(CONSTANTS)])
    form = chance.choice(['(short) (%s)'] * 6 + ['(byte) (%s)'] * 2 + ['(-%s)', '(~%s)', '?', '?'] + ['operator'] * 9)
    if '%s' in form:
        return form % expression(chance, depth - 1)
    if form == '?':
        either = expression(chance, depth - 1), expression(chance, depth - 1)
        return '(%s ? %s : %s)' % (condition(chance, depth - 1), *either)
    operator, right = chance.choice(OPERATORS), expression(chance, depth - 1)
    if operator in ('<<', '>>', '>>>') and chance.random() < 0.7:
        right = str(chance.choice(DISTANCES))
    return '(%s %s %s)' % (expression(chance, depth - 1), operator, right)


def of_int(chance, depth):
    """An expression with the int i in some places."""
    return ''.join(chance.choice('ci') if letter == 'c' else letter for letter in expression(chance, depth))


def counted(chance):
    """A loop over an int that is compared with something, with an index. After some rounds it ends in any case. Half of
    them begin and end at the edges of a short."""
    bounds = EDGES if chance.random() < 0.5 else BOUNDS
    begin, end = chance.choice(bounds), chance.choice(bounds)
    test = '%s %s %s' % (chance.choice(['i'] * 5 + ['i + 1', 'i - 2', '3 + i']), chance.choice(COMPARISONS), end)
    head = 'for (int i = %s; %s; %s)' % (begin, test, chance.choice(STEPS))
    if chance.random() < 0.3:
        test = '%s %s %s' % (chance.choice(['i--', 'i++', '--i', '++i']), chance.choice(COMPARISONS), end)
        head = 'int i = %s; while (%s)' % (begin, test)
    index = chance.choice(INDEXES)
    work = chance.choice(['v[%s] %s %s;' % (index, chance.choice(ASSIGNMENTS), of_int(chance, 2)),
                          's %s %s;' % (chance.choice(ASSIGNMENTS), of_int(chance, 3)), 's += k + 1;',
                          's += v[%s] + k; if (i %s %s) { s ^= (%s); }' % (
                              index, chance.choice(COMPARISONS), chance.choice(bounds), of_int(chance, 2))])
    return 'short s = a; byte k = 0; %s[] v = new %s[9]; %s { %s if (++k > 6) { break; } } return (short) (s + v[3]);' \
        % (*[chance.choice(['short', 'byte'])] * 2, head, work)


def compared(chance):
    """An int that is computed with where comparisons have bounded it."""
    tests = ['i %s %s' % (chance.choice(COMPARISONS), chance.choice(BOUNDS[:3] + BOUNDS[4:] + EDGES)) for _ in range(2)]
    return 'int i = %s; if (%s %s %s) { return (short) (%s); } return (short) (%s %s i);' % (
        expression(chance, 2), tests[0], chance.choice(['&&', '||']), tests[1], of_int(chance, 3),
        of_int(chance, 1), chance.choice(OPERATORS))


def body(chance):
    form = chance.choice(['plain'] * 5 + FORMS + ['counted', 'compared', 'statements'] * 4)
    if form == 'statements':
        return random_statements.body(chance)
    if form == 'within':
        return WITHIN % (chance.choice(ASSIGNMENTS), expression(chance, 2), chance.choice(ASSIGNMENTS),
                         expression(chance, 1))
    if form in ('counted', 'compared'):
        return counted(chance) if form == 'counted' else compared(chance)
    if form == 'ints':
        return 'int s = %s; s %s %s; s++; s -= 200; return (short) (s %s %s);' % (
            expression(chance, 2), chance.choice(ASSIGNMENTS), expression(chance, 2), chance.choice(OPERATORS),
            expression(chance, 2))
    if form == 'arrays':
        return '%s[] v = new %s[4]; v[(%s) & 3] %s %s; v[c & 3]++; return v[(%s) & 3];' % (
            *[chance.choice(['short', 'byte'])] * 2, expression(chance, 2), chance.choice(ASSIGNMENTS),
            expression(chance, 3), expression(chance, 2))
    if form == 'loop':
        return 'short s = a; for (byte i = 0; i < 5; i++) { s %s %s; } return s;' % (
            chance.choice(ASSIGNMENTS), expression(chance, 3).replace('c', chance.choice('ci')))
    if form == 'locals':
        return 'short s = (short) (%s); byte t = (byte) (%s); s++; t--; return (short) (s %s t);' % (
            expression(chance, 3), expression(chance, 3), chance.choice(OPERATORS))
    return 'return (short) (%s);' % expression(chance, chance.choice([2, 3, 4, 5]))


def at_edges():
    """Methods by their numbers: loops at the edges of a short with all comparisons, indexes at those of a word, and
    tests for null."""
    rounds = 'short s = 0; byte k = 0; %s { s += i; if (++k > 6) { break; } } return (short) (s * 8 + k);'
    place = 'byte[] v = new byte[9]; for (byte k = 0; k < 9; k++) { v[k] = k; } int i = %s; return v[%s];'
    steps, tested = ['i++', 'i--', 'i += 2', 'i -= 2'], ['i++', 'i--', '++i', '--i']
    ways = itertools.product(EDGES, COMPARISONS, EDGES + ['(a - b)'], steps)
    found = [rounds % ('for (int i = %s; i %s %s; %s)' % way) for way in ways]
    ways = itertools.product(EDGES, tested, COMPARISONS, EDGES)
    found += [rounds % ('int i = %s; while (%s %s %s)' % way) for way in ways]
    indexes = ['i + i + 4', 'i + i', 'i + i + i - 32760', 'i + (i + 3 | 1)', '(i & 0xFFFF) + 1', '(i - 32760) & 0xFFFF']
    found += [place % way for way in itertools.product(EDGES, INDEXES + indexes)]
    return dict(enumerate(found + TESTS_OF_NULL))


def calls_at_edges(methods):
    return [(number, a, b, 1) for number in methods for a in range(4) for b in (0, 3)]


def bodies(chance, count):
    """Methods by their numbers."""
    return {number: body(chance) for number in range(count)}


def sources(methods):
    """The applet and the program, by the names of their classes."""
    texts = ['static short f%d(short a, short b, byte c) { %s }' % (number, text.replace('NUMBER', str(number)))
             for number, text in methods.items()]
    cases = ['case %d: return f%d(a, b, c);' % (number, number) for number in methods]
    return {'Expressions': APPLET % ('\n    '.join(texts), '\n            '.join(cases)), 'Program': PROGRAM}


def calls(chance, methods):
    """Calls of all methods: a number and three arguments each."""
    some = [number for number in methods for _ in range(CALLS)]
    return [(number, chance.choice(SHORTS), chance.choice(SHORTS), chance.choice(BYTES)) for number in some]


def command(number, a, b, c):
    return '8000%04X05%04X%04X%02X' % (number, a & 0xFFFF, b & 0xFFFF, c & 0xFF)
