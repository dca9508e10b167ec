"""Random classes in two Java packages, of which the second stands on the first: who overrides whom is found alike by
the JDK and by a card, with methods of all visibilities and with interfaces. tests/convert compares both.
"""
METHODS = ['m0', 'm1', 'm2', 'm3']
INTERFACES = {'One': ['m0'], 'Two': ['m0', 'm2'], 'Three': ['m3']}
VISIBILITIES = ['', 'protected', 'public']
PACKAGES = ['first', 'second']
COUNT = 5  # of classes in each

APPLET = """package second;

import first.*;
import javacard.framework.*;

public class Main extends Applet {
    public static void install(byte[] array, short offset, byte length) {
        new Main().register();
    }

    public static short call(byte object, byte side, byte how) {
        return side == 0 ? CallsOfFirst.call(made(object), how) : CallsOfSecond.call(made(object), how);
    }

    private static Object made(byte object) {
        switch (object) {
            %s
            default: return null;
        }
    }

    public void process(APDU apdu) {
        if (selectingApplet()) {
            return;
        }
        byte[] b = apdu.getBuffer();
        Util.setShort(b, (short) 0, call(b[1], b[2], b[3]));
        apdu.setOutgoingAndSend((short) 0, (short) 2);
    }
}
"""

CALLS = """package %s;

import first.*;

public class %s {
    public static short call(Object o, byte how) {
        switch (how) {
            %s
            default: return -1;
        }
    }
}
"""

PROGRAM = """package second;

public class Program {
    public static void main(String[] words) {
        for (String line : words[0].split(";")) {
            String[] n = line.split(" ");
            short given = Main.call(Byte.parseByte(n[0]), Byte.parseByte(n[1]), Byte.parseByte(n[2]));
            System.out.println(String.format("data %04X sw 9000", given & 0xFFFF));
        }
    }
}
"""


class Class:
    """A class: the one above, methods with their visibilities, interfaces."""

    def __init__(self, package, name, above):
        self.package, self.name, self.above = package, name, above
        self.methods, self.interfaces = {}, []

    def seen(self, method, package):
        """The nearest declaration of a method that code of a package sees from here on: its class and visibility."""
        at = self
        while at is not None:
            if method in at.methods and (at.methods[method] or at.package == package):
                return at, at.methods[method]
            at = at.above
        return None

    def is_public(self, method):
        found = self.seen(method, self.package)
        return found is not None and found[1] == 'public'


def classes(chance):
    """Classes of both packages, those above first."""
    found = []
    for package in PACKAGES:
        for number in range(COUNT):
            above = chance.choice([None, *found, *found, *found])
            made = Class(package, '%s%d' % (package.capitalize(), number), above)
            for method in METHODS:
                inherited = above and above.seen(method, package)
                if chance.random() < 0.5:
                    least = VISIBILITIES.index(inherited[1]) if inherited else 0
                    made.methods[method] = chance.choice(VISIBILITIES[least:])
            for name, methods in INTERFACES.items():
                if all(map(made.is_public, methods)) and chance.random() < 0.6:
                    made.interfaces.append(name)
            found.append(made)
    return found


def body(chance, of, method):
    """Numbers, what is overridden, and methods that come behind: nothing calls itself."""
    text = str(chance.randrange(1, 3000))
    if of.above and of.above.seen(method, of.package) and chance.random() < 0.7:
        text += ' + super.%s() * 2' % method
    for other in METHODS:
        if other > method and of.seen(other, of.package) and chance.random() < 0.5:
            text += ' + %s() * 3' % other
    return text


def text_of(chance, of):
    head = ' extends ' + of.above.name if of.above else ''
    head += ' implements ' + ', '.join(of.interfaces) if of.interfaces else ''
    lines = ['package %s;' % of.package, 'import first.*;', 'public class %s%s {' % (of.name, head)]
    for method, visibility in of.methods.items():
        lines.append('    %s short %s() { return (short) (%s); }' % (visibility, method, body(chance, of, method)))
    return '\n'.join(lines + ['}', ''])


def calls_in(package, found):
    """What code of a package can call on an object: each method by each class, and by each interface."""
    for of in found:
        for method in METHODS:
            seen = of.seen(method, package)
            if package in (of.package, 'second') and seen and (seen[1] == 'public' or seen[0].package == package):
                yield of.name, method
    yield from ((name, method) for name, methods in INTERFACES.items() for method in methods)


def sources(chance, found):
    """The sources by the names of their classes, and the calls: an object, a side, and a number each."""
    texts = {of.name: text_of(chance, of) for of in found}
    below = {'Two': ' extends One'}
    for name, methods in INTERFACES.items():
        own = ' '.join('short %s();' % method for method in methods)
        texts[name] = 'package first; public interface %s%s { %s }\n' % (name, below.get(name, ''), own)
    calls = []
    for side, package in enumerate(PACKAGES):
        some = list(calls_in(package, found))
        cases = ['case %d: return o instanceof %s ? ((%s) o).%s() : 7;' % (n, c, c, m) for n, (c, m) in enumerate(some)]
        name = 'CallsOf' + package.capitalize()
        texts[name] = CALLS % (package, name, '\n            '.join(cases))
        calls += [(number, side, how) for number in range(len(found)) for how in range(len(some))]
    makes = ['case %d: return new %s();' % (number, of.name) for number, of in enumerate(found)]
    texts['Main'], texts['Program'] = APPLET % '\n            '.join(makes), PROGRAM
    return texts, calls


def command(number, side, how):
    return '80%02X%02X%02X' % (number, side, how)
