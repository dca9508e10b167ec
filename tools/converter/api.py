"""The API's packages, classes and members, and the tokens that a binding gives them (docs/profile/binding.md)."""
from converter.classfile import Refusal
from converter.world import Known, Package, aid_of, number_of

PACKAGES = ['java/lang', 'javacard/framework']
DEFAULT_PACKAGES = [('F04A430101', 1, 0), ('F04A430102', 1, 0)]
IN_LANG = 12  # so many classes are in the first package
MOST_OF_VIRTUAL, MOST_TOKEN = 127, 254

# Classes in the order of their numbers, each with the class above.
CLASSES = """
Object -   Throwable Object   Exception Throwable   RuntimeException Exception   ArithmeticException RuntimeException
ArrayStoreException RuntimeException   ClassCastException RuntimeException   IndexOutOfBoundsException RuntimeException
ArrayIndexOutOfBoundsException IndexOutOfBoundsException   NegativeArraySizeException RuntimeException
NullPointerException RuntimeException   SecurityException RuntimeException   Shareable -
CardRuntimeException RuntimeException   ISOException CardRuntimeException   SystemException CardRuntimeException
APDUException CardRuntimeException   AID Object   APDU Object   Applet Object   JCSystem Object   Util Object
"""

# Members in the order of their numbers, below their classes: a name, `v` for a virtual one and `s` for a static one or
# a constructor, the default token and the type. Classes of the API have their short names there.
MEMBERS = """
Object: <init> s0 ()V; equals v0 (LObject;)Z
Throwable: <init> s0 ()V
Exception: <init> s0 ()V
RuntimeException: <init> s0 ()V
ArithmeticException: <init> s0 ()V
ArrayStoreException: <init> s0 ()V
ClassCastException: <init> s0 ()V
IndexOutOfBoundsException: <init> s0 ()V
ArrayIndexOutOfBoundsException: <init> s0 ()V
NegativeArraySizeException: <init> s0 ()V
NullPointerException: <init> s0 ()V
SecurityException: <init> s0 ()V
CardRuntimeException: <init> s0 (S)V; getReason v1 ()S; setReason v2 (S)V
ISOException: <init> s0 (S)V; throwIt s1 (S)V
SystemException: <init> s0 (S)V; throwIt s1 (S)V
APDUException: <init> s0 (S)V; throwIt s1 (S)V
AID: <init> s0 ([BSB)V; equals v1 ([BSB)Z; getBytes v2 ([BS)B
APDU: getBuffer v1 ()[B; setIncomingAndReceive v2 ()S; setOutgoing v3 ()S; setOutgoingLength v4 (S)V
APDU: sendBytes v5 (SS)V; sendBytesLong v6 ([BSS)V; setOutgoingAndSend v7 (SS)V
Applet: <init> s0 ()V; register v1 ()V; register v2 ([BSB)V; select v3 ()Z; deselect v4 ()V; process v5 (LAPDU;)V
Applet: selectingApplet v6 ()Z; getShareableInterfaceObject v7 (LAID;B)LShareable;
JCSystem: getAID s0 ()LAID;; lookupAID s1 ([BSB)LAID;; getPreviousContextAID s2 ()LAID;
JCSystem: getAppletShareableInterfaceObject s3 (LAID;B)LShareable;; makeTransientBooleanArray s4 (SB)[Z
JCSystem: makeTransientByteArray s5 (SB)[B; makeTransientShortArray s6 (SB)[S
JCSystem: makeTransientObjectArray s7 (SB)[LObject;
Util: arrayCopy s0 ([BS[BSS)S; arrayCopyNonAtomic s1 ([BS[BSS)S; arrayFillNonAtomic s2 ([BSSB)S
Util: arrayCompare s3 ([BS[BSS)B; getShort s4 ([BS)S; setShort s5 ([BSS)S; makeShort s6 (BB)S
"""


def class_rows():
    """Names of classes, each with that of the class above, whole as class files have them."""
    words = CLASSES.split()
    full = {name: '%s/%s' % (PACKAGES[at >= IN_LANG], name) for at, name in enumerate(words[::2])}
    return full, [(full[name], full.get(above)) for name, above in zip(words[::2], words[1::2])]


def member_rows(full):
    """Members: the class, the name, whether it is virtual, the default token, the type."""
    for line in MEMBERS.strip().split('\n'):
        of, _, members = line.partition(': ')
        for member in members.split('; '):
            name, token, kind = member.split(' ')
            for short, whole in full.items():
                kind = kind.replace('L%s;' % short, 'L%s;' % whole)
            yield full[of], name, token[0] == 'v', int(token[1:]), kind


class Binding:
    """What packages, classes and members are called by, by their numbers: the default table, until a text is read."""

    def __init__(self):
        full, classes = class_rows()
        self.above, self.rows = dict(classes), list(member_rows(full))
        self.packages = dict(enumerate(DEFAULT_PACKAGES, 1))
        self.classes = {at + 1: at if at < IN_LANG else at - IN_LANG for at in range(len(classes))}
        self.members = {number: row[3] for number, row in enumerate(self.rows, 1)}
        self.given = {}  # by where it may be given once, and an AID or a token: to what a line of the text has given it

    def read(self, text):
        """Takes the names of a binding's text in place of the default ones. It has to name all."""
        named = set()
        for number, line in enumerate(text.split('\n'), 1):
            if line and not line.startswith('#'):
                named.add(self.take_line(number, line, named))
        for kind, table in self.tables().items():
            for number in table:
                if (kind, number) not in named:
                    raise Refusal('it doesn\'t name %s %d' % (kind, number))

    def tables(self):
        return {'package': self.packages, 'class': self.classes, 'member': self.members}

    def parsed(self, kind, number, *words):
        """The number that the words of a line name, and what they give: an AID and a version, or a token."""
        number = number_of(number)
        self.tables()[kind][number]  # KeyError where there is no such number
        if kind == 'package':
            name, major, minor = words
            return number, (aid_of(name).hex(), number_of(major), number_of(minor))
        token, = words
        is_virtual = kind == 'member' and self.rows[number - 1][2]
        return number, number_of(token, MOST_OF_VIRTUAL if is_virtual else MOST_TOKEN)

    def take_line(self, at, line, named):
        """Takes a line; gives what it names."""
        kind = line.split(' ')[0]
        try:
            number, value = self.parsed(*line.split(' '))
        except (KeyError, ValueError, TypeError):
            raise Refusal('line %d is none of a binding' % at) from None
        name = '%s %d' % (kind, number)
        if (kind, number) in named:
            raise Refusal('line %d names %s again' % (at, name))
        called, places = value[0] if kind == 'package' else value, self.places_of(kind, number)
        for other in [self.given[place, called] for place in places if (place, called) in self.given]:
            raise Refusal('line %d gives %s what a line before it gave %s' % (at, name, other))
        self.given[places[0], called] = name
        self.tables()[kind][number] = value
        return kind, number

    def places_of(self, kind, number):
        """Where nothing else may be called the same, its own place first: all packages, the classes of a package, the
        static members of a class, or the virtual ones of a class and of each above or below it."""
        if kind != 'member':
            return [kind if kind == 'package' else (kind, number > IN_LANG)]
        of, _, is_virtual, *_ = self.rows[number - 1]
        if not is_virtual:
            return [('static', of)]
        others = [name for name in self.above if name != of and (of in self.chain(name) or name in self.chain(of))]
        return [('virtual', name) for name in [of, *others]]

    def chain(self, name):
        """A class and those above it."""
        while name is not None:
            yield name
            name = self.above[name]


def api_classes(binding):
    """The API's classes as a package sees them, by their names."""
    packages = [Package(PACKAGES[number - 1], bytes.fromhex(name), tuple(version))
                for number, (name, *version) in sorted(binding.packages.items())]
    full, classes = class_rows()
    known, members = {}, list(enumerate(member_rows(full), 1))
    for at, (name, above) in enumerate(classes):
        virtual = dict(known[above].virtual) if above else {}
        known[name] = Known(name, above, packages[at >= IN_LANG], binding.classes[at + 1],
                            is_interface=name.endswith('/Shareable'), virtual=virtual)
        for number, (of, member, is_virtual, _, kind) in members:
            if of == name:
                table = known[name].virtual if is_virtual else known[name].static_methods
                table.setdefault((member, kind), binding.members[number])
    return known
