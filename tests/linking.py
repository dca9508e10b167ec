"""Packages that are linked, and packages that are refused, with the line that each has to give; tests/verify runs them by
`jcard verify`.

A row has a name, packages with the line that each has to give, and lines of a binding that stand in place of the default
table's. Whatever a rule forbids stands beside the nearest thing that it doesn't.
"""
from dataclasses import replace

from packages import *

LINKED = 'linked'

# Packages that several rows use.

def method(name='m', **more):
    return Method(name, **more)


def of_one_class(c, **more):
    return package(1, c, **more)


def with_statics(statics, *fields):
    return package(1, cls('A', fields=list(fields)), statics=statics)


LIBRARY = Package(aid(2), version=(1, 1), imports=API, exports=[('A', [], [])], classes=[cls('A')])


def importing(*imports):
    return Package(aid(3), imports=list(imports))


ROWS = []


def row(name, *packages, binding=()):
    """A row: packages and lines in turn, the packages described or as bytes."""
    ROWS.append((name, list(zip(packages[::2], packages[1::2])), binding))


# ---- the applet's package, with bytes changed

row('an applet', SMALL, LINKED)
row('an applet in format 2.2', in_format_2_2(SMALL), LINKED)
row('a minor version that is too small', changed((35, 1)), '10 MissingImport 0')
row('a token past the table', changed((55, 8)), '11 Unresolved 1')
row('no superclass, and a token that is looked for there', changed((60, 255), (61, 255)), '11 Unresolved 1')
row('a super call of an abstract method', changed((52, 4), (55, 5)), '11 Unresolved 1')
row('a super call of a method', changed((52, 4), (55, 1)), LINKED)
row('a super call of a method of another type', changed((52, 4), (55, 3)), '12 TypeMismatch 1')
row('another type than the member\'s', changed((146, 6)), '12 TypeMismatch 1')
row('a static method in the table', changed((70, 1)), '13 BadClass 0')
row('a method that stays abstract', changed((69, 255), (70, 255)), '13 BadClass 0')
row('one package twice', SMALL, LINKED, SMALL, '15 DuplicatePackage')

# ---- bindings

row('a framework of another AID', SMALL, '10 MissingImport 0', binding=['package 2 F04A430202 1 0'])
row('a framework of another AID, imported', changed((41, 2)), LINKED, binding=['package 2 F04A430202 1 0'])
row('an applet class with another token', SMALL, '11 Unresolved 1', binding=['class 20 20'])
row('an applet class with another token, named', changed((61, 0x14)), LINKED, binding=['class 20 20'])
row('a newer framework', SMALL, LINKED, binding=['package 2 F04A430102 1 7'])
row('a framework of another major version', SMALL, '10 MissingImport 0', binding=['package 2 F04A430102 2 0'])
row('process with a token past the table', SMALL, '13 BadClass 0', binding=['member 38 20'])

# ---- imports

row('an import that is met', importing(FRAMEWORK), LINKED)
row('the second import of another AID', importing(LANG, (aid(9), (1, 0))), '10 MissingImport 1')
row('the package itself, imported', Package(aid(3), imports=[(aid(3), (1, 0))]), '10 MissingImport 0')
row('minor versions of a library', LIBRARY, LINKED, importing((aid(2), (1, 0))), LINKED,
    replace(importing((aid(2), (1, 1))), aid=aid(4)), LINKED, replace(importing((aid(2), (1, 2))), aid=aid(5)), '10 MissingImport 0')
row('a major version of a library', LIBRARY, LINKED, importing((aid(2), (2, 0))), '10 MissingImport 0')
row('the AID of the API', Package(LANG[0]), '15 DuplicatePackage')
row('the AID of an API that is bound otherwise', Package(FRAMEWORK[0]), LINKED, binding=['package 2 F04A430202 1 0'])
row('a package that wasn\'t linked isn\'t met', changed((35, 1)), '10 MissingImport 0', importing((bytes.fromhex('F001020304'), (1, 0))), '10 MissingImport 0')

# ---- entries of the pool


def with_pool(*entries, classes=(), **more):
    return package(1, *classes, pool=list(entries), **more)


row('a class of its own', with_pool(Entry('class', 'A'), classes=[cls('A')]), LINKED)
row('an offset at which no class stands', with_pool(Entry('class', 'A'), Entry('class', 1), classes=[cls('A')]), '11 Unresolved 1')
row('an imported class', with_pool(Entry('class', APPLET)), LINKED)
row('a class that isn\'t exported', with_pool(Entry('class', Imported(1, 10))), '11 Unresolved 0')
row('a class of an import that isn\'t there', with_pool(Entry('class', Imported(2, 0))), '11 Unresolved 0')

TWO = [cls('A', size=1, fields=[Field(SHORT, token=0)]), cls('B', 'A', size=1, fields=[Field(BYTES, token=0)])]
row('fields by the class that declares them', with_pool(Entry('field', 'A', 0, SHORT), Entry('field', 'B', 0, BYTES), classes=TWO), LINKED)
row('a field of another type', with_pool(Entry('field', 'A', 0, BYTE), classes=TWO), '12 TypeMismatch 0')
row('a field without a stated type', with_pool(Entry('field', 'A', 0), classes=TWO), LINKED)
row('a field of a superclass', with_pool(Entry('field', 'B', 0, BYTES), Entry('field', 'B', 1), classes=[replace(TWO[0], size=2, fields=[Field(SHORT, 0), Field(SHORT, 1)]), TWO[1]]), '11 Unresolved 1')

CALLED = cls('A', public=table('m'), methods=[method(takes=(SHORT,), gives=BOOLEAN)])
OF_CALLED = ((SHORT,), BOOLEAN)
row('a virtual method', with_pool(Entry('virtual', 'A', 1, OF_CALLED), classes=[replace(CALLED, public=table('m', base=1))]), LINKED)
row('a virtual method of another result', with_pool(Entry('virtual', 'A', 1, ((SHORT,), BYTE)), classes=[replace(CALLED, public=table('m', base=1))]), '12 TypeMismatch 0')
row('a virtual method with an argument more', with_pool(Entry('virtual', 'A', 1, ((SHORT, SHORT), BOOLEAN)), classes=[replace(CALLED, public=table('m', base=1))]), '12 TypeMismatch 0')
row('a virtual method with an argument less', with_pool(Entry('virtual', 'A', 1, ((), BOOLEAN)), classes=[replace(CALLED, public=table('m', base=1))]), '12 TypeMismatch 0')
row('a virtual method of an interface', with_pool(Entry('virtual', 'I', 0), classes=[Class('I', interface=True, methods=[method()])]), '11 Unresolved 0')
row('equals of Object, by a class below', with_pool(Entry('virtual', APPLET, 0, ((Reference(OBJECT),), BOOLEAN))), LINKED)
row('equals of Object, as of an interface', with_pool(Entry('virtual', APPLET, 0, ((Reference(SHAREABLE),), BOOLEAN))), LINKED)
row('equals of Object, as of another class', with_pool(Entry('virtual', APPLET, 0, ((Reference(APDU),), BOOLEAN))), '12 TypeMismatch 0')
row('a stated class that isn\'t there', with_pool(Entry('virtual', APPLET, 0, ((Reference(Imported(1, 99)),), BOOLEAN))), '12 TypeMismatch 0')

MISSING = cls('A', public=table('m', base=1), methods=[method(takes=(Reference(Imported(1, 99)),))])
row('a class that isn\'t there, stated as the member has it', with_pool(Entry('virtual', 'A', 1, ((Reference(Imported(1, 99)),), VOID)), classes=[MISSING]), '12 TypeMismatch 0')
row('a class that isn\'t there, and no type stated', with_pool(Entry('virtual', 'A', 1), classes=[MISSING]), '13 BadClass 0')

VISIBLE = cls('A', package=table('m', base=1), methods=[method()])
row('a package-visible method', with_pool(Entry('virtual', 'A', 129, ((), VOID)), classes=[VISIBLE]), LINKED)
row('a package-visible method below the base', with_pool(Entry('virtual', 'A', 128), classes=[VISIBLE]), '11 Unresolved 0')
row('a package-visible method past the table', with_pool(Entry('virtual', 'A', 130), classes=[VISIBLE]), '11 Unresolved 0')
ELSEWHERE = package(2, VISIBLE, exports=[('A', [], [])])
row('a package-visible method of another package', ELSEWHERE, LINKED, with_pool(Entry('virtual', Imported(2, 0), 129), imports=[*API, (aid(2), (1, 0))]), '11 Unresolved 0')

SUPER = [cls('A', public=table('m', base=1), methods=[method()]), cls('B', 'A')]
row('a super call', with_pool(Entry('super', 'B', 1, ((), VOID)), classes=SUPER), LINKED)
row('a super call that names the class itself', with_pool(Entry('super', 'A', 1), classes=SUPER), '11 Unresolved 0')
ABSTRACT = [cls('A', public=table('m', base=1), methods=[method(abstract=True)], abstract=True), cls('B', 'A', abstract=True)]
row('a super call of what is abstract above', with_pool(Entry('super', 'B', 1), classes=ABSTRACT), '11 Unresolved 0')
row('a virtual call of what is abstract', with_pool(Entry('virtual', 'B', 1, ((), VOID)), classes=ABSTRACT), LINKED)

CALLS = cls('A', methods=[method(static=True, takes=(SHORT,)), method('init'), method('later', abstract=True)], abstract=True)
row('a static method and a constructor', with_pool(Entry('static method', 'm', type=((SHORT,), VOID)), Entry('static method', 'init', type=((), VOID)), classes=[CALLS]), LINKED)
row('a static call of an abstract method', with_pool(Entry('static method', 'later'), classes=[CALLS]), '11 Unresolved 0')
row('a static call of no method', with_pool(Entry('static method', 2), classes=[CALLS]), '11 Unresolved 0')
EXPORTED = package(2, CALLS, cls('S', fields=[Field(SHORT, offset=0)]), exports=[('A', [], ['m', 'init', 'later']), ('S', [0], [])], statics=Statics(defaults=2))
IMPORTS_IT = [*API, (aid(2), (1, 0))]
row('exported static members', EXPORTED, LINKED, with_pool(
    Entry('static method', (2, 0, 0), type=((SHORT,), VOID)), Entry('static method', (2, 0, 1), type=((), VOID)), Entry('static field', (2, 1, 0), type=SHORT), imports=IMPORTS_IT), LINKED)
row('an exported abstract method', EXPORTED, LINKED, with_pool(Entry('static method', (2, 0, 2)), imports=IMPORTS_IT), '11 Unresolved 0')
row('a static method that isn\'t exported', EXPORTED, LINKED, with_pool(Entry('static method', (2, 0, 3)), imports=IMPORTS_IT), '11 Unresolved 0')
row('a static field that isn\'t exported', EXPORTED, LINKED, with_pool(Entry('static field', (2, 1, 1)), imports=IMPORTS_IT), '11 Unresolved 0')
row('members of an API class', with_pool(Entry('static method', (1, 9, 6), type=((BYTE, BYTE), SHORT)), Entry('static method', (1, 8, 7), type=((SHORT, BYTE), Reference(OBJECT, True)))), LINKED)
row('a static field of its own', with_pool(Entry('static field', 0, type=SHORT), classes=[cls('A', fields=[Field(SHORT, offset=0)])], statics=Statics(defaults=2)), LINKED)
row('a static field where none is', with_pool(Entry('static field', 1), classes=[cls('A', fields=[Field(SHORT, offset=0)])], statics=Statics(defaults=2)), '11 Unresolved 0')
row('a table entry that is no method, called', with_pool(Entry('virtual', 'A', 1), classes=[cls('A', public=table(2, base=1))]), '11 Unresolved 0')
row('a table entry that is no method', of_one_class(cls('A', public=table(2, base=1))), '13 BadClass 0')
row('a static method in a table, called', with_pool(Entry('virtual', 'A', 1), classes=[cls('A', public=table('m', base=1), methods=[method(static=True)])]), '13 BadClass 0')

# ---- a class by itself

row('a class below Object', of_one_class(cls('A')), LINKED)
row('a class without a superclass', of_one_class(cls('A', None)), '13 BadClass 0')
row('a superclass that isn\'t there', of_one_class(cls('A', Imported(0, 40))), '13 BadClass 0')
row('an interface as a superclass', of_one_class(cls('A', SHAREABLE)), '13 BadClass 0')
row('a class that is its own superclass', of_one_class(cls('A', 'A')), '13 BadClass 0')
row('classes on a circle, and one that hangs on it', package(1, cls('H', 'A'), cls('A', 'B'), cls('B', 'A')), '13 BadClass 10')
row('interfaces on a circle', package(1, Class('I', interface=True, interfaces=[('J', [])]), Class('J', interface=True, interfaces=[('I', [])])), LINKED)
row('a class that lists a class', package(1, cls('A'), cls('B', interfaces=[('A', [])])), '13 BadClass 10')
row('a class that lists nothing that is there', of_one_class(cls('A', interfaces=[(Imported(1, 40), [])])), '13 BadClass 0')
row('a class that lists an interface', of_one_class(cls('A', interfaces=[(SHAREABLE, [])])), LINKED)
row('an interface that lists a class', of_one_class(Class('I', interface=True, interfaces=[(OBJECT, [])])), '13 BadClass 0')
row('a field of a class that isn\'t there', of_one_class(cls('A', size=1, fields=[Field(Reference(Imported(1, 40)))])), '13 BadClass 0')
row('a field of a class that is there', of_one_class(cls('A', size=1, fields=[Field(Reference(APDU))])), LINKED)
row('a method that takes a class that isn\'t there', of_one_class(cls('A', methods=[method(takes=(Reference(Imported(1, 40), True),))])), '13 BadClass 0')
row('a method of an interface that gives a class that isn\'t there', of_one_class(Class('I', interface=True, methods=[method(gives=Reference(5000))])), '13 BadClass 0')
row('two fields of one token', of_one_class(cls('A', size=2, fields=[Field(SHORT, 0), Field(BYTE, 0)])), '13 BadClass 0')
row('a field\'s token past the size', of_one_class(cls('A', size=2, fields=[Field(SHORT, 0), Field(BYTE, 2)])), '13 BadClass 0')
row('a field\'s token below the size', of_one_class(cls('A', size=2, fields=[Field(SHORT, 1), Field(BYTE, 0)])), LINKED)
row('a field of objects in an interface', of_one_class(Class('I', interface=True, fields=[Field(SHORT, 0)])), '13 BadClass 0')
row('a static field in an interface', of_one_class(Class('I', interface=True, fields=[Field(SHORT, offset=0)]), statics=Statics(defaults=2)), LINKED)
row('an entry of a superclass\'s method', package(1, *SUPER[:1], cls('B', 'A', public=table('m', base=1))), LINKED)
row('an entry of another class\'s method', package(1, *SUPER[:1], cls('B', public=table('m', base=1))), '13 BadClass 12')
row('an entry of a package table that is no method', of_one_class(cls('A', package=table(2))), '13 BadClass 0')
row('a method that counts this', of_one_class(cls('A', methods=[method(takes=(SHORT,), nargs=2)])), LINKED)
row('a method that doesn\'t count this', of_one_class(cls('A', methods=[method(takes=(SHORT,), nargs=1)])), '13 BadClass 0')
row('a static method that counts this', of_one_class(cls('A', methods=[method(static=True, takes=(SHORT,), nargs=2)])), '13 BadClass 0')
row('an abstract method of other arguments', of_one_class(cls('A', methods=[method(abstract=True, nargs=2)], abstract=True)), '13 BadClass 0')

# ---- what a class inherits

BASE = cls('A', public=table('m', 'n', base=1), methods=[method(), method('n', takes=(BYTE,))])
row('a table that is shorter than the one above', package(1, BASE, cls('B', 'A', public=table(ABOVE, base=1))), '13 BadClass 14')
row('a table as long as the one above', package(1, BASE, cls('B', 'A', public=table(ABOVE, ABOVE, base=1))), LINKED)
row('no table, and the one above', package(1, BASE, cls('B', 'A')), LINKED)
row('a table that begins behind the one above', package(1, BASE, cls('B', 'A', public=table('o', base=3), methods=[method('o')])), LINKED)
row('a method of another type', package(1, BASE, cls('B', 'A', public=table('o', ABOVE, base=1), methods=[method('o', takes=(SHORT,))])), '13 BadClass 14')
row('a method of the same type', package(1, BASE, cls('B', 'A', public=table('o', ABOVE, base=1), methods=[method('o')])), LINKED)
row('a method of another result', package(1, BASE, cls('B', 'A', public=table('o', ABOVE, base=1), methods=[method('o', gives=SHORT)])), '13 BadClass 14')
row('equals of Object, overridden', of_one_class(cls('A', public=table('m'), methods=[method(takes=(Reference(OBJECT),), gives=BOOLEAN)])), LINKED)
row('equals of Object, overridden by another type', of_one_class(cls('A', public=table('m'), methods=[method(takes=(Reference(APDU),), gives=BOOLEAN)])), '13 BadClass 0')
row('package tokens that are equal, in two packages', ELSEWHERE, LINKED,
    package(1, cls('B', Imported(2, 0), package=table('o', base=1), methods=[method('o', takes=(SHORT,))]), imports=IMPORTS_IT), LINKED)
row('package tokens that are equal, in one package', package(1, VISIBLE, cls('B', 'A', package=table('o', base=1), methods=[method('o', takes=(SHORT,))])), '13 BadClass 12')
row('an abstract method in a class that isn\'t', of_one_class(replace(ABSTRACT[0], abstract=False)), '13 BadClass 0')
row('an abstract method in a class that is', package(1, *ABSTRACT), LINKED)
row('an abstract method that stays abstract below', package(1, ABSTRACT[0], cls('B', 'A')), '13 BadClass 12')
row('an abstract method that is overridden', package(1, ABSTRACT[0], cls('B', 'A', public=table('o', base=1), methods=[method('o')])), LINKED)
HIDDEN = package(2, cls('A', package=table('m'), methods=[method(abstract=True)], abstract=True), exports=[('A', [], [])])
row('an abstract method that only another package sees', HIDDEN, LINKED, package(1, cls('B', Imported(2, 0)), imports=IMPORTS_IT), '13 BadClass 0')
row('an abstract method that only another package sees, in an abstract class', HIDDEN, LINKED, package(1, cls('B', Imported(2, 0), abstract=True), imports=IMPORTS_IT), LINKED)

# ---- what a class inherits that hangs on a circle: it is refused for that alone, and else the first on the circle is


def hanging(below, *circle):
    """A class below the first of two that are each other's superclass."""
    first, second = circle
    return package(1, below, replace(first, above='B', abstract=True), replace(second, above='A', abstract=True))


PLAIN = cls('B')
row('nothing, on a circle', hanging(cls('H', 'A'), cls('A'), PLAIN), '13 BadClass 10')
row('a table as long as the one on a circle', hanging(cls('H', 'A', public=table(ABOVE, ABOVE, base=1)), BASE, PLAIN), '13 BadClass 14')
row('a table that is shorter than the one on a circle', hanging(cls('H', 'A', public=table(ABOVE, base=1)), BASE, PLAIN), '13 BadClass 0')
row('a method of the type that the circle has', hanging(cls('H', 'A', public=table('o', ABOVE, base=1), methods=[method('o')]), BASE, PLAIN), '13 BadClass 14')
row('a method of another type than the circle has', hanging(cls('H', 'A', public=table('o', ABOVE, base=1), methods=[method('o', takes=(SHORT,))]), BASE, PLAIN), '13 BadClass 0')
FAR = replace(BASE, name='B')
row('a method of another type than the far side has', hanging(cls('H', 'A', public=table('o', ABOVE, base=1), methods=[method('o', takes=(SHORT,))]), cls('A'), FAR), '13 BadClass 0')
row('a method that the near side ends', hanging(cls('H', 'A', public=table('o', base=1), methods=[method('o', takes=(SHORT,))]), cls('A', public=table(ABOVE)), FAR), '13 BadClass 12')
row('an abstract method on a circle', hanging(cls('H', 'A'), ABSTRACT[0], PLAIN), '13 BadClass 0')
row('an abstract method on a circle, overridden', hanging(cls('H', 'A', public=table('o', base=1), methods=[method('o')]), ABSTRACT[0], PLAIN), '13 BadClass 12')
row('an abstract method on a circle, that stays abstract', hanging(cls('H', 'A', abstract=True), ABSTRACT[0], PLAIN), '13 BadClass 10')
UNSEEN = cls('A', package=table('m'), methods=[method(abstract=True)])
row('an abstract package-visible method on a circle', hanging(cls('H', 'A'), UNSEEN, PLAIN), '13 BadClass 0')
row('an abstract package-visible method on a circle, overridden', hanging(cls('H', 'A', package=table('o'), methods=[method('o')]), UNSEEN, PLAIN), '13 BadClass 12')

# ---- interfaces

TAKES = Class('I', interface=True, methods=[method(takes=(SHORT,))])


def implementing(m=None, tokens=(1,), **more):
    return cls('A', public=table('o', base=1), methods=[m or method('o', takes=(SHORT,))], interfaces=[('I', list(tokens))], **more)


row('a method of an interface', package(1, TAKES, implementing()), LINKED)
row('a method of an interface, of another type', package(1, TAKES, implementing(method('o', takes=(BYTE,)))), '13 BadClass 1')
row('a method of an interface, of another type, in an abstract class', package(1, TAKES, implementing(method('o', takes=(BYTE,)), abstract=True)), LINKED)
row('an index that is missing', package(1, TAKES, implementing(tokens=())), '13 BadClass 1')
row('an index past the table', package(1, TAKES, implementing(tokens=(2,))), '13 BadClass 1')
row('an index more than the interface has methods', package(1, TAKES, implementing(tokens=(1, 1))), LINKED)
row('an index more that leads nowhere', package(1, TAKES, implementing(tokens=(1, 9))), '13 BadClass 1')
row('an index that is package-visible', package(1, TAKES, cls('A', package=table('o'), methods=[method('o', takes=(SHORT,))], interfaces=[('I', [128])])), '13 BadClass 1')
row('static rows of an interface count', package(1, Class('I', interface=True, methods=[method(static=True, takes=(BYTE,))]), implementing()), '13 BadClass 1')
LISTS = implementing(method('o', takes=(SHORT,), abstract=True), abstract=True)
row('a row above, and its method below', package(1, TAKES, LISTS, cls('B', 'A', public=table('p', base=1), methods=[method('p', takes=(SHORT,))])), LINKED)
row('a row above, and no method below', package(1, TAKES, LISTS, cls('B', 'A')), '13 BadClass 17')
ABOVE_IT = implementing(tokens=(9,), abstract=True)
row('a row above that a nearer one hides', package(1, TAKES, ABOVE_IT, cls('B', 'A', interfaces=[('I', [1])])), '13 BadClass 17')


def implementing_on_circle(below, implements):
    return package(1, TAKES, *hanging(below, implements, PLAIN).classes)


row('a row on a circle, and its method below', implementing_on_circle(cls('H', 'A', public=table('p', base=1), methods=[method('p', takes=(SHORT,))]), LISTS), '13 BadClass 13')
row('a row on a circle whose index leads nowhere', implementing_on_circle(cls('H', 'A'), ABOVE_IT), '13 BadClass 1')
row('a row on a circle whose index leads nowhere, in an abstract class', implementing_on_circle(cls('H', 'A', abstract=True), ABOVE_IT), '13 BadClass 11')
row('Shareable, which has no methods', of_one_class(cls('A', interfaces=[(SHAREABLE, [])])), LINKED)

# ---- static fields

row('static fields side by side', with_statics(Statics(references=2, defaults=3), Field(BYTES, offset=0), Field(Reference(OBJECT), offset=2), Field(SHORT, offset=4), Field(BYTE, offset=6)), LINKED)
row('a static field that leaves the image', with_statics(Statics(defaults=3), Field(SHORT, offset=0), Field(SHORT, offset=2)), '14 BadStatic 2')
row('a static field at the end of the image', with_statics(Statics(defaults=3), Field(SHORT, offset=0), Field(BYTE, offset=2)), LINKED)
row('a reference among the primitives', with_statics(Statics(references=1, defaults=2), Field(BYTES, offset=2)), '14 BadStatic 2')
row('a reference at an odd offset', with_statics(Statics(references=2), Field(BYTES, offset=1)), '14 BadStatic 1')
row('a primitive among the references', with_statics(Statics(references=1), Field(SHORT, offset=0)), '14 BadStatic 0')
row('static fields that overlap', with_statics(Statics(defaults=4), Field(SHORT, offset=1), Field(SHORT, offset=2)), '14 BadStatic 1')
row('static fields of one offset', with_statics(Statics(defaults=4), Field(BYTE, offset=3), Field(BYTE, offset=1), Field(BYTE, offset=1)), '14 BadStatic 1')
row('the least of bad static fields', with_statics(Statics(defaults=2), Field(BYTE, offset=9), Field(BYTE, offset=5)), '14 BadStatic 5')
ARRAY = Statics(references=2, arrays=[(BYTES, bytes(3))])
row('an initialised array', with_statics(ARRAY, Field(BYTES, offset=0), Field(SHORTS, offset=2)), LINKED)
row('an initialised array of another type', with_statics(ARRAY, Field(SHORTS, offset=0)), '14 BadStatic 0')
row('an initialised array as an object', with_statics(ARRAY, Field(Reference(OBJECT), offset=0)), '14 BadStatic 0')
row('an initialised array that no field has', with_statics(ARRAY, Field(SHORTS, offset=2)), LINKED)

# ---- the least refusal

row('an entry before a class', with_pool(Entry('class', 9), classes=[cls('A', None)]), '11 Unresolved 0')
row('an import before an entry', with_pool(Entry('class', 9), imports=[(aid(9), (1, 0))]), '10 MissingImport 0')
row('an entry that names nothing before another type', with_pool(Entry('field', 'A', 0, BYTE), Entry('class', 99), classes=TWO), '11 Unresolved 1')
row('a class before a static field', package(1, cls('A', None, fields=[Field(SHORT, offset=9)])), '13 BadClass 0')
row('a static field before a package that is there', LIBRARY, LINKED, Package(aid(2), imports=API, classes=[cls('A', fields=[Field(SHORT, offset=9)])]), '14 BadStatic 9')
row('the first of bad classes', package(1, cls('A'), cls('B', None), cls('C', None)), '13 BadClass 10')
row('what isn\'t read comes first', SMALL[:7] + b'\x03' + SMALL[8:], '6 FormatVersion')


# ---- a chain of 20 classes over three packages

def link_of_chain(number, first, count, below=None):
    """Classes of a chain, each with the first's methods from above; the first of a package has a package-visible one."""
    classes = []
    for i in range(first, first + count):
        above = OBJECT if i == 0 else ('C%d' % (i - 1) if i > first else Imported(2, 0))
        start = method('m%d' % i, takes=(SHORT,)), method('v%d' % i)
        classes.append(cls(
            'C%d' % i, above, size=255,
            public=table('m0', base=1) if i == 0 else table(ABOVE, base=1),
            package=table('v%d' % i) if i == first else table(ABOVE),
            methods=list(start) if i == 0 else ([start[1]] if i == first else []),
            fields=[Field(SHORT, 254)],
        ))
    last = 'C%d' % (first + count - 1)
    return Package(aid(number), imports=API if below is None else [*API, (aid(below), (1, 0))], exports=[(last, [], [])], classes=classes)


CHAIN = [link_of_chain(11, 0, 7), link_of_chain(12, 7, 7, 11), link_of_chain(13, 14, 6, 12)]


def asking(number):
    """A package with a class below the chain, and every look-up from there."""
    last = Imported(2, 0)
    return Package(
        aid(number), imports=[*API, (aid(13), (1, 0))], classes=[cls('D', last, size=1, fields=[Field(SHORT, 0)])],
        pool=[Entry('virtual', 'D', 1, ((SHORT,), VOID)), Entry('super', 'D', 1, ((SHORT,), VOID)), Entry('virtual', last, 0, ((Reference(OBJECT),), BOOLEAN)), Entry('field', 'D', 0, SHORT)],
    )


def asking_more(number, token):
    return replace(asking(number), pool=[Entry('virtual', 'D', token)])


row('a chain over three packages', *[x for p in CHAIN for x in (p, LINKED)], asking(14), LINKED, package(15, cls('Z')), LINKED, asking(16), LINKED,
    asking_more(17, 128), '11 Unresolved 0', asking_more(18, 2), '11 Unresolved 0')
