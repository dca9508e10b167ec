"""Command lines of tools/convert with what is told of each; tests/convert runs them. The classes of SOURCES and the
files of FILES are in the current folder. The folder top/demo has a class file, and the folder a none.
"""
from converter.api import Binding


def binding(changes):
    """The text of a binding: the default one, without lines that begin so, and with others at its end."""
    default = Binding()
    lines = ['package %d %s %d %d' % (number, *value) for number, value in default.packages.items()]
    lines += ['class %d %d' % pair for pair in default.classes.items()]
    lines += ['member %d %d' % pair for pair in default.members.items()]
    kept = [line for line in lines if not any(line.startswith(begin + ' ') for begin in changes)]
    more = ['%s %s' % pair for pair in changes.items() if pair[1]]
    return ('# names\n' + '\n'.join(kept + more)).encode()


# Files that a command line names, by their contents.
FILES = {
    'whole': binding({'package 1': 'a0000000620001 001 3', 'class 1': '0' * 5000 + '99', 'member 1': '4'}),
    'missing': binding({'member 12': None}), 'no package 2': binding({'package 2': None}),
    'repeated': binding({}) + b'\nclass 3 77\n', 'carriage': binding({}).replace(b'\n', b'\r\n'),
    'same AID': binding({'package 2': 'F04A430101 1 0'}), 'same class': binding({'class 5': '1'}),
    'same in the other package': binding({'class 13': '11', 'class 22': '10', 'class 12': '200'}),
    'same static': binding({'member 22': '0'}), 'same virtual': binding({'member 31': '0'}),
    'two blanks': binding({'member 31': ' 6'}), 'large': binding({'member 26': '128'}),
    'latin': b'# names\xE9\npackage 1 A0000000620001 1 3\n', 'vendor.exp': bytes.fromhex('00FACADE0102'),
    'vendor.cap': b'PK\3\4\0', 'empty': b'', 'Other.java': b'class Other { }\n', 'Other.class': b'PK\3\4',
    'short.class': bytes.fromhex('CAFEBABE0000'), 'no package': b'class demo/A 0 java/lang/Object\n',
    'bad token': b'package demo F00909090909 1 0\nclass demo/A 256 java/lang/Object\n',
    'bad AID': b'package demo F0 1 0\n',
    'bad type': b'package p F00909090909 1 0\nclass p/A 0 p/A\nvirtual f (Q)V 1\n',
    'circle': b'package p F00909090910 1 0\nclass p/A 0 p/B\nstatic <init> ()V 0\nclass p/B 1 p/A\n',
    'util': b'package p F00909090910 1 0\nclass javacard/framework/Util 0 java/lang/Object\n'
            b'static arrayCompare ([BS[BSS)B 1\n',
    'framework': b'package javacard/framework F00909090910 1 0\nclass javacard/framework/Util 0 java/lang/Object\n',
    'AID of the API': b'package p F04A430102 1 0\nclass p/A 0 java/lang/Object\n',
    'twin': b'package p F00909090912 1 0\nclass p/C 0 java/lang/Object\n',
    'own': b'package demo F00909090911 1 0\nclass demo/C 0 java/lang/Object\n',
    'twice': b'package p F00909090910 1 0\nclass p/A 0 java/lang/Object\ninterface p/A 1\n',
    'two': b'package p F00909090910 1 0\npackage q F00909090912 1 0\n',
    'bad name': b'package p F00909090910 1 0\nclass p/A 0 java/lang/Object\nstatic a\x1B ()V 0\n',
    'bad above': b'package p F00909090910 1 0\nclass p/A 0 java.lang.Object\n',
    'library/exports.txt': b'package p F00909090910 1 0\nclass p/A 0 java/lang/Object\n',
    'AID of a binding': b'package 1 ZZ 1 3\n', 'token of a binding': b'# a\nmember 2 128\n',
}
EXPORTED = 'packages are imported by the exports.txt that tools/convert wrote'
# Words behind `Sums.class`, where a + stands for a blank, and the line that is told; nothing where all is well.
TOLD = [
    ('--import latin', 'latin: it is no text in UTF-8'), ('--binding latin', 'latin: it is no text in UTF-8'),
    ('--import vendor.exp',
     'vendor.exp: it is a vendor\'s export file: tools/binding makes a binding of the API\'s, and ' + EXPORTED),
    ('--import vendor.cap', 'vendor.cap: it is an archive, perhaps a CAP file: ' + EXPORTED),
    ('--binding vendor.cap', 'vendor.cap: it is an archive, perhaps a CAP file: ' + EXPORTED),
    ('--import Sums.class', 'Sums.class: it is a class file'), ('--import empty', 'empty: it names no package'),
    ('--import Other.java', 'Other.java: line 1 is none of exports.txt'),
    ('--import a', 'a: there is no exports.txt in it, as tools/convert writes it'),
    ('--binding Other.java', 'Other.java: line 1 is none of a binding'),
    ('--import none', 'none: No such file or directory'), ('a\nb', 'a\\nb: No such file or directory'),
    ('/dev/null', '/dev/null: it isn\'t a regular file'),
    ('--import /dev/zero', '/dev/zero: it isn\'t a regular file'),
    ('--binding /dev/zero', '/dev/zero: it isn\'t a regular file'),
    ('Circle.class --import circle', 'demo.Circle.<init>, line 1: the class p.A is above itself'),
    ('--import no+package', 'no package: line 1 is none of exports.txt'),
    ('--import bad+token', 'bad token: line 2 is none of exports.txt'),
    ('--import bad+AID', 'bad AID: line 1 is none of exports.txt'),
    ('--import bad+type', 'bad type: line 3 is none of exports.txt'),
    ('--import util', 'util: line 2: the class javacard.framework.Util isn\'t of the package p'),
    ('--import framework',
     'framework: line 1: the package javacard.framework is known already, from the API or an import'),
    ('--import AID+of+the+API', 'AID of the API: line 1: the package p has the AID of javacard.framework'),
    ('--import circle --import circle --import ./circle', None), ('--import library', None),
    ('--import circle --import twin', 'twin: line 1: the package p is known already, from the API or an import'),
    ('--import own', 'the package demo is known already, from the API or an import'),
    ('--import twice', 'twice: line 3: the class p.A is known already'),
    ('--import two', 'two: line 2: it is of a second package'),
    ('--import bad+name', 'bad name: line 3 is none of exports.txt'),
    ('--import bad+above', 'bad above: line 2 is none of exports.txt'),
    ('--binding whole', None), ('--binding same+in+the+other+package', None),
    ('--binding missing', 'missing: it doesn\'t name member 12'),
    ('--binding empty', 'empty: it doesn\'t name package 1'),
    ('--binding no+package+2', 'no package 2: it doesn\'t name package 2'),
    ('--binding repeated', 'repeated: line 81 names class 3 again'),
    ('--binding carriage', 'carriage: line 2 is none of a binding'),
    ('--binding same+AID', 'same AID: line 80 gives package 2 what a line before it gave package 1'),
    ('--binding same+class', 'same class: line 80 gives class 5 what a line before it gave class 2'),
    ('--binding same+static', 'same static: line 80 gives member 22 what a line before it gave member 21'),
    ('--binding same+virtual', 'same virtual: line 80 gives member 31 what a line before it gave member 2'),
    ('--binding two+blanks', 'two blanks: line 80 is none of a binding'),
    ('--binding large', 'large: line 80 is none of a binding'),
    ('--binding AID+of+a+binding', 'AID of a binding: line 1 is none of a binding'),
    ('--binding token+of+a+binding', 'token of a binding: line 2 is none of a binding'),
    ('Other.java', 'Other.java: it is no class file'), ('Other.class', 'Other.class: it is no class file'),
    ('short.class', 'short.class: it is cut off'), ('a', 'a: there is no class file in it'),
    ('top', 'top: there is no class file in it (there are some in top/demo)'),
    ('top/demo', 'top/demo/Sums.class: the class demo.Sums is in Sums.class too'),
    ('Half.class', 'the classes are of several Java packages: demo, other'),
    ('Sums.class ./Sums.class link.class', None),
    ('Alone.class', 'Alone is in no Java package: its source has to begin with one'),
    ('--applet demo.Other=F0090909090901', 'demo.Other: there is no such class'),
    ('--applet other.Sums=F0090909090901', 'other.Sums: there is no such class'),
    ('--applet Sums=F0090909090901', 'Sums: there is no such class: there is demo.Sums'),
    ('--applet demo.Sums=F0090909090901',
     'demo.Sums: an applet\'s class extends javacard.framework.Applet, and this one doesn\'t'),
    ('Open.class --applet demo.Open=F0090909090901', 'demo.Open: an applet\'s class can\'t be abstract'),
    ('Idle.class Idle0.class --applet demo.Idle=F0090909090901',
     'demo.Idle: it has no static method install(byte[], short, byte)'),
    ('Good.class --applet demo.Good=F00909090A',
     'demo.Good: the applet\'s AID begins with F00909090A, and its package\'s with F009090909: they have to be the '
     'same'),
    ('Good.class --applet demo.Good=F0090909090901 --applet demo.Good=F0090909090901',
     'two applets have the AID F0090909090901'),
    ('Good.class --applet demo.Good=F0090909090901 --applet demo.Good=F009090909', None),
    ('Returns.class',
     'demo.Returns.f, line 1: the package has 260 handlers, and at most there are 255: 260 are of this method, as '
     'javac splits the range of a try at each return and jump out of it'),
    ('Huge.class', 'the package is too large: a component has at most 65535 bytes'),
]
# .. and the words behind those of a wrong command line, with status 2.
WRONG = [
    ('--applet demo.Sums', 'argument --applet: an applet is CLASS=AID, and demo.Sums is none'),
    ('--applet =F0090909090901', 'argument --applet: an applet is CLASS=AID, and =F0090909090901 is none'),
    ('--applet demo.Sums=', 'argument --applet: an applet is CLASS=AID, and demo.Sums= is none'),
    ('--applet demo.Sums=F0+09090909',
     'argument --applet: an AID is 5 to 16 bytes in hexadecimal, and F0 09090909 is none'),
    ('--package F00', 'argument --package: an AID is 5 to 16 bytes in hexadecimal, and F00 is none'),
    ('--package F00909090909/1', 'argument --package: a version is MAJOR.MINOR, and 1 is none'),
]
METHOD = 'public static void install(byte[] a, short o, byte l) { } public void process(javacard.framework.APDU a) { }'
SOURCES = {
    'Sums': 'package demo; class Sums { }', 'Half': 'package other; class Half { }', 'Alone': 'class Alone { }',
    'Open': 'package demo; abstract class Open extends javacard.framework.Applet { %s }' % METHOD,
    'Idle': 'package demo; class Idle extends Idle0 { %s }' % METHOD.partition('}')[2],
    'Idle0': 'package demo; abstract class Idle0 extends javacard.framework.Applet { }',
    'Good': 'package demo; class Good extends javacard.framework.Applet { %s }' % METHOD,
    'A': 'package p; public class A { }', 'Circle': 'package demo; class Circle extends p.A { }',
    'Returns': 'package demo; class Returns { static short f(short a, byte[] b) { try { %s } finally { b[0]++; } '
               'return 0; } }' % ' '.join('if (a == %d) { return a; }' % number for number in range(260)),
    'Huge': 'package demo; class Huge { %s }' % ' '.join(
        'void f%d(byte[] a) { %s }' % (number, 'a[0] += 3; ' * 2500) for number in range(4)),
}
