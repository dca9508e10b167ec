"""Class files with altered bytes: what the converter does with each. tests/convert runs them in one process."""
import importlib.machinery
import importlib.util
import os
import random
import sys
import time
from types import SimpleNamespace

TOP = os.path.dirname(os.path.dirname(os.path.abspath(__file__)))
TOOLS = os.path.join(TOP, 'tools')
sys.path.append(TOOLS)
from common import Fault, shown  # noqa: E402
from converter.classfile import Refusals  # noqa: E402

SECONDS = 5  # of the processor, for one conversion
EDGES = [b'\0', b'\x01', b'\x7F', b'\x80', b'\xFF', b'\0\0', b'\xFF\xFF', b'\x7F\xFF\xFF\xFF', b'\xFF\xFF\xFF\xFF']


def converter():
    """The module that tools/convert is."""
    loader = importlib.machinery.SourceFileLoader('convert', os.path.join(TOOLS, 'convert'))
    module = importlib.util.module_from_spec(importlib.util.spec_from_loader('convert', loader))
    loader.exec_module(module)
    return module


def altered(chance, content):
    """A class file's bytes with some of them changed, or cut off."""
    found = bytearray(content)
    for _ in range(chance.choice([1, 1, 1, 2, 3])):
        at, way = chance.randrange(len(found)), chance.randrange(10)
        if way < 5:
            found[at] ^= 1 << chance.randrange(8)
        elif way < 7:
            found[at] = chance.randrange(256)
        elif way < 9:
            edge = chance.choice(EDGES)
            found[at:at + len(edge)] = edge
        else:
            other = chance.randrange(len(found))
            found[at:at + 2], found[other:other + 2] = found[other:other + 2], found[at:at + 2]
    return bytes(found[:chance.randrange(len(found))] if chance.randrange(40) == 0 else found)


def outcome(convert, options):
    """What comes of a conversion: 'converted', 'refused', or what is wrong with how it ends."""
    begin, lines = time.process_time(), []
    try:
        convert.converted(options)
    except Refusals as several:
        lines = several.all or ['nothing is told']
    except Fault as fault:
        lines = [fault]
    except Exception as error:  # what would be a traceback
        return '%s: %s' % (type(error).__name__, error)
    if time.process_time() - begin > SECONDS:
        return 'it takes %d seconds' % (time.process_time() - begin)
    if not all(str(line) and shown(shown(str(line))).isprintable() for line in lines):
        return 'a line can\'t be shown'
    return 'refused' if lines else 'converted'


def wrong(seed, count, folders, scratch):
    """Alters class files of packages, each of a folder with an AID and the texts of its imports. Gives how many were
    converted and how many were refused, and the others with what is wrong."""
    chance, convert, counts, found = random.Random('altered %d' % seed), converter(), {}, []
    for number in range(count):
        folder, aid, imports = chance.choice(folders)
        path = os.path.join(folder, chance.choice(sorted(os.listdir(folder))))
        with open(path, 'rb') as file:
            content = altered(chance, file.read())
        other = os.path.join(scratch, os.path.basename(path))
        with open(other, 'wb') as file:
            file.write(content)
        paths = [os.path.join(folder, name) for name in sorted(os.listdir(folder))]
        options = SimpleNamespace(classes=[other if one == path else one for one in paths], package=(aid, (1, 0)),
                                  applet=[], imports=imports, binding=None)
        word = outcome(convert, options)
        counts[word] = counts.get(word, 0) + 1
        if word not in ('converted', 'refused'):
            found.append((number, os.path.basename(path), word))
        os.remove(other)
    return counts, found
