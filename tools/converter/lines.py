"""From places of a package's code to lines of its sources: the text that is written beside the component files, and
what it says of a place (docs/profile/convert.md).

    class OFFSET NAME               a class by its record in the Class component
    method OFFSET NAME SOURCE       a method by its header in the Method component; the name of its source, or -
    PC LINE                         from this pc of the method on, the code is that of a line

The name of a source may hold anything: it is written as it is shown, so nothing of it reaches a terminal.
"""
from bisect import bisect_right
from dataclasses import dataclass, field

from common import shown
from converter.classfile import Refusal
from converter.methods import written
from converter.world import dotted, number_of

HEAD = '# From places of the Method component to lines of the sources. Written by tools/convert.'
UNKNOWN = '-'
MOST = 0xFFFFFF  # of the numbers of such a text


@dataclass
class MethodLines:
    """What is known of a method: its name with its class, its source, and where in its code lines begin."""
    name: str
    source: str
    places: list = field(default_factory=list)
    lines: list = field(default_factory=list)

    def words_at(self, pc):
        """What is said of a place: the method, the source and the line, as far as they are known."""
        number = bisect_right(self.places, pc)
        if not number:
            return self.name
        source = 'line ' if self.source == UNKNOWN else self.source + ':'
        return '%s, %s%d' % (self.name, source, self.lines[number - 1])


@dataclass
class Lines:
    """What such a text says of classes and of methods, each by their offsets."""
    classes: dict = field(default_factory=dict)
    methods: dict = field(default_factory=dict)


NOTHING = Lines()


def write_lines(classes, class_offsets, methods):
    """The text for all classes, and for all methods with code."""
    sources = {k.name: k.file.source for k in classes}
    found = [HEAD] + ['class %d %s' % (class_offsets[k.name], dotted(k.name)) for k in classes]
    for where, method in written(classes):
        if where in methods.codes:
            name = '%s.%s' % (dotted(where[0]), method.name)
            found.append('method %d %s %s' % (methods.offsets[where], name, shown(sources[where[0]] or UNKNOWN)))
            found += ['%d %d' % pair for pair in lines_of(method, methods.codes[where])]
    return '\n'.join(found) + '\n'


def lines_of(method, assembled):
    """Where in a method's code the line is another one, and which."""
    before = None
    for start, card in zip(assembled.starts, assembled.cards):
        line = method.code.line(card.at)
        if line and line != before:
            yield start, line
            before = line


def plain(text):
    """A name of such a text for a terminal. What was written is escaped already, so backslashes stay."""
    return '\\'.join(map(shown, text.split('\\')))


def read_lines(text):
    """What such a text says. Texts that name no classes are read too."""
    found, at = Lines(), None
    for number, line in enumerate(text.split('\n'), 1):
        try:
            if line.startswith('method '):
                _, offset, name, source = line.split(' ', 3)
                at = found.methods[number_of(offset, MOST)] = MethodLines(plain(name), plain(source))
            elif line.startswith('class '):
                _, offset, name = line.split(' ')
                found.classes[number_of(offset, MOST)] = plain(name)
            elif line and not line.startswith('#'):
                pc, source_line = line.split(' ')
                at.places.append(number_of(pc, MOST))
                at.lines.append(number_of(source_line, MOST))
        except (ValueError, AttributeError):
            raise Refusal('line %d is none of lines of sources' % number) from None
    return found
