"""The file of a card that `tools/reader SCRIPT --keep FILE` keeps between runs.

Its first line is a comment with two checksums: of the script, and of what the script is played with. Each line behind
it is a command that a reader sent to the card, `apdu BYTES`, or `reset`. A line is on the disk before the reader has
the card's answer. The file is only ever added to, but for a last line that was cut off while it was written, and for
the first line of a card that no command has changed.
"""
import fcntl
import hashlib
import os
import re
import stat

from common import COMPONENTS, Fault, checksum, shown, system_words
from session import NUMBERS

HEAD = re.compile(rb'# card of .* sha256 ([0-9a-f]{64}) with ([0-9a-f]{64})\n')
LINE = re.compile(rb'(?:apdu (?:[0-9a-f]{2}){1,261}|reset)\n')
TORN = re.compile(rb'(?:a|ap|apd|apdu|apdu [0-9a-f]*|r|re|res|rese|reset)?\0*')
PATH = re.compile(rb'"([^"]*)"|([^" ]+)')
LONGEST = 1025  # bytes of a line
LONGEST_NAME = 100  # characters of the script's name in the first line
RESET = b'reset'


def paths_of(script):
    """The paths that the load lines of a script name."""
    words = [b' '.join(line.split(b' ')[1:]) for line in script.split(b'\n') if line.startswith(b'load ')]
    return [quoted or plain for word in words for quoted, plain in PATH.findall(word)]


def files_of(path):
    """The component files of a folder, or a file itself."""
    return [os.path.join(path, os.fsencode(name)) for name in COMPONENTS] if os.path.isdir(path) else [path]


def head_of(path, script, arguments):
    """The first line of a card's file, by the script's path and its bytes, and the tool's arguments."""
    numbers = ['%s %s' % (name, getattr(arguments, name)) for name in NUMBERS]
    files = [file for path in paths_of(script) for file in files_of(path)]
    files += [os.fsencode(arguments.binding)] if arguments.binding else []
    sums = [checksum(file) if os.path.isfile(file) else 'none' for file in files]
    others = hashlib.sha256('\n'.join(numbers + sums).encode()).hexdigest()
    name = shown(os.path.basename(path))[:LONGEST_NAME]
    return ('# card of %s sha256 %s with %s\n' % (name, hashlib.sha256(script).hexdigest(), others)).encode()


class Kept:
    """A card's file. It is locked as long as it is open, so one reader at a time has it."""

    def __init__(self, path, head):
        self.path, self.last = path, b''
        try:
            self.file = self.opened()
            self.lines = self.read(head)
        except OSError as error:
            raise Fault(system_words(error, path)) from None

    def refuse(self, words):
        raise Fault('%s: %s' % (shown(self.path), words))

    def opened(self):
        """The file, which is made where nothing is there."""
        try:
            mode = os.lstat(self.path).st_mode
        except FileNotFoundError:
            mode = stat.S_IFREG
        if not stat.S_ISREG(mode):
            self.refuse('a link' if stat.S_ISLNK(mode) else 'no regular file')
        flags = os.O_RDWR | os.O_CREAT | os.O_APPEND | os.O_NOFOLLOW | os.O_NONBLOCK
        file = open(os.open(self.path, flags, 0o666), 'r+b', buffering=0)
        try:
            fcntl.flock(file, fcntl.LOCK_EX | fcntl.LOCK_NB)
        except BlockingIOError:
            self.refuse('another reader has this card')
        return file

    def read(self, head):
        """The lines of the file, the first one too. What was cut off at its end is removed."""
        with open(self.file.fileno(), 'rb', closefd=False) as file:
            first = file.readline(LONGEST)
            if b'\n' not in first and head.startswith(first):
                return self.begin(head)
            said, now = HEAD.fullmatch(first), HEAD.fullmatch(head)
            if not said:
                self.refuse('this isn\'t a card that tools/reader keeps')
            lines = self.lines_behind(file)
        if first != head and len(lines) == 0:
            return self.begin(head)
        if said[1] != now[1]:
            self.refuse('the script was changed since this card began')
        if said[2] != now[2]:
            self.refuse('the packages of the script or the options were changed since this card began')
        self.cut(len(first) + sum(map(len, lines)))
        self.last = lines[-1].rstrip(b'\n') if lines else b''
        return [line.rstrip(b'\n') for line in [first, *lines]]

    def lines_behind(self, file):
        """The whole lines of commands behind the first line."""
        lines = []
        for line in iter(lambda: file.readline(LONGEST), b''):
            if LINE.fullmatch(line):
                lines.append(line)
            elif file.read(1) or not TORN.fullmatch(line):
                self.refuse('line %d isn\'t a command of a reader' % (len(lines) + 2))
        return lines

    def begin(self, head):
        """Makes the file that of a card which no command has changed yet."""
        self.cut(0)
        self.put(head)
        folder = os.open(os.path.dirname(os.path.abspath(self.path)), os.O_RDONLY)
        try:
            os.fsync(folder)  # the file's name is on the disk too
        finally:
            os.close(folder)
        return [head.rstrip(b'\n')]

    def cut(self, size):
        if os.fstat(self.file.fileno()).st_size > size:
            os.ftruncate(self.file.fileno(), size)

    def put(self, content):
        """Puts bytes behind the others, and waits until they are on the disk."""
        while content:
            content = content[os.write(self.file.fileno(), content):]
        os.fsync(self.file.fileno())

    def add(self, line):
        """Adds a line. A reset behind a reset changes nothing."""
        if line == self.last == RESET:
            return
        try:
            self.put(line + b'\n')
        except OSError as error:
            raise Fault(system_words(error, self.path)) from None
        self.last = line
