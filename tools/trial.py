"""Runs command lines of jcard by a build that is not proved. `rt try` makes it, in one to two minutes, runs it with
tests of every access and sum, and keeps nothing of it.

The program runs in a folder of rt's own, so the paths of a command line are made whole, and those behind `load` in a
script too. A script, and a session, are read to their end before the first line is played.
"""
from common import Fault, child, shown, system_words

import os
import re
import shutil
import subprocess
import sys
import tempfile

TOP = os.path.dirname(os.path.dirname(os.path.realpath(__file__)))
CRATE = os.path.join(TOP, 'crates', 'jcard')
SCRIPTS = ('/dev/stdin', '/proc/self/fd/0', '/dev/fd/0')  # what names standard input
VALUED = ('--steps', '--objects', '--cells', '--frames', '--words', '--binding')  # a word comes behind each of these
MOST = 4095  # bytes of a path, as the system takes it
NO_BUILD = 3
ENDED = re.compile(rb'(?:case=(\S+) )?run=ended status=(\d+) .*proved=no\n')
# Lines of rt's own where all is well.
OF_RT = re.compile(rb'interpreter: no-answer: |checked: ended |races: not looked for|cases=')


def say(text):
    print('jcard: ' + text, file=sys.stderr, flush=True)


def begin():
    """Whether rt is there. That the build is not proved is told."""
    if not shutil.which('rt'):
        say('rt, the command of the Rattle toolchain, isn\'t on PATH')
        return False
    say('this build is not proved, and is made now, in one to two minutes')
    return True


def with_whole_paths(script, folder):
    """A script's bytes, with whole paths behind `load`, by a folder that has no blank in its name. A line that isn't a
    load of two paths stays as it is."""
    lines = []
    for line in script.split(b'\n'):
        words = line.split(b' ')
        if len(words) == 3 and words[0] == b'load' and all(words):
            words[1:] = [word if word.startswith(b'/') else folder + b'/' + word for word in words[1:]]
        lines.append(b' '.join(words))
    return b'\n'.join(lines)


class CommandLine:
    """The words of a command line with whole paths, by the folder that they are said in. `plain` has the places of the
    words that are no options."""

    def __init__(self, words, folder):
        self.folder, self.words, self.plain = folder, list(words), []
        self.find_plain()
        self.kind = self.words[self.plain[0]] if self.plain else ''
        if self.kind in ('verify', 'run'):
            for at in self.plain[1:]:
                self.words[at] = self.whole(self.words[at])

    def find_plain(self):
        """Finds the words that are no options. Bindings get whole paths."""
        option, is_open = '', True
        for at, word in enumerate(self.words):
            if option == '--binding':
                self.words[at] = self.whole(word)
            elif is_open and word.startswith('--binding='):
                self.words[at] = '--binding=' + self.whole(word.partition('=')[2])
            elif not option and (not is_open or word == '-' or not word.startswith('-')):
                self.plain.append(at)
            is_open = is_open and (bool(option) or word != '--')
            option = word if word in VALUED and is_open and not option else ''
        self.ends_open = option  # an option at the end, whose value is missing

    def whole(self, path):
        """A path that goes by the root; what names standard input stays."""
        if path in SCRIPTS or not path:
            return path
        found = os.path.join(self.folder, path)
        if len(os.fsencode(found)) > MOST:
            raise Fault('%s: its path from the root on has more than %d bytes' % (shown(path), MOST))
        return found

    def script(self):
        """The path of the script that is played, or None."""
        if self.kind == 'session':
            return SCRIPTS[0]
        return self.words[self.plain[1]] if self.kind == 'run' and len(self.plain) > 1 else None

    def write_script(self, path, room):
        """Writes the script with whole paths to a file, as an empty one where there is none. A folder that has a blank
        in its name gets a link in a folder `room`."""
        text, here = b'', self.folder
        if self.script() is not None:
            if ' ' in here:
                here = path_of_link(self.folder, room)
            try:
                with open(self.script(), 'rb') as given:
                    text = with_whole_paths(given.read(), os.fsencode(here))
            except OSError as error:
                raise Fault(system_words(error, self.script())) from None
        with open(path, 'wb') as file:
            file.write(text)

    def with_script(self, path):
        """The words with another script."""
        words = list(self.words)
        if self.kind == 'run' and self.script() is not None:
            words[self.plain[1]] = path
        return words


def path_of_link(folder, room):
    """The path of a link to a folder, without a blank."""
    link = os.path.join(room, 'here')
    if not os.path.lexists(link):
        os.symlink(folder, link)
    return link


# One command line: its streams are passed on


def rt_try(words, stdin):
    """Has rt build and run the program; what it writes on standard error is passed on, less what rt says."""
    status = None
    with child(['rt', 'try', '--', *words], cwd=CRATE, stdin=stdin, stderr=subprocess.PIPE) as rt:
        for line in rt.stderr:
            ended = ENDED.match(line)
            status = int(ended[2]) if ended else status
            if not ended and not OF_RT.match(line):
                sys.stderr.buffer.write(line)
                sys.stderr.buffer.flush()
        rt.wait()
    return status if status is not None else NO_BUILD


def answer(line):
    """The exit status of a command line."""
    with tempfile.TemporaryDirectory() as room:
        script = os.path.join(room, 'script')
        line.write_script(script, room)
        if line.kind != 'session':
            return rt_try(line.with_script(script), subprocess.DEVNULL)
        with open(script, 'rb') as file:
            return rt_try(line.words, file)


# Several command lines with one build


class Answer:
    """What came of a command line: its streams, as bytes, and its exit status."""

    def __init__(self, stdout, stderr, status):
        self.stdout, self.stderr, self.status = stdout, stderr, status


def case_of(number):
    return '%04d' % number


def write_case(line, number, cases, room):
    """Writes a command line as rt takes it: a file that is its script and its standard input, and one of words."""
    path = os.path.join(cases, case_of(number))
    line.write_script(path, room)
    words = line.with_script('{}')
    if any('\n' in word for word in words):
        raise Fault('%s: a word with a line feed can\'t be handed over' % shown(' '.join(words)))
    with open(path + '.args', 'wb') as file:
        file.write(os.fsencode(''.join(word + '\n' for word in words)))


def streams_of(said, count):
    """What each of several command lines wrote on standard output: a line `== NAME` stands before each."""
    found = []
    for number in range(count):
        _, _, said = said.partition(b'== %s\n' % case_of(number).encode())
        found.append(said.partition(b'== %s\n' % case_of(number + 1).encode())[0])
    return found


def endings_of(told):
    """What each of several command lines wrote on standard error, with its exit status; and what else was written."""
    found, lines = [], []
    for line in told.splitlines(True):
        ended = ENDED.match(line)
        if ended:
            found.append((b''.join(lines), int(ended[2])))
            lines = []
        elif not OF_RT.match(line):
            lines.append(line)
    return found, b''.join(lines)


def answers(lines, **how):
    """The answers of several command lines, with one build. They run one behind the other, and each finds the files
    that those before it wrote. Where one gives no answer, what rt says is told. `how` says how rt is started."""
    with tempfile.TemporaryDirectory() as room:
        cases = os.path.join(room, 'cases')
        os.mkdir(cases)
        for number, line in enumerate(lines):
            write_case(line, number, cases, room)
        with child(['rt', 'try', '--cases', cases], cwd=CRATE, stdin=subprocess.DEVNULL, stdout=subprocess.PIPE,
                   stderr=subprocess.PIPE, **how) as rt:
            said, told = rt.communicate()
    endings, rest = endings_of(told)
    if len(endings) < len(lines):
        sys.stderr.buffer.write(rest)
        raise Fault('rt try gave no answer')
    return [Answer(stdout, *ending) for stdout, ending in zip(streams_of(said, len(lines)), endings)]
