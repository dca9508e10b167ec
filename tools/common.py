"""What tools and examples share: how they end, how names are shown, copies of the repository's files, and the rule by
which files are replaced and removed.

A tool imports this module first, and its last line is `run(main)`. So a signal ends it without a traceback, while it
still imports too.

The rule: a tool replaces and removes only files that it made itself and that are still as it left them. Their checksums
stand in the file .made-by-TOOL of the folder, as sha256sum writes them. A file that is there with the same content is
left as it is. A link is never written through. Anything else that is in the way is told, before anything is touched.
"""
import signal
if signal.getsignal(signal.SIGINT) != signal.SIG_IGN:
    signal.signal(signal.SIGINT, signal.SIG_DFL)  # until `run` catches it

import argparse  # noqa: E402
import contextlib  # noqa: E402
import difflib  # noqa: E402
import hashlib  # noqa: E402
import os  # noqa: E402
import re  # noqa: E402
import shutil  # noqa: E402
import stat  # noqa: E402
import subprocess  # noqa: E402
import sys  # noqa: E402

# The component files that a package is read from.
COMPONENTS = ['Header.cap', 'Applet.cap', 'Import.cap', 'ConstantPool.cap', 'Class.cap', 'Method.cap',
              'StaticField.cap', 'Export.cap', 'Descriptor.cap']
FOLDER = '-' * 64  # in the place of a folder's checksum
WORDS = '%s is there already: this tool didn\'t make it, or it was changed'
ESCAPES = {'\n': '\\n', '\r': '\\r', '\t': '\\t', '\\': '\\\\'}
# Letters and marks that Python takes for printable, and that nobody sees: joiners, fillers and selectors of variants.
UNSEEN = re.compile('[\u034F\u115F\u1160\u17B4\u17B5\u180B-\u180F\u2800\u3164\uFE00-\uFE0F\uFFA0\U000E0100-\U000E01EF]')


SIGNALS = [signal.SIGINT, signal.SIGTERM, signal.SIGHUP]
SECONDS_TO_END = 10  # .. which a program has that is told to end


class Fault(Exception):
    """Why a tool gives up, in the words of one line."""


class Taken(Fault):
    """What is in the way of a tool."""


class Stopped(BaseException):
    """A signal has come that ends the tool. What it has begun is put in order on the way out."""

    def __init__(self, number):
        super().__init__()
        self.status = 128 + number


def stop(number, _):
    """Ends the tool. A second signal doesn't break into what the first one has put in order."""
    for each in SIGNALS:
        signal.signal(each, signal.SIG_IGN)
    raise Stopped(number)


def status_of(main):
    """The exit status of a tool, by what `main` gives (None is 0) or raises. A fault is told in one line on standard
    error, which begins with `error: `."""
    try:
        return main() or 0
    except Fault as fault:
        print('error: %s' % fault, file=sys.stderr)
    except BrokenPipeError:
        os.dup2(os.open(os.devnull, os.O_WRONLY), sys.stdout.fileno())  # nobody reads: nothing is told
    except OSError as error:
        print('error: %s' % system_words(error), file=sys.stderr)
    except Stopped as stopped:
        return stopped.status
    except SystemExit as ended:  # by the command line, as for its help
        return ended.code
    return 1


def run(main):
    """Runs a tool and ends with its exit status: 1 for a fault, 128 and the signal's number for a signal. A signal that
    is ignored, as by nohup, stays ignored."""
    for number in SIGNALS:
        if signal.getsignal(number) != signal.SIG_IGN:
            signal.signal(number, stop)
    status = status_of(main)
    try:
        if sys.stdout:  # it has none where it is closed
            sys.stdout.flush()
    except OSError as error:
        os.dup2(os.open(os.devnull, os.O_WRONLY), sys.stdout.fileno())
        if not status and not isinstance(error, BrokenPipeError):  # a fault is told already where there is a status
            print('error: standard output: %s' % error.strerror, file=sys.stderr)
        status = status or 1
    sys.exit(status)


def like(word, words):
    """What is said of a word that isn't known: the one of others that is nearest to it, if one is."""
    near = difflib.get_close_matches(word, words, 1)
    return ': did you mean %s?' % near[0] if near else ''


class Parser(argparse.ArgumentParser):
    """The command line of a tool. A wrong one is told by a line that begins with `error: ` and by the usage, with exit
    status 2. Options are written out; of one that isn't known the nearest is told."""

    def __init__(self, **words):
        super().__init__(allow_abbrev=False, formatter_class=argparse.RawDescriptionHelpFormatter, **words)

    def hint(self, message):
        known = [name for action in self._actions for name in action.option_strings]
        unknown = re.search(r'unrecognized arguments: (--[^ =]*)', message)
        choice = re.search(r'invalid choice: \'(.*)\' \(choose from (.*)\)', message)
        if choice:
            known, unknown = re.findall("'([^']*)'", choice[2]), choice
        return like(unknown[1], known) if unknown else ''

    def print_help(self, file=None):
        (file or sys.stdout).write(self.format_help())  # argparse tells no fault of this

    def error(self, message):
        self.exit(2, 'error: %s%s\n%s' % (shown(message), self.hint(message), self.format_usage()))


def shown(text):
    """A name or a path in one line: what isn't printable or can't be seen is escaped, as U+202E, which turns the
    direction of a text. So are bytes that aren't UTF-8."""
    def one(char):
        if char in ESCAPES or char.isprintable() and not UNSEEN.match(char):
            return ESCAPES.get(char, char)
        if '\udc80' <= char <= '\udcff':
            return '\\x%02X' % (ord(char) - 0xDC00)
        form = '\\x%02X' if ord(char) < 0x100 else '\\u%04X' if ord(char) < 0x10000 else '\\U%08X'
        return form % ord(char)
    return ''.join(map(one, text))


def system_words(error, path=''):
    """The words of an error of the system's, with the path that it is about."""
    name = error.filename if isinstance(error.filename, (str, bytes)) else path
    words = error.strerror or shown(str(error))
    return words if error.filename is None and not path else '%s: %s' % (shown(os.fsdecode(name)), words)


def content_of(path):
    """The bytes of a regular file, or of one that a link leads to. Nothing else is opened: a pipe may never end."""
    if not stat.S_ISREG(os.stat(path).st_mode) and not os.path.isdir(path):
        raise Fault('%s: it isn\'t a regular file' % shown(path))
    with open(path, 'rb') as file:
        return file.read()


def content_within(path, most):
    """The bytes of a file, which may be a pipe. There may be so many at most."""
    try:
        with open(path, 'rb') as file:
            content = file.read(most + 1)
    except OSError as error:
        raise Fault(system_words(error, path)) from None
    if len(content) > most:
        raise Fault('%s: more than %d bytes' % (shown(path), most))
    return content


def is_plain(name):
    """Whether a word names a file or a folder inside of another one."""
    return name not in ('', '.', '..') and '/' not in name and '\0' not in name


def checksum(path):
    with open(path, 'rb') as file:
        return hashlib.sha256(file.read()).hexdigest()


def put_whole(path, content):
    """Writes a file whole, in the place of one that may be there."""
    new = '%s.new-%d' % (path, os.getpid())
    try:
        with open(new, 'xb') as file:
            file.write(content)
        os.replace(new, path)
    except FileExistsError:
        raise
    except BaseException as reason:
        if os.path.exists(new):
            os.remove(new)
        if isinstance(reason, OSError):
            raise Fault('%s: %s' % (shown(path), reason.strerror)) from None
        raise


class Made:
    """The files of a folder that a tool made. Names are paths from the folder on."""

    def __init__(self, folder, tool):
        self.folder, self.list = folder, '.made-by-' + tool
        self.known = self.read()

    def path(self, name):
        return os.path.join(self.folder, name)

    def kind(self, name):
        """'file', 'folder', None where nothing is there, or 'other', as a link."""
        try:
            mode = os.lstat(self.path(name)).st_mode
        except (FileNotFoundError, NotADirectoryError):
            return None
        return 'file' if stat.S_ISREG(mode) else 'folder' if stat.S_ISDIR(mode) else 'other'

    def read(self):
        """The pairs of checksums and names that the list has."""
        if self.kind(self.list) is None:
            return set()
        lines = []
        if self.kind(self.list) == 'file':
            with open(self.path(self.list), encoding='utf-8', errors='surrogateescape') as file:
                lines = [re.fullmatch('([0-9a-f]{64}|-{64})  (.+)', line) for line in file.read().split('\n')[:-1]]
        if not lines or None in lines:
            raise Taken('%s isn\'t a list of files that were made here' % shown(self.path(self.list)))
        return {line.groups() for line in lines}

    def save(self):
        """Writes the list, if anything stands in it."""
        text = ''.join('%s  %s\n' % row for row in sorted(self.known, key=lambda row: row[::-1]))
        if text:
            self.put(self.list, text.encode('utf-8', 'surrogateescape'))
        elif self.kind(self.list):
            os.remove(self.path(self.list))

    def put(self, name, content):
        """Writes a file whole, in the place of one that may be there."""
        path = self.path(name)
        if self.is_left(name):
            os.remove(path + '.new')
        with open(path + '.new', 'xb') as file:
            file.write(content)
        os.replace(path + '.new', path)

    def is_left(self, name):
        """Whether NAME.new is of a run that was cut off: it was noted as NAME, or is a list."""
        return self.kind(name + '.new') == 'file' and (
            name == self.list or (checksum(self.path(name + '.new')), name) in self.known)

    def is_own(self, name):
        kind = self.kind(name)
        if kind == 'file':
            return (checksum(self.path(name)), name) in self.known
        return kind == 'folder' and (FOLDER, name) in self.known

    def is_in_the_way(self, name, content):
        """Whether something else is where this content is to stand, or nothing where that is None."""
        if self.kind(name) is None or self.is_own(name):
            return False
        return content is None or self.kind(name) != 'file' or not self.has(name, content)

    def write(self, files, others=()):
        """Writes files by their names. Others may not be there, but for own ones, which are removed."""
        gone = [name for name in others if name not in files]
        for name in sorted([*files, *gone]):
            if self.is_in_the_way(name, files.get(name)):
                raise Taken(WORDS % shown(self.path(name)))
        os.makedirs(self.folder, exist_ok=True)
        new = {name: content for name, content in files.items() if not self.kind(name) or not self.has(name, content)}
        made = {(hashlib.sha256(content).hexdigest(), name) for name, content in new.items()}
        after = made | {row for row in self.known if row[1] not in new and row[1] not in gone}
        self.known |= made
        self.save()  # what was there is own until it is replaced
        for name in gone:
            if self.kind(name):
                os.remove(self.path(name))
        for name, content in new.items():
            self.put(name, content)
        self.known = after
        self.save()

    def take(self, name, path):
        """Takes a file that was made elsewhere, with its mode, and as one that is made now."""
        with open(path, 'rb') as file:
            self.write({name: file.read()})
        if self.is_own(name):
            os.chmod(self.path(name), os.stat(path).st_mode & 0o777)
            os.utime(self.path(name))

    def has(self, name, content):
        with open(self.path(name), 'rb') as file:
            return file.read() == content

    def inside(self):
        """All that is in the folder, but the list, each folder behind what is in it. Links aren't followed."""
        found = []
        for at, folders, files in os.walk(self.folder, topdown=False):
            names = [os.path.relpath(os.path.join(at, name), self.folder) for name in sorted(files + folders)]
            found += [name for name in names if name not in (self.list, self.list + '.new')]
        return found

    def note_all(self):
        """Notes all that is in the folder as made."""
        self.known = {(FOLDER if self.kind(name) == 'folder' else checksum(self.path(name)), name)
                      for name in self.inside() if self.kind(name) != 'other'}
        self.save()

    def clear(self):
        """Removes the folder with all that is in it, which has to be own."""
        if os.path.islink(self.folder) or os.path.lexists(self.folder) and not os.path.isdir(self.folder):
            raise Taken(WORDS % shown(self.folder))
        inside = self.inside()
        for name in inside:
            if not self.is_own(name):
                raise Taken(WORDS % shown(self.path(name)))
        for name in inside:
            (os.rmdir if self.kind(name) == 'folder' else os.remove)(self.path(name))
        if os.path.isdir(self.folder):
            self.known = set()
            self.save()
            os.rmdir(self.folder)


def write_components(folder, files, tool):
    """Writes component files to a folder, which may have none of another package."""
    Made(folder, tool).write(files, COMPONENTS)


def copy_files(top, folder):
    """Copies a repository's files to a folder: those that git knows, and those that it doesn't ignore."""
    words = ['git', 'ls-files', '-z', '--cached', '--others', '--exclude-standard']
    listed = subprocess.run(words, cwd=top, capture_output=True, check=True)
    for path in os.fsdecode(listed.stdout).split('\0'):
        source = os.path.join(top, path)
        if path and os.path.isfile(source) and 'out' not in path.split('/')[:-1]:
            target = os.path.join(folder, path)
            os.makedirs(os.path.dirname(target), exist_ok=True)
            shutil.copy2(source, target)


@contextlib.contextmanager
def child(words, **how):
    """A program that runs in a process group of its own, as subprocess.Popen starts it. If the tool ends before the
    program has, the whole group is ended."""
    try:
        process = subprocess.Popen(words, start_new_session=True, **how)
    except OSError as error:
        raise Fault('%s isn\'t started: %s' % (shown(os.fsdecode(words[0])), error.strerror)) from None
    try:
        yield process
    finally:
        if process.poll() is None:
            end_group(process)


def end_group(process):
    """Ends a program and those of its group: they may put in order what they began, for some seconds."""
    with contextlib.suppress(ProcessLookupError):
        os.killpg(process.pid, signal.SIGTERM)
    try:
        process.wait(SECONDS_TO_END)
    except subprocess.TimeoutExpired:
        with contextlib.suppress(ProcessLookupError):
            os.killpg(process.pid, signal.SIGKILL)
        process.wait()
