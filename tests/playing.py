"""Scripts on a card: packages in folders, their certificates by `jcard verify`, and scripts by `jcard run`, both of the
program that ./jcard builds. tests/card-rows, tests/machine-rows, tests/check and tests of failures use it."""
import ctypes
import os
import subprocess
from dataclasses import dataclass, field

from described import Mistake
from packages import component_files

PROGRAM = os.path.join(os.path.dirname(os.path.dirname(os.path.abspath(__file__))), 'crates', 'jcard', 'out', 'jcard')
SECONDS = 60


@dataclass
class Said:
    """What a program wrote, and its exit status."""
    stdout: str
    stderr: str
    status: int


def without_power():
    """Takes from a process, before its program begins, what lets root read each file (capabilities 1 and 2, by Linux's
    prctl). Others can't, and need not."""
    for capability in 1, 2:
        ctypes.CDLL(None).prctl(24, capability, 0, 0, 0)


def jcard(*words, folder=None, stdin=b'', before=None):
    """What jcard says to a command line, with a folder as the current one. The process does `before` first."""
    run = subprocess.run([PROGRAM, *words], input=stdin, capture_output=True, timeout=SECONDS, env={}, cwd=folder,
                         preexec_fn=before)
    stdout, stderr = (text.decode(errors='backslashreplace') for text in (run.stdout, run.stderr))
    return Said(stdout, stderr, run.returncode)


def preloaded(folder, code):
    """A library in a folder, of C code, that a program is run with by LD_PRELOAD: its functions are called in place of
    those of the system's. It wants a C compiler."""
    path = os.path.join(folder, 'preloaded.so')
    subprocess.run(['cc', '-shared', '-fPIC', '-o', path, '-x', 'c', '-'], input=code.encode(), check=True)
    return path


def write_folder(path, files):
    os.makedirs(path)
    for name, content in files.items():
        with open(os.path.join(path, name), 'wb') as file:
            file.write(content)


def write_package(path, image):
    """A folder with the component files of an image."""
    write_folder(path, component_files(image))


def verify(folder, name, before, binding=()):
    """Works out the certificate of the package in the folder NAME, behind others, as the file NAME.cert."""
    said = jcard('verify', name, name + '.cert', *before, *binding, folder=folder)
    if said.status != 0 or said.stderr or not said.stdout.startswith('certificate '):
        raise Mistake('%s: %s%s' % (name, said.stdout, said.stderr))


@dataclass
class Script:
    """Words of the command line behind the script's name; and for each line its answer, and how it is called. It is a
    session's where that is said."""
    words: list = field(default_factory=list)
    rows: list = field(default_factory=list)
    is_session: bool = False

    def row(self, line, answer, called=None):
        self.rows.append((line, answer, called or line))


def said_to(script, folder):
    """What is said to the lines of a script or of a session."""
    text = ''.join(line + '\n' for line, _, _ in script.rows).encode()
    if script.is_session:
        return jcard('session', *script.words, folder=folder, stdin=text)
    with open(os.path.join(folder, 'script'), 'wb') as file:
        file.write(text)
    return jcard('run', 'script', *script.words, folder=folder)


def answers(script, folder):
    """What is written where a script is played: a line for each answer, and that of an error at the end."""
    said = said_to(script, folder)
    written, errors = said.stdout.splitlines(), said.stderr.splitlines()
    if said.status != len(errors) or any(line.startswith('error') for line in written):
        raise Mistake('exit status %d: %s%s' % (said.status, said.stdout, said.stderr))
    return written + errors


def failures(script, folder):
    """How many rows a script has, and those that failed: with what was wanted and what came."""
    got = answers(script, folder)
    rows = script.rows + [('', 'nothing', 'behind the last line')] * (len(got) - len(script.rows))
    got += ['nothing'] * (len(rows) - len(got))
    return len(rows), [(called, wanted, came) for (_, wanted, called), came in zip(rows, got) if came != wanted]


def lines_of(path):
    """Lines of a file that say something, each with those that are indented under it. One that is indented by twelve
    continues the one before."""
    lines = []
    with open(path, encoding='utf-8') as file:
        for line in file:
            text = line.strip()
            if not text or text.startswith('#'):
                continue
            if not line[0].isspace():
                lines.append((text, []))
            elif line.startswith(' ' * 12):
                lines[-1][1][-1] += ' ' + text
            else:
                lines[-1][1].append(text)
    return lines


def report(name, count, failed):
    """Prints the rows of a file that failed, and how many. Gives how many passed and how many failed."""
    for line, wanted, came in failed:
        print('%s: %s\n    wanted %s\n    came %s' % (name, line, wanted, came))
    print('%s: %d passed, %d failed' % (name, count - len(failed), len(failed)))
    return count - len(failed), len(failed)


MISTAKES = (Mistake, OSError, IndexError, KeyError, TypeError, ValueError, subprocess.TimeoutExpired)


def totals(counts):
    """Prints the last line of all, and gives the exit status. Nothing at all is a failure."""
    passed, failed = sum(p for p, _ in counts), sum(f for _, f in counts)
    if passed + failed == 0:
        failed = 1
    print('%d passed, %d failed' % (passed, failed))
    return 1 if failed else 0
