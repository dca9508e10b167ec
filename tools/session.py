"""What the tools share that hold a session of the program: its options, its process, and the lines that it says.

PROGRAM in the environment is another program than ./jcard.
"""
import os
import queue
import subprocess
import threading

from common import Fault, shown, system_words

TOP = os.path.dirname(os.path.dirname(os.path.realpath(__file__)))
PROGRAM = os.environ.get('PROGRAM') or os.path.join(TOP, 'jcard')
LONGEST_LINE = 1024  # bytes; a session refuses a longer line, a comment too
SECONDS = 5  # in which a session ends behind its input
NUMBERS = {
    'steps': 'how many instructions a call may run at most',
    'objects': 'how many objects there are at most',
    'cells': 'how many cells objects have at most',
    'frames': 'how many frames a call may have at most',
    'words': 'how many words frames have at most',
}


def add_options(parser):
    """Adds the options of a session to a tool's command line."""
    for name, text in NUMBERS.items():
        parser.add_argument('--' + name, metavar='N', help=text)
    parser.add_argument('--binding', metavar='FILE', help='a file with the AIDs and tokens of the API')


def options_of(arguments, folder=None):
    """The words of these options for the program. Where the session is in another folder, the binding's path is made
    whole."""
    named = [(name, getattr(arguments, name)) for name in [*NUMBERS, 'binding']]
    words = {name: value for name, value in named if value is not None}
    if folder is not None and arguments.binding:
        words['binding'] = os.path.join(os.getcwd(), arguments.binding)
    return ['--%s=%s' % pair for pair in words.items()]


def is_silent(line):
    """Whether a session says nothing to a line: an empty one, or a comment."""
    return len(line) <= LONGEST_LINE and line[:1] in (b'', b'#')


class Told(Exception):
    """There is no card, and the session has said why."""

    def __init__(self, status):
        super().__init__(status)
        self.status = status


class Session:
    """A session that is held line by line. `hear` is called for each line that it says, with whether it is one of
    standard output. That is done by other threads."""

    def __init__(self, options, hear, folder=None, **more):
        program = os.path.abspath(PROGRAM) if folder is not None and '/' in PROGRAM else PROGRAM
        pipes = {'stdin': subprocess.PIPE, 'stdout': subprocess.PIPE, 'stderr': subprocess.PIPE}
        self.hear, self.said, self.open, self.count = hear, queue.Queue(), 2, 0
        try:
            self.process = subprocess.Popen([program, 'session', *options], cwd=folder, **pipes, **more)
        except OSError as error:
            raise Fault(system_words(error, PROGRAM)) from None
        streams = (self.process.stdout, True), (self.process.stderr, False)
        self.threads = [threading.Thread(target=self.listen, args=stream, daemon=True) for stream in streams]
        for thread in self.threads:
            thread.start()

    def listen(self, stream, is_answer):
        """Takes the lines of a stream. An answer, and a line of standard error that is an error, is what a line waits
        for. The stream's end is None."""
        for line in stream:
            self.hear(line, is_answer)
            if is_answer or line.startswith(b'error: '):
                self.said.put(line)
        self.said.put(None)

    def send(self, line):
        """Sends a line, to which nothing may be said."""
        self.count += 1
        try:
            self.process.stdin.write(line + b'\n')
            self.process.stdin.flush()
        except OSError:
            pass  # that the program is gone is seen by its streams

    def answer(self, line):
        """What is said to a line that isn't silent."""
        self.send(line)
        while self.open:
            said = self.said.get()
            if said is not None:
                return said
            self.open -= 1
        status = self.process.wait()
        if status == 2:
            raise Told(status)
        raise Fault('%s has ended, with status %d: there is no card' % (shown(PROGRAM), status))

    def close(self):
        """Ends the session; gives its exit status. All that it said is heard before: a thread that still reads when
        Python ends makes it abort."""
        try:
            self.process.stdin.close()
        except OSError:
            pass
        try:
            self.process.wait(SECONDS)
        except subprocess.TimeoutExpired:
            self.process.kill()
        for thread in self.threads:
            thread.join(SECONDS)
        return self.process.wait()
