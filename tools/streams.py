"""Standard input and output of tools that copy lines."""
from common import Fault

import os
import sys


def check_open():
    """Refuses closed streams."""
    if sys.stdin is None or sys.stdout is None:
        raise Fault('standard input or standard output is closed')


def read_line():
    try:
        return sys.stdin.buffer.readline()
    except OSError as error:
        raise Fault('standard input: %s' % error.strerror) from None


def write_line(line):
    """Writes a line at once."""
    try:
        sys.stdout.buffer.write(line)
        sys.stdout.buffer.flush()
    except BrokenPipeError:
        raise
    except OSError as error:
        os.dup2(os.open(os.devnull, os.O_WRONLY), sys.stdout.fileno())
        raise Fault('standard output: %s' % error.strerror) from None
