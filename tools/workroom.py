"""A folder that a tool makes anew at each run, so that a run that was cut off is known by the next one.

While a run works, the file .at-work in the folder has its process, and is locked. What it makes lies in the folder
.step there. At the end that is noted as made (`Made` of common.py) and moved up; then .step and .at-work are removed.
So where .at-work is there and isn't locked, a run was cut off, and what lies in .step is its own, by the names that it
gives. All else in the folder has to be noted, or it stays, and is told.
"""
from common import FOLDER, WORDS, Fault, Made, Taken, checksum, shown

import contextlib
import fcntl
import os
import re
import stat

MARK, STEP = '.at-work', '.step'
AT_WORK = re.compile(r'process (\d+) works here\n')


class WorkRoom:
    """The folder of a tool. `makes` matches the names of files that a run makes."""

    def __init__(self, folder, tool, makes):
        self.folder, self.tool, self.makes = folder, tool, makes
        self.mark, self.step = os.path.join(folder, MARK), os.path.join(folder, STEP)
        self.lock, self.made = None, None

    def __enter__(self):
        """Removes what earlier runs left, and makes .step."""
        if os.path.islink(self.folder) or os.path.lexists(self.folder) and not os.path.isdir(self.folder):
            raise Taken(WORDS % shown(self.folder))
        os.makedirs(self.folder, exist_ok=True)
        was_cut_off = self.begin()
        try:
            self.made = Made(self.folder, self.tool)
            self.clear(was_cut_off)
            os.mkdir(self.step)
        except BaseException:
            with contextlib.suppress(OSError):
                os.rmdir(self.step)
            self.end(stays=was_cut_off)
            raise
        return self

    def __exit__(self, *_):
        """Moves up what was made, whatever comes."""
        self.take()
        self.end()

    # The mark

    def begin(self):
        """Makes and locks the mark. Whether one was there, as a run leaves it that was cut off."""
        is_there = os.path.lexists(self.mark)
        if is_there and not stat.S_ISREG(os.lstat(self.mark).st_mode):
            raise Taken(WORDS % shown(self.mark))
        how = os.O_RDWR | os.O_NOFOLLOW | (0 if is_there else os.O_CREAT | os.O_EXCL)
        self.lock = os.fdopen(os.open(self.mark, how, 0o666), 'r+')
        try:
            fcntl.flock(self.lock, fcntl.LOCK_EX | fcntl.LOCK_NB)
        except BlockingIOError:
            self.go_on()
        if not os.path.lexists(self.mark) or not os.path.samestat(os.lstat(self.mark), os.fstat(self.lock.fileno())):
            self.go_on()
        if is_there and not AT_WORK.fullmatch(self.lock.read(100)):
            self.lock.close()
            raise Taken(WORDS % shown(self.mark))
        self.lock.seek(0)
        self.lock.truncate()
        self.lock.write('process %d works here\n' % os.getpid())
        self.lock.flush()
        return is_there

    def go_on(self):
        """Tells of the run that holds the lock."""
        found = AT_WORK.fullmatch(self.lock.read(100))
        self.lock.close()
        raise Fault('%s: another run works there now%s' % (shown(self.folder),
                                                           ', process ' + found[1] if found else ''))

    def end(self, stays=False):
        """Removes the mark, and gives it free."""
        if not stays:
            os.remove(self.mark)
        self.lock.close()

    def locks(self):
        """What programs that are started inherit: so the lock stays until they have ended too."""
        return [self.lock.fileno()]

    # What is in the folder

    def left(self):
        """What a run that was cut off left in .step, each folder behind what is in it."""
        within = Made(self.step, self.tool)
        for name in within.inside():
            if within.kind(name) == 'other' or within.kind(name) == 'file' and not self.makes(os.path.basename(name)):
                raise Taken(WORDS % shown(within.path(name)))
            yield os.path.join(STEP, name)
        yield STEP

    def clear(self, was_cut_off):
        """Removes what is own, if nothing else is there."""
        is_left = was_cut_off and self.made.kind(STEP) == 'folder'
        names = list(self.left()) if is_left else []
        for name in self.made.inside():
            if name != MARK and name not in names:
                if not self.made.is_own(name):
                    raise Taken(WORDS % shown(self.made.path(name)))
                names.append(name)
        for name in names:
            (os.rmdir if self.made.kind(name) == 'folder' else os.remove)(self.made.path(name))
        self.made.known = set()
        self.made.save()

    def take(self):
        """Notes what is in .step, and moves it up."""
        within = Made(self.step, self.tool)
        names = within.inside()
        self.made.known = {(FOLDER if within.kind(name) == 'folder' else checksum(within.path(name)), name)
                           for name in names if within.kind(name) != 'other'}
        self.made.save()
        for name in sorted(os.listdir(self.step)):
            if self.made.kind(name):
                raise Taken(WORDS % shown(self.made.path(name)))
            os.rename(os.path.join(self.step, name), self.made.path(name))
        os.rmdir(self.step)
