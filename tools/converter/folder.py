"""Writes the files of a package into a folder, and touches nothing else there (docs/profile/convert.md).

The file RECORD says what was written, by SHA-256, as `sha256sum -c` reads it. A file by one of the converter's names is
replaced or removed only where it is still what the record says; else the folder is left as it is. While files are put
in place the record has both what was there and what comes, so a run that is cut off then leaves nothing that the next
one doesn't know.
"""
import hashlib
import os
import tempfile

from common import Fault, shown

from converter.classfile import Refusal
from converter.components import FILES
from converter.world import EXPORTS

LINES, RECORD = 'lines.txt', 'written.sha256'
NAMES = [*(name + '.cap' for name in FILES.values()), EXPORTS, LINES]
HEAD = '# What tools/convert has written here.'


def rows_of(files):
    """The rows of a record."""
    return ['%s  %s' % (hashlib.sha256(content).hexdigest(), name) for name, content in sorted(files.items())]


def record(rows):
    """The text of a record."""
    return ('\n'.join([HEAD, *rows]) + '\n').encode()


def content_of(path):
    """The bytes of a file, or None where it isn't a plain one: behind a link stands a file of another place."""
    if os.path.islink(path) or not os.path.isfile(path):
        return None
    with open(path, 'rb') as file:
        return file.read()


def is_made(name, content, said):
    """Whether a file's content is what a record says, or a record's as the converter writes it."""
    lines = said.decode('ascii', 'replace').split('\n')
    if name == RECORD:
        rows = [line.split('  ') for line in lines[1:-1]]
        return lines[0] == HEAD and all(len(row) == 2 and row[1] in NAMES for row in rows)
    return '%s  %s' % (hashlib.sha256(content).hexdigest(), name) in lines[1:]


def made_before(folder):
    """The converter's files that stand in a folder, with their contents. One that the converter hasn't made, or that
    was changed, is refused."""
    found = [name for name in [*NAMES, RECORD] if os.path.lexists(os.path.join(folder, name))]
    contents = {name: content_of(os.path.join(folder, name)) for name in found}
    said = contents.get(RECORD) or b''
    others = [name for name, content in contents.items() if content is None or not is_made(name, content, said)]
    if others:
        raise Refusal('%s has files that aren\'t as tools/convert wrote them (%s): take another folder, or remove them'
                      % (folder, ', '.join(others)))
    return contents


def put_aside(folder, files, aside):
    """Writes files under other names, and notes these in `aside` by the names that they will have."""
    for name, content in files.items():
        number, aside[name] = tempfile.mkstemp(dir=folder, prefix='.' + name)
        with os.fdopen(number, 'wb') as file:
            file.write(content)
        os.chmod(aside[name], 0o666 & ~mask())


def mask():
    """The bits that new files don't get."""
    found = os.umask(0)
    os.umask(found)
    return found


def remove(paths):
    for path in paths:
        os.remove(path)


def make_folder(folder):
    """Makes the folder where there is none. A link to one is one."""
    if os.path.islink(folder) and not os.path.exists(folder):
        raise Refusal('%s: it is a link to %s, which isn\'t there' % (folder, os.readlink(folder)))
    if os.path.exists(folder) and not os.path.isdir(folder):
        what = 'a link to something else' if os.path.islink(folder) else 'something else'
        raise Refusal('%s: it is to be a folder, and it is %s' % (folder, what))
    os.makedirs(folder, exist_ok=True)


def write(folder, files):
    """Writes the files and their record, and removes those of a package that was there before. All are written in full
    before one of them is put in place."""
    make_folder(folder)
    before = made_before(folder)
    others = {name: content for name, content in before.items() if name != RECORD}
    first, aside = {}, {}
    try:
        put_aside(folder, {RECORD: record([*rows_of(others), *rows_of(files)])}, first)
        put_aside(folder, {**files, RECORD: record(rows_of(files))}, aside)
        put_in_place(folder, first)
        remove(os.path.join(folder, name) for name in others if name not in files)
        put_in_place(folder, aside)
    except OSError as error:
        raise Fault('%s: %s' % (shown(folder), error.strerror)) from None
    finally:
        remove([*first.values(), *aside.values()])


def put_in_place(folder, aside):
    """Gives files their names, that of the record last."""
    for name in list(aside):
        os.replace(aside[name], os.path.join(folder, name))
        del aside[name]
