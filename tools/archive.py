"""CAP files: archives of the kind of a JAR, with the components of one package in its folder `javacard`."""
from common import COMPONENTS, Fault, shown

import lzma
import os
import stat
import struct
import zipfile
import zlib

MOST = 65538  # bytes of a component: a tag, a size, and as many as that says
MANIFEST = 'META-INF/MANIFEST.MF'
CREATED = b'Created-By: Yuzkamor'  # in the manifest of each CAP file that tools/cap makes
MOST_OF_MANIFEST = 65536
# What reading an archive ends in that is none. Names in it are an error of the kind ValueError where they aren't UTF-8.
BROKEN = (zipfile.BadZipFile, zlib.error, ValueError, lzma.LZMAError, struct.error, EOFError, NotImplementedError,
          RuntimeError, LookupError, OverflowError, MemoryError)


def components_in(archive):
    """The entries of the components of an archive's one package, by their names."""
    packages = {}
    for entry in archive.infolist():
        folder, _, name = entry.filename.rpartition('/')
        if name not in COMPONENTS or folder.split('/')[-1] != 'javacard':
            continue
        if name in packages.setdefault(folder, {}):
            raise Fault('%s stands in it twice' % shown(entry.filename))
        packages[folder][name] = entry
    if not packages:
        raise Fault('there is no component in it')
    if len(packages) > 1:
        raise Fault('it has several packages: ' + ', '.join(map(shown, sorted(packages))))
    return packages.popitem()[1]


def bytes_of(archive, entry):
    with archive.open(entry) as file:
        contents = file.read(MOST + 1)
    if len(contents) > MOST:
        raise Fault('%s has more than %d bytes' % (shown(entry.filename), MOST))
    return contents


def words_of(error):
    """What is wrong with an archive, in one line."""
    if isinstance(error, UnicodeDecodeError):
        return 'a name in it isn\'t UTF-8'
    return 'it is no archive that can be read: %s' % (shown(str(error)) or 'it ends early')


def read(path):
    """The bytes of the components of a CAP file, by their names."""
    mode = os.stat(path).st_mode
    if not stat.S_ISREG(mode) and not stat.S_ISDIR(mode):
        raise Fault('it is no regular file')
    try:
        with zipfile.ZipFile(path) as archive:
            return {name: bytes_of(archive, entry) for name, entry in components_in(archive).items()}
    except BROKEN as error:
        raise Fault(words_of(error)) from None
    except OSError as error:
        if error.filename is not None:
            raise
        raise Fault(words_of(error.strerror or error)) from None


def is_made(path):
    """Whether a file is a CAP file that tools/cap made."""
    try:
        if not stat.S_ISREG(os.lstat(path).st_mode):
            return False
        with zipfile.ZipFile(path) as archive, archive.open(MANIFEST) as file:
            return CREATED in file.read(MOST_OF_MANIFEST).splitlines()
    except (*BROKEN, OSError):
        return False
