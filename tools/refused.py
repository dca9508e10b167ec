"""What refusals of packages name, in the lines of `jcard verify` (docs/profile/refusals.md)."""
import os
import re

NAMED = re.compile(rb'\b(Unresolved|TypeMismatch|MissingImport) (\d{1,9})\b')
FOLDER = re.compile(rb'(.*): package ((?:[0-9A-F]{2})+) is refused\s*')


def explained(line, entries):
    """A line, and behind it what the entry or the import that it names is. Other lines stay as they are."""
    found = NAMED.search(line)
    if not found:
        return line
    is_import, number = found[1] == b'MissingImport', int(found[2])
    if number >= len(entries.imports if is_import else entries.entries):
        return line
    parts = entries.imported(number) if is_import else entries.named(number)
    words = ', '.join(part for part in parts if part)
    text = line.rstrip(b'\r\n')
    return b'%s (%s)%s' % (text, words.encode(errors='backslashreplace'), line[len(text):])


def is_of_another(line, package):
    """Whether a line says that another package than this one is refused."""
    found = FOLDER.fullmatch(line)
    if not found:
        return False
    path = os.fsdecode(found[1])
    if os.path.exists(path):
        return not os.path.samefile(path, package.folder)
    return bytes.fromhex(found[2].decode()) != package.header()[1].aid
