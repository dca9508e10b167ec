"""The instructions of the card, as the table of docs/profile/instructions.md has them: the one place beside the crates
where their opcodes are written. Assembler, converter, benches and the second card of the tests read them here.

A row of the page has opcodes, as many names, operands and what they mean. What stands between semicolons is a part of
the row, and has operands of its own where as many are said.
"""
import os
import re
import sys

PAGE = os.path.join(os.path.dirname(os.path.dirname(os.path.realpath(__file__))), 'docs', 'profile', 'instructions.md')
ROW = re.compile(r'^\| (\d[\d,; to]*) \| ([a-z][^|]*) \| ?([^|]*?) ?\| ?([^|]*?) ?\|', re.MULTILINE)
ENDING = 'nothing falls through'  # in what a row means


def listed(text):
    """What a list has, with commas, semicolons or `and`: `2 to 4` is 2, 3, 4, and `sload_0 to sload_3` four names."""
    for part in re.split(r', |; | and ', text.strip()):
        first, _, last = part.partition(' to ')
        found = re.fullmatch(r'(.*?)(\d+)', first) if last else None
        if found and last.startswith(found[1]):
            yield from (found[1] + str(n) for n in range(int(found[2]), int(last[len(found[1]):]) + 1))
        else:
            yield part


def kinds_of(operands):
    """What stands behind an opcode: numbers u1, u2, s1, s2; the index of an entry of the constant pool p1, p2; the
    offset of a branch b1, b2; or the tables of the two switches."""
    if operands in ('', 'none'):
        return []
    if operands.endswith(' for each'):
        return ['pairs' if ' match ' in operands else 'table']
    kinds = []
    for operand in operands.split(', '):
        kind, _, name = operand.partition(' ')
        kinds.append({'index': 'p', 'offset': 'b'}.get(name, kind[0]) + kind[1])
    return kinds


def rows(text):
    """For each row of a page: its opcodes, its names, the operands of each, and what it means."""
    for opcodes, names, operands, meaning in ROW.findall(text):
        names_of, kinds = names.split('; '), [kinds_of(part) for part in operands.split('; ')]
        kinds = kinds if len(kinds) > 1 else kinds * len(names_of)
        each = [of for part, of in zip(names_of, kinds) for _ in listed(part)]
        yield [int(number) for number in listed(opcodes)], list(listed(names)), each, meaning


try:
    with open(PAGE, encoding='utf-8') as file:
        ROWS = list(rows(file.read()))
except OSError as error:
    sys.exit('the table of instructions is missing: %s' % error)

# The opcode of each name and what stands behind it, by opcodes; the opcodes, and the names of opcodes; the names of
# those behind which code goes on nowhere but where they lead to.
FORMS = {name: (opcode, kinds) for opcode, name, kinds in sorted(each for row in ROWS for each in zip(*row[:3]))}
OPCODES = {name: opcode for name, (opcode, _) in FORMS.items()}
NAMES = {opcode: name for name, opcode in OPCODES.items()}
ENDS = [name for _, names, _, meaning in ROWS for name in names if ENDING in meaning]
