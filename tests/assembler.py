"""Writes code from instructions by their names (docs/profile/instructions.md, whose table tools/instructions.py reads),
with labels for places:

    here: sload_0; ifeq done; getfield_a A.next; goto here; done: return

A branch names a label, or says an offset with its sign. An entry of the pool is named, or an index stands in its place.
`stableswitch done 1 2 here done` has its default first, low, high and the targets; `slookupswitch done 5:here 7:done`
its default and pairs. `raw 7A94` is bytes as they stand.
"""
import os
import re
import sys

sys.path.append(os.path.join(os.path.dirname(os.path.dirname(os.path.abspath(__file__))), 'tools'))
from instructions import ENDS, FORMS  # noqa: E402, F401


def number_of_bytes(name, operands):
    if name == 'raw':
        return len(operands[0]) // 2
    kinds = FORMS[name][1]
    if kinds == ['table']:
        return 1 + 2 * len(operands)
    if kinds == ['pairs']:
        return 5 + 4 * (len(operands) - 1)
    return 1 + sum(int(kind[1]) for kind in kinds)


def targets(name, operands):
    """The operands that say where a branch or a switch goes."""
    kinds = FORMS[name][1]
    if kinds == ['table']:
        return operands[:1] + operands[3:]
    if kinds == ['pairs']:
        return operands[:1] + [pair.split(':')[1] for pair in operands[1:]]
    return operands if kinds in (['b1'], ['b2']) else []


def spelled(number, size):
    return (number % 256 ** size).to_bytes(size, 'big')


def encoded(name, operands, offset, pool):
    if name == 'raw':
        return bytes.fromhex(operands[0])
    opcode, kinds = FORMS[name]
    if kinds == ['table']:
        default, low, high, *rest = operands
        values = [offset(default), int(low), int(high), *map(offset, rest)]
        return bytes([opcode]) + b''.join(spelled(v, 2) for v in values)
    if kinds == ['pairs']:
        default, *pairs = operands
        values = [offset(default), len(pairs)]
        for pair in pairs:
            match, target = pair.split(':')
            values += [int(match), offset(target)]
        return bytes([opcode]) + b''.join(spelled(v, 2) for v in values)
    assert len(kinds) == len(operands), (name, operands)
    out = bytes([opcode])
    for kind, operand in zip(kinds, operands):
        if kind[0] == 'b':
            value = offset(operand)
            assert -(1 << 8 * int(kind[1]) - 1) <= value < 1 << 8 * int(kind[1]) - 1, (name, operand)
        else:
            value = pool.index(operand) if operand in pool and kind[0] == 'p' else int(operand, 0)
        out += spelled(value, int(kind[1]))
    return out


def assemble(text, pool=()):
    """The bytes, and the labels with the pcs at which they stand."""
    at, labels, parts = 0, {}, []
    for statement in filter(None, map(str.strip, re.split('[;\n]', text))):
        while found := re.match(r'(\w+):(\s+|$)', statement):
            labels[found[1]] = at
            statement = statement[found.end():]
        if statement:
            name, *operands = statement.split()
            parts.append((at, name, operands))
            at += number_of_bytes(name, operands)
    code = b''
    for pc, name, operands in parts:
        offset = lambda to, pc=pc: int(to) if to[0] in '+-' else labels[to] - pc
        code += encoded(name, operands, offset, list(pool))
    assert len(code) == at
    return code, labels
