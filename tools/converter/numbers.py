"""Ranges of numbers: what the operators of a class file's code, and its conditions, make of them. A range is a pair of
the least and the greatest number. Code computes with 32 bits.
"""
BYTE, SHORT, INT = (-128, 127), (-1 << 15, (1 << 15) - 1), (-1 << 31, (1 << 31) - 1)
LOWS, HIGHS = [0, -1, -128, SHORT[0], INT[0]], [1, 127, 255, SHORT[1] - 1, SHORT[1], 0xFFFF, INT[1]]


def lies_in(one, other):
    return other[0] <= one[0] and one[1] <= other[1]


def whole(*numbers):
    """The range of numbers, or all ints where one of them is none."""
    found = min(numbers), max(numbers)
    return found if lies_in(found, INT) else INT


def of_bits(*ranges):
    """The numbers of as many bits as those of the ranges have, with a sign where one has one."""
    bits = max(max(low ^ -1 if low < 0 else low, high ^ -1 if high < 0 else high).bit_length() for low, high in ranges)
    return (0 if all(low >= 0 for low, _ in ranges) else -1 << bits), (1 << bits) - 1


def quotient(one, other):
    if other[0] >= 0:
        least = max(other[0], 1)
        return -(max(-one[0], 0) // least), max(one[1], 0) // least
    most = max(abs(one[0]), abs(one[1])) // max(-other[1], 1)
    return whole(-most, most)


def remainder(one, other):
    most = max(abs(other[0]), abs(other[1]), 1) - 1
    return -min(most, max(-one[0], 0)), min(most, max(one[1], 0))


def conjunction(one, other):
    highs = [high for low, high in (one, other) if low >= 0]
    return (0, min(highs)) if highs else of_bits(one, other)


def shifted_left(one, other):
    if not lies_in(other, (0, 31)):
        return INT
    return whole(*[n << by for n in one for by in other])


def shifted_right(one, other):
    if not lies_in(other, (0, 31)):
        return min(one[0], 0), max(one[1], 0)
    found = [n >> by for n in one for by in other]
    return min(found), max(found)


def shifted_without_sign(one, other):
    if one[0] >= 0:
        return shifted_right(one, other)
    return (0, 0xFFFFFFFF >> other[0]) if lies_in(other, (1, 31)) else INT


OPERATORS = {
    'add': lambda a, b: whole(a[0] + b[0], a[1] + b[1]), 'sub': lambda a, b: whole(a[0] - b[1], a[1] - b[0]),
    'mul': lambda a, b: whole(*[m * n for m in a for n in b]), 'neg': lambda a: whole(-a[1], -a[0]), 'div': quotient,
    'rem': remainder, 'and': conjunction, 'or': of_bits, 'xor': of_bits, 'shl': shifted_left, 'shr': shifted_right,
    'ushr': shifted_without_sign,
}


def joined(one, other):
    if isinstance(one, tuple) and isinstance(other, tuple):
        return min(one[0], other[0]), max(one[1], other[1])
    return one if one == other else None


def widened(before, now):
    """A range that has grown, each end that has up to the next of few, so that growing ends."""
    low = now[0] if now[0] >= before[0] else next(limit for limit in LOWS if limit <= now[0])
    return low, now[1] if now[1] <= before[1] else next(limit for limit in HIGHS if limit >= now[1])


def common(one, other):
    """What lies in both ranges, or None where nothing does."""
    low, high = max(one[0], other[0]), min(one[1], other[1])
    return (low, high) if low <= high else None


def without(one, other):
    """A range without the number that another one is."""
    if other[0] != other[1]:
        return one
    return one[0] + (one[0] == other[0]), one[1] - (one[1] == other[1])


def at_most(one, other, less=0):
    """What is left of two numbers of which the first is at most the second, or less by as much."""
    return (one[0], min(one[1], other[1] - less)), (max(other[0], one[0] + less), other[1])


# What conditions leave of the two numbers that they compare. The one behind each two is its contrary.
CONDITIONS = [
    lambda one, other: (common(one, other) or (1, 0),) * 2,
    lambda one, other: (without(one, other), without(other, one)),
    lambda one, other: at_most(one, other, 1), lambda one, other: at_most(other, one)[::-1],
    lambda one, other: at_most(other, one, 1)[::-1], at_most,
]


def left_of(condition, one, other):
    """What a condition leaves of two ranges, or None where it never holds."""
    found = CONDITIONS[condition](one, other)
    return found if all(low <= high for low, high in found) else None
