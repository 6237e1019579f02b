"""Decimals for the comparison at fewer digits: what document 02 keeps of numbers, pairs on purpose with its answers, and random
rows, each with one near it that agrees with it, or does not, once digits are dropped.
"""

import model
from image import number
from model import DECIMAL32, DECIMAL64, MOST_DIGITS, WIDTHS
from nodes import INT32, INT64, dictionary, image, lists, numbers, runs, structs
from texts import half

# two codes that are no root of these
DECIMAL128, DECIMAL256 = 17, 18

# the largest start, count and number of digits
LARGEST = 0xFFFFFFFF

# A number, how many digits are dropped, and what is kept.
KEPT = [
    # document 02's own
    *((25, 1, 3), (-25, 1, -3)),
    # beside a half
    *((24, 1, 2), (26, 1, 3), (-24, 1, -2), (-26, 1, -3), (149, 2, 1), (150, 2, 2), (151, 2, 2), (-149, 2, -1), (-150, 2, -2)),
    # halves between an odd number and an even one, and between an even one and an odd one
    *((15, 1, 2), (35, 1, 4), (45, 1, 5), (-15, 1, -2), (-35, 1, -4), (-45, 1, -5)),
    # what is kept as 0, and the halves beside it
    *((0, 1, 0), (4, 1, 0), (5, 1, 1), (-4, 1, 0), (-5, 1, -1), (49, 2, 0), (50, 2, 1), (-49, 2, 0), (-50, 2, -1)),
    *((499_999_999, 9, 0), (500_000_000, 9, 1), (-499_999_999, 9, 0), (-500_000_000, 9, -1), (1_500_000_000, 9, 2)),
    # the ends of four bytes
    *((2**31 - 1, 0, 2**31 - 1), (2**31 - 1, 1, 214_748_365), (2**31 - 1, 8, 21), (2**31 - 1, 9, 2)),
    *((-(2**31), 0, -(2**31)), (-(2**31), 1, -214_748_365), (-(2**31), 8, -21), (-(2**31), 9, -2)),
    # the ends of eight
    *((2**63 - 1, 0, 2**63 - 1), (2**63 - 1, 1, 922_337_203_685_477_581), (2**63 - 1, 9, 9_223_372_037)),
    *((-(2**63), 0, -(2**63)), (-(2**63), 1, -922_337_203_685_477_581), (-(2**63), 9, -9_223_372_037)),
    # a half, and what is beside it, of more places than a Float64 has
    *((9_007_199_254_740_995, 1, 900_719_925_474_100), (9_007_199_254_740_994, 1, 900_719_925_474_099)),
]

YES, NO = (0, 0, 0, 1), (0, 0, 0, 0)


def refused(fault, side=0):
    return (fault, side, 0, 0)


def fits(code, stored):
    most = 1 << 8 * WIDTHS[code] - 1
    return -most <= stored < most


def decimals(*values, code=DECIMAL32, p1=1, **field):
    return numbers(values, code, WIDTHS[code], p1=p1, **field)


# Words, the left image, the right one, the range with the digits, the answer.
PAIRS = []


def case(words, answer, left, right, i=0, j=0, n=1, digits=1):
    """Two columns; None is an image of no bytes."""
    lent = [b"" if column is None else image(column) for column in (left, right)]
    PAIRS.append((words, *lent, (i, j, n, digits), answer))


def kept_cases(code):
    """A number agrees with what is kept of it, with 0 for the digits that are dropped, and not with one less or one more."""
    for stored, digits, kept in KEPT:
        for other in (kept - 1, kept, kept + 1):
            pair = (stored, other * 10**digits)
            if all(fits(code, x) for x in pair):
                columns = [decimals(x, code=code) for x in pair]
                case(f"{pair} at {digits}", YES if other == kept else NO, *columns, digits=digits)


def row_cases(code):
    plus, minus = decimals(4, 3, 5, code=code), decimals(-4, -3, -5, code=code)
    zero, null, other_null = decimals(0, code=code), decimals(0, code=code, bits="0"), decimals(-99, code=code, bits="0")
    case("4 and -4 are both 0", YES, plus, minus)
    case("and so are 3 and -3", YES, plus, minus, n=2)
    case("5 and -5 are not", NO, plus, minus, n=3)
    case("3 and -3 with no digit dropped", NO, plus, minus, 1, 1, digits=0)
    case("no rows", YES, plus, minus, 3, 3, 0, digits=0)
    case("null and 0", NO, null, zero)
    case("0 and null", NO, zero, other_null)
    case("null and null, over other numbers", YES, null, other_null)
    case("behind an offset and a first bit", YES, decimals(80, 1, code=code, offset=1, bits="01", first_bit=1), zero)


def refused_cases(code):
    table, other = decimals(4, 3, 5, code=code), decimals(-4, -3, -5, code=code)
    case("10 digits", refused(22), table, table, digits=10)
    case("10 digits, no rows", refused(22), table, table, n=0, digits=10)
    case("10 digits, a range that is too long", refused(22), table, table, n=4, digits=10)
    case("the most digits and rows", refused(22), table, table, n=LARGEST, digits=LARGEST)
    case("too long on both sides", refused(21), table, other, 4, 4, 0)
    case("too long on the right", refused(21, 1), table, other, 0, 1, 3)
    case("a sum that wraps in four bytes", refused(21, 1), table, other, 0, LARGEST, 1)
    case("another precision, 10 digits", refused(20), table, decimals(4, code=code, p1=2), n=9, digits=10)
    case("another scale, no rows", refused(20), table, decimals(4, code=code, p2=-1), n=0)
    case("no images, 10 digits", refused(10), None, None, digits=10)
    case("no right image, 10 digits", refused(10, 1), table, None, n=9, digits=10)
    for above in (structs(1, table), lists([0, 1], table), dictionary([0], table), runs(1, [1, 2, 3], table)):
        case("decimals below another root", refused(22), above, above, n=2)


def other_cases(code):
    """Numbers that are no decimals of 4 or 8 bytes."""
    column = numbers([4], code, WIDTHS[code], p1=int(code in (DECIMAL128, DECIMAL256)))
    case("no digit dropped, no rows", refused(22), column, column, n=0, digits=0)
    case("a range that is too long", refused(22), column, column, n=2)
    case("beside decimals, 10 digits", refused(20), decimals(4), column, digits=10)


for each in (DECIMAL32, DECIMAL64):
    kept_cases(each)
    row_cases(each)
    refused_cases(each)
for each in (INT32, INT64, DECIMAL128, DECIMAL256):
    other_cases(each)
case("decimals of 4 bytes and of 8, 10 digits", refused(20), decimals(4), decimals(4, code=DECIMAL64), digits=10)
case("19 before 22", refused(19), half(), half(), digits=10)
case("19 on the right before 20", refused(19, 1), decimals(4), half(), digits=10)


# Random rows.


def any_digits(rng):
    """Mostly 0 to 9."""
    return rng.choice([*range(MOST_DIGITS + 1)] * 2 + [MOST_DIGITS + 1, MOST_DIGITS + 2, rng.randrange(LARGEST), LARGEST])


def some_number(rng, code, digits):
    """At a half or a whole number or beside one, at an end of the width, or any."""
    power, most = 10**digits, 1 << 8 * WIDTHS[code] - 1
    times = rng.choice([0, 1, 2, rng.randrange(10), rng.randrange(most // power + 1)])
    at = times * power + rng.choice([0, power // 2]) + rng.choice([-1, 0, 1])
    stored = rng.choice([at] * 4 + [most - rng.choice([0, 1, 2, power]), rng.randrange(most), rng.randrange(power)])
    return min(max(rng.choice([stored, -stored]), -most), most - 1)


def near(rng, code, stored, digits, agrees):
    """A number near that one, or its negative, which agrees with it or does not."""
    power = 10**digits
    while True:
        step = rng.choice([0, 1, power // 2, power // 2 + 1, power - 1, power, rng.randrange(power)])
        other = rng.choice([stored + step, stored - step, -stored])
        if fits(code, other) and (model.kept(other, digits) == model.kept(stored, digits)) == agrees:
            return other


def some_row(rng, code, digits, nulls=0.2):
    return None if rng.random() < nulls else number(WIDTHS[code], some_number(rng, code, digits))


def near_row(rng, code, row, digits, agrees):
    """A row that agrees with that one or does not, which may be in nullness alone."""
    if row is None:
        return None if agrees else some_row(rng, code, digits, 0.0)
    if not agrees and rng.random() < 0.2:
        return None
    return number(WIDTHS[code], near(rng, code, int.from_bytes(row, "little", signed=True), digits, agrees))
