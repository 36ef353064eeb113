"""Quotients: dividend, divisor, and the quotient truncated toward zero."""
from words import divide, let, multiply, negate, ok, run, subtract, add, use

ROWS = [
    # the signs of both sides, with and without a rest
    (7, 2, 3), (-7, 2, -3), (7, -2, -3), (-7, -2, 3), (6, 2, 3), (-6, 2, -3), (6, -2, -3), (-6, -2, 3),
    (10, 3, 3), (-10, 3, -3), (10, -3, -3), (-10, -3, 3), (8, 7, 1), (-8, 7, -1), (8, -7, -1), (-8, -7, 1),
    # a quotient between -1 and 1 is 0
    (1, 2, 0), (-1, 2, 0), (1, -2, 0), (-1, -2, 0), (99, 100, 0), (-99, 100, 0), (7, 8, 0), (-7, -8, 0),
    # by 1 and by -1
    (5, 1, 5), (5, -1, -5), (-5, 1, -5), (-5, -1, 5), (1, 1, 1), (1, -1, -1),
    # what another rounding would have otherwise: half up, half to even, down, up
    (15, 10, 1), (25, 10, 2), (-15, 10, -1), (-25, 10, -2), (5, 3, 1), (-5, 3, -1), (199, 100, 1), (-199, 100, -1), (101, 100, 1), (-101, 100, -1),
    # numbers at the ends of JSON's
    (9223372036854775807, 2, 4611686018427387903), (-9223372036854775808, 2, -4611686018427387904),
    (-9223372036854775808, -1, 9223372036854775808), (18446744073709551615, 2, 9223372036854775807),
    (18446744073709551615, 18446744073709551614, 1), (1, 18446744073709551615, 0), (-9223372036854775808, 9223372036854775807, -1),
    (9223372036854775807, -9223372036854775808, 0), (18446744073709551615, -9223372036854775808, -1),
    (18446744073709551615, 10, 1844674407370955161), (18446744073709551615, 3, 6148914691236517205),
    (-9223372036854775808, 3, -3074457345618258602), (1000000000000000000, 1000000000, 1000000000),
]
OF_ZERO = [(0, 5, 0), (0, -5, 0), (0, 1, 0), (0, 18446744073709551615, 0)]
BY_ZERO = [5, -5, 0, 1, -1, 18446744073709551615, -9223372036854775808, 7]

CASES = [run("division", f"{a} by {b}", "quotient", let("x", divide(a, b)), ok(bound=[("x", q)])) for a, b, q in ROWS + OF_ZERO]
CASES += [run("division", f"{a} by 0", "quotient by 0", let("x", divide(a, 0)), ok(bound=[("x", 0)])) for a in BY_ZERO]

# values in which a quotient stands, and what they come to
VALUES = [
    ("a divisor that comes to 0", "quotient by 0", divide(5, subtract(1, 1)), 0),
    ("a divisor that is a quotient of 0", "quotient by 0", divide(1, divide(1, 2)), 0),
    ("a quotient by 0 in a sum", "quotient by 0", add(divide(5, 0), 3), 3),
    ("a quotient by a quotient by 0", "quotient by 0", divide(9, divide(9, 0)), 0),
    ("a quotient by a name that is absent", "quotient by 0", divide(9, use("none")), 0),
    ("the rest of 7 by 2", "signs of a quotient", subtract(7, multiply(divide(7, 2), 2)), 1),
    ("the rest of -7 by 2", "signs of a quotient", subtract(-7, multiply(divide(-7, 2), 2)), -1),
    ("the rest of 7 by -2", "signs of a quotient", subtract(7, multiply(divide(7, -2), -2)), 1),
    ("the rest of -7 by -2", "signs of a quotient", subtract(-7, multiply(divide(-7, -2), -2)), -1),
    ("the other sign of a dividend", "signs of a quotient", divide(negate(7), 2), -3),
    ("the other sign of a divisor", "signs of a quotient", divide(7, negate(2)), -3),
    ("the other sign of both", "signs of a quotient", divide(negate(7), negate(2)), 3),
    ("the other sign of a quotient", "signs of a quotient", negate(divide(7, 2)), -3),
    ("the other sign of a quotient below 0", "signs of a quotient", negate(divide(-7, 2)), 3),
    ("the other sign of a dividend below 0", "signs of a quotient", divide(negate(-7), 2), 3),
    ("a quotient of 0 has no sign", "signs of a quotient", add(divide(-1, 2), 0), 0),
    ("a product before its quotient", "quotient", divide(multiply(7, 3), 2), 10),
    ("a quotient before its product", "quotient", multiply(divide(7, 2), 3), 9),
    ("a quotient of a quotient from the left", "quotient", divide(divide(100, 7), 2), 7),
    ("a quotient by a quotient", "quotient", divide(100, divide(7, 2)), 33),
    ("three percent of 50", "quotient", divide(multiply(50, 3), 100), 1),
    ("three percent of -50", "quotient", divide(multiply(-50, 3), 100), -1),
    ("a third and two thirds lose one", "quotient", add(divide(10, 3), divide(20, 3)), 9),
]
CASES += [run("division", name, rule, let("x", value), ok(bound=[("x", number)])) for name, rule, value, number in VALUES]
