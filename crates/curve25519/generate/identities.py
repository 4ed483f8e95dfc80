"""The identities of the group law and of the ladder, each with its certificate.

An identity says that from some congruences modulo p another one follows. Its certificate is a cofactor for each premise: the
goal's left side plus the sum of the cofactors times the premises' left sides is, as a polynomial, the same with the right sides.
"""

from polynomials import CONSTANTS, divided, expression_of, lifted, listed, named, variables

WIDTH = 150

d, minus_d, minus_one, base_x, base_y = map(named, CONSTANTS)
A24 = 121665


def square(e):
    return e * e


def minus(a, b):
    return a + minus_one * b


def lines(indent, text):
    """The text broken at blanks, where it is wider than WIDTH."""
    done, line = [], " " * indent
    for word in text.split(" "):
        if line.strip() and len(line) + 1 + len(word) > WIDTH:
            done.append(line)
            line = " " * indent
        line += word if not line.strip() else " " + word
    return "\n".join(done + [line]) + "\n"


def lemma(comment, name, names, premises, goal, cofactors):
    """The text of a lemma. A premise is (name, (left, right)), the goal (left, right)."""
    rest = goal[0].polynomial() - goal[1].polynomial()
    for (_, (left, right)), cofactor in zip(premises, cofactors, strict=True):
        rest = rest + cofactor.polynomial() * (left.polynomial() - right.polynomial())
    assert not rest.terms, name
    used = set()
    for e in [e for _, sides in premises for e in sides] + list(goal) + cofactors:
        used |= e.constants()
    order = names.split()
    text = f"-- {comment}\npub {name} : ({names} : ℕ)\n"
    for left, right in [sides for _, sides in premises] + [goal]:
        text += lines(4, f"→ Congruent prime ({left.number()}) ({right.number()})")
    text += "unfolding " + " ".join(["prime"] + sorted(used)) + "\n"
    text += " ".join([name] + order + [premise for premise, _ in premises]) + " =\n"
    text += lines(4, f"follows prime (nth ({listed(order)}))")
    for e in goal:
        text += lines(4, e.reflected(order))
    values = [
        f"premise {cofactor.reflected(order)} {left.reflected(order)} {right.reflected(order)}"
        for (_, (left, right)), cofactor in zip(premises, cofactors, strict=True)
    ]
    text += lines(4, f"({listed(values)})")
    holds = "tt"
    for premise, _ in reversed(premises):
        holds = f"({premise}, {holds})"
    return text + f"    refl {holds}\n"


def negated(polynomial):
    return expression_of(-polynomial)


# Points, their sums, and the curve.
x1, y1, x2, y2 = variables("x1 y1 x2 y2")
x, y, z, e = variables("x y z e")
s, t, u, v, w = variables("s t u v w")
dp, dm, ep, em = variables("dp dm ep em")
n1, n2, m1, m2 = variables("n1 n2 m1 m2")


def all_four(x1, y1, x2, y2):
    return x1 * x2 * (y1 * y2)


def x_denominator(x1, y1, x2, y2):
    return 1 + d * all_four(x1, y1, x2, y2)


def y_denominator(x1, y1, x2, y2):
    return 1 + minus_d * all_four(x1, y1, x2, y2)


def x_numerator(x1, y1, x2, y2):
    return x1 * y2 + y1 * x2


def y_numerator(x1, y1, x2, y2):
    return minus(y1 * y2, x1 * x2)


def on_curve(x, y):
    return (x * x + y * y, 1 + d * (x * x * (y * y)))


def difference_of(sides):
    return sides[0].polynomial() - sides[1].polynomial()


def squares(x, y):
    """The rule that takes x^2 y^2 out, where x and y are a point's."""
    names = (x.parts[0], y.parts[0])
    return (((names[0], 2), (names[1], 2)), difference_of(on_curve(x, y)))


def by_division(comment, name, names, premises, goal, rules, more=()):
    """A lemma whose first cofactors come from a division by the premises."""
    cofactors, _ = divided(difference_of(goal), rules)
    return lemma(comment, name, names, premises, goal, [negated(c) for c in cofactors] + list(more))


P, Q, B = (x1, y1), (x2, y2), (base_x, base_y)
ON_P, ON_Q = ("on1", on_curve(*P)), ("on2", on_curve(*Q))


def addition():
    """The identities of the group law."""
    four = "x1 y1 x2 y2"
    both, rules = [ON_P, ON_Q], [squares(*P), squares(*Q)]
    DP, DM = x_denominator(*P, *Q), y_denominator(*P, *Q)
    N1, N2 = x_numerator(*P, *Q), y_numerator(*P, *Q)
    EP, EM = x_denominator(*Q, *B), y_denominator(*Q, *B)
    M1, M2 = x_numerator(*Q, *B), y_numerator(*Q, *B)
    product = base_x * base_y
    yield by_division(
        "(P + Q) + B and P + (Q + B) have the same x, multiplied out",
        "associative_x", four, both,
        (
            (N1 * DM * base_y + N2 * DP * base_x) * (EP * EM + d * (x1 * y1 * (M1 * M2))),
            (x1 * (M2 * EP) + y1 * (M1 * EM)) * (DP * DM + d * (product * (N1 * N2))),
        ),
        rules,
    )
    yield by_division(
        "(P + Q) + B and P + (Q + B) have the same y, multiplied out",
        "associative_y", four, both,
        (
            minus(N2 * DP * base_y, N1 * DM * base_x) * (EP * EM + minus_d * (x1 * y1 * (M1 * M2))),
            minus(y1 * (M2 * EP), x1 * (M1 * EM)) * (DP * DM + minus_d * (product * (N1 * N2))),
        ),
        rules,
    )
    yield by_division(
        "Q + B is on the curve, multiplied out",
        "closure", "x2 y2", [ON_Q],
        (M1 * M1 * (EM * EM) + M2 * M2 * (EP * EP), EP * EP * (EM * EM) + d * (M1 * M1 * (M2 * M2))),
        [squares(*Q)],
    )
    yield by_division(
        "(P + Q) - Q has the y of P, multiplied out",
        "subtraction", four, both,
        (y1 * (DP * DM + d * (x2 * y2 * (N1 * N2))), y2 * (N2 * DP) + x2 * (N1 * DM)),
        rules,
    )
    for letter in "xy":
        is_y = letter == "y"
        sign = minus_d if is_y else d
        with_base = y_numerator(s, t, *B) if is_y else x_numerator(s, t, *B)
        denominator = (y_denominator if is_y else x_denominator)(s, t, *B)
        c1, c2 = (minus_one * base_x, base_y) if is_y else (base_y, base_x)
        numerator = minus(n2 * dp * base_y, n1 * dm * base_x) if is_y else n1 * dm * base_y + n2 * dp * base_x
        sums = [("hs", (s * dp, n1)), ("ht", (t * dm, n2))]
        yield lemma(
            f"the {letter} of S + B, where S = (n1 / dp, n2 / dm), without fractions",
            f"third_{letter}", "s t w dp dm n1 n2", sums + [("hw", (w * denominator, with_base))],
            (w * (dp * dm + sign * (product * (n1 * n2))), numerator),
            [minus(w * sign * product * t * dm, c1 * dm), minus(w * sign * product * n1, c2 * dp), minus_one * (dp * dm)],
        )
        yield lemma(
            f"the denominator of the {letter} of S + B, without fractions",
            f"third_{letter}_denominator", "s t dp dm n1 n2", sums,
            (dp * dm + sign * (product * (n1 * n2)), dp * dm * denominator),
            [sign * product * t * dm, sign * product * n1],
        )
        u_numerator = minus(y1 * v, x1 * u) if is_y else x1 * v + y1 * u
        plain = minus(y1 * (m2 * ep), x1 * (m1 * em)) if is_y else x1 * (m2 * ep) + y1 * (m1 * em)
        e2, e1 = (y1, minus_one * x1) if is_y else (x1, y1)
        parts = [("hu", (u * ep, m1)), ("hv", (v * em, m2))]
        yield lemma(
            f"the numerator of the {letter} of P + U, where U = (m1 / ep, m2 / em), without fractions",
            f"second_{letter}", "x1 y1 u v ep em m1 m2", parts,
            (u_numerator * (ep * em), plain),
            [minus_one * (e1 * em), minus_one * (e2 * ep)],
        )
        yield lemma(
            f"the denominator of the {letter} of P + U, without fractions",
            f"second_{letter}_denominator", "x1 y1 u v ep em m1 m2", parts,
            ((1 + sign * all_four(x1, y1, u, v)) * (ep * em), ep * em + sign * (x1 * y1 * (m1 * m2))),
            [minus_one * (sign * x1 * y1 * v * em), minus_one * (sign * x1 * y1 * m1)],
        )
    a, r, j, f, g, h = variables("a r j f g h")
    yield lemma(
        "w a = r, where w j = f, r e = h, a e = g and f g = h j, times e j",
        "join_associative", "w a r e j f g h",
        [("hw", (w * j, f)), ("hr", (r * e, h)), ("ha", (a * e, g)), ("hi", (f * g, h * j))],
        (w * a * (e * j), r * (e * j)),
        [minus_one * (a * e), j, minus_one * f, minus_one],
    )
    by_x, by_y = u * ep, v * em
    yield lemma(
        "(u, v) = (m1 / ep, m2 / em) is on the curve, times the denominators",
        "join_closure", "u v ep em m1 m2",
        [
            ("hu", (by_x, m1)), ("hv", (by_y, m2)),
            ("hi", (m1 * m1 * (em * em) + m2 * m2 * (ep * ep), ep * ep * (em * em) + d * (m1 * m1 * (m2 * m2)))),
        ],
        ((u * u + v * v) * (ep * ep * (em * em)), (1 + d * (u * u * (v * v))) * (ep * ep * (em * em))),
        [
            minus_one * (by_x + m1) * (em * em + minus_d * (by_y * by_y)),
            minus_one * (by_y + m2) * (ep * ep + minus_d * (m1 * m1)),
            minus_one,
        ],
    )
    by_s, by_t = s * dp, t * dm
    yield lemma(
        "the y of S - Q, where S = (n1 / dp, n2 / dm), times the denominators",
        "join_subtraction", "x2 y1 y2 s t dp dm n1 n2",
        [
            ("hs", (by_s, n1)), ("ht", (by_t, n2)),
            ("hi", (y1 * (dp * dm + d * (x2 * y2 * (n1 * n2))), y2 * (n2 * dp) + x2 * (n1 * dm))),
        ],
        (y1 * x_denominator(s, t, x2, y2) * (dp * dm), (t * y2 + s * x2) * (dp * dm)),
        [
            minus_one * (y1 * d * x2 * y2 * by_t) + x2 * dm,
            minus_one * (y1 * d * x2 * y2 * n1) + y2 * dp,
            minus_one,
        ],
    )
    T = all_four(*P, *Q)
    root = [("ht", (d * T, e)), ("he", (e * e, lifted(1)))]
    yield lemma(
        "where d x1 x2 y1 y2 = e and e^2 = 1: (x1 + e y1)^2 is d times a square",
        "square_of_sum", "x1 y1 x2 y2 e", [ON_P, ON_Q] + root,
        (square(x1 + e * y1), d * square(x1 * y1 * (x2 + y2))),
        [minus_one, d * (x1 * x1 * (y1 * y1)), d * T + e + 2 * (x1 * y1), minus(lifted(1), y1 * y1)],
    )
    yield lemma(
        "the same of (x1 - e y1)^2",
        "square_of_difference", "x1 y1 x2 y2 e", [ON_P, ON_Q] + root,
        (square(minus(x1, e * y1)), d * square(x1 * y1 * minus(x2, y2))),
        [minus_one, d * (x1 * x1 * (y1 * y1)), minus(d * T + e, 2 * (x1 * y1)), minus(lifted(1), y1 * y1)],
    )
    yield lemma(
        "not both of these squares are of 0",
        "both_zero", "x1 y1 x2 y2 e",
        [("ha", (x1 * y1 * (x2 + y2), lifted(0))), ("hb", (x1 * y1 * minus(x2, y2), lifted(0)))] + root,
        (lifted(2), lifted(0)),
        [minus_d * e * y2, minus_d * e * y2, 2 * e, lifted(2)],
    )
    yield lemma(
        "a denominator 1 - d z that is 0 makes d z = 1",
        "y_denominator_zero", "z", [("h", (1 + minus_d * z, lifted(0)))], (d * z, lifted(1)), [lifted(1)],
    )
    yield lemma(
        "a denominator 1 + d z that is 0 makes d z = -1",
        "x_denominator_zero", "z", [("h", (1 + d * z, lifted(0)))], (d * z, minus_one), [minus_one],
    )


def ladder():
    """The identities of a step of the ladder."""
    DP, DM = x_denominator(*P, *Q), y_denominator(*P, *Q)
    dy, sy = minus(y1, y2), y1 + y2
    yield by_division(
        "1 + y and 1 - y of P + Q and of P - Q, multiplied out",
        "differential_addition", "x1 y1 x2 y2", [ON_P, ON_Q],
        (
            (DM + minus(y1 * y2, x1 * x2)) * (DP + (y1 * y2 + x1 * x2)) * (dy * dy),
            minus(DM, minus(y1 * y2, x1 * x2)) * minus(DP, y1 * y2 + x1 * x2) * (sy * sy),
        ),
        [squares(*P), squares(*Q)],
    )
    D1, up, w_ = y_denominator(x, y, x, y), y_numerator(x, y, x, y), minus(lifted(1), y * y)
    yield by_division(
        "1 + y and 1 - y of 2 P, multiplied out",
        "doubling", "x y", [("on", on_curve(x, y))],
        ((D1 + up) * (w_ * (1 + A24 * w_)), minus(D1, up) * (y * y)),
        [squares(x, y)],
    )
    k, g, h, f = variables("k g h f")
    dt, st = minus(t, y2), t + y2
    yield lemma(
        "k = e / dm and y1 = g / dp: from the identity without fractions to that of k and y1",
        "join_differential_addition", "k y1 t y2 dm dp e g",
        [
            ("hk", (k * dm, e)), ("hy", (y1 * dp, g)),
            ("hi", ((dm + e) * (dp + g) * (dt * dt), minus(dm, e) * minus(dp, g) * (st * st))),
        ],
        ((1 + k) * (1 + y1) * (dt * dt) * (dm * dp), minus(lifted(1), k) * minus(lifted(1), y1) * (st * st) * (dm * dp)),
        [
            minus_one * ((dp + y1 * dp) * (dt * dt) + minus(dp, y1 * dp) * (st * st)),
            minus_one * ((dm + e) * (dt * dt) + minus(dm, e) * (st * st)),
            minus_one,
        ],
    )
    yield lemma(
        "k = e / dm: from the identity without fractions to that of k",
        "join_doubling", "k dm e g h",
        [("hk", (k * dm, e)), ("hi", ((dm + e) * g, minus(dm, e) * h))],
        ((1 + k) * g * dm, minus(lifted(1), k) * h * dm),
        [minus_one * (g + h), minus_one],
    )
    a, b, c = variables("a b c")
    yy = y * y
    w_ = minus(lifted(1), yy)
    G = w_ * (1 + A24 * w_)
    E = minus(a * a, b * b)
    X, Z = a * a * (b * b), E * (a * a + A24 * E)
    doubled = ("hd", ((1 + k) * G, minus(lifted(1), k) * yy))
    ratio = ("hb", (b, a * y))
    rule = [((("b", 1),), difference_of(ratio[1]))]
    a4 = a * a * (a * a)
    yield by_division(
        "doubling: b = a y gives X - Z = (X + Z) k, where k is the y of the double",
        "doubled_ratio", "a b y k", [ratio, doubled], (minus(X, Z), (X + Z) * k), rule, [a4],
    )
    cofactors, rest = divided((X + Z).polynomial(), rule)
    assert not (rest - ((yy + G) * a4).polynomial()).terms
    yield lemma(
        "doubling: X + Z = 0 leaves y^2 + G = 0 or a = 0",
        "doubled_zero", "a b y", [ratio, ("hs", (X + Z, lifted(0)))], ((yy + G) * a4, lifted(0)),
        [expression_of(cofactors[0]), minus_one],
    )
    M = minus(A24 * yy, lifted(1 + 2 * A24))
    yield lemma(
        "doubling: y^2 + G = 0 would make a constant 0",
        "doubled_zero_constant", "y k", [doubled, ("hs", (yy + G, lifted(0)))], (lifted(2 * (A24 + 1)), lifted(0)),
        [minus_one * (1 + M), minus_one * minus(minus(lifted(1), k), M * (1 + k))],
    )
    y3 = variables("y3")[0]
    two, three = ("hb", (b, a * y2)), ("hf", (f, c * y3))
    of_u = ("hu", (u * minus(lifted(1), y1), 1 + y1))
    dy, sy = minus(y3, y2), y3 + y2
    law = ("hs", ((1 + k) * (1 + y1) * (dy * dy), minus(lifted(1), k) * minus(lifted(1), y1) * (sy * sy)))
    X, Z = square(f * a + c * b), u * square(minus(f * a, c * b))
    rules = [((("b", 1),), difference_of(two[1])), ((("f", 1),), difference_of(three[1]))]
    squared = a * c * (a * c)
    yield by_division(
        "addition: X - Z = (X + Z) k, where k is the y of the sum, times 1 - y of the difference",
        "added_ratio", "a b c f y1 y2 y3 k u", [two, three, of_u, law],
        (minus(X, Z) * minus(lifted(1), y1), (X + Z) * k * minus(lifted(1), y1)),
        rules, [squared * (1 + k) * (dy * dy), squared],
    )
    for name, root, kept, letter in (
        ("added_x_zero", f * a + c * b, sy, "X"),
        ("added_z_zero", minus(f * a, c * b), dy, "Z / u"),
    ):
        cofactors, rest = divided(square(root).polynomial(), rules)
        left = a * c * kept * (a * c * kept)
        assert not (rest - left.polynomial()).terms
        yield lemma(
            f"addition: what {letter} = 0 comes to in y",
            name, "a b c f y2 y3", [two, three, ("hs", (square(root), lifted(0)))], (left, lifted(0)),
            [expression_of(cofactors[0]), expression_of(cofactors[1]), minus_one],
        )
    zeros = [("hp", (a + b, lifted(0))), ("hm", (minus(a, b), lifted(0)))]
    yield lemma("the sum and the difference of two numbers are 0", "half_left", "a b", zeros, (2 * a, lifted(0)), [minus_one, minus_one])
    yield lemma("the same", "half_right", "a b", zeros, (2 * b, lifted(0)), [minus_one, lifted(1)])
    yield lemma(
        "DA - CB squared is the same with both points exchanged",
        "square_of_exchanged_difference", "a b c f", [], (square(minus(b * c, a * f)), square(minus(f * a, c * b))), [],
    )
    yield lemma(
        "and so is DA + CB squared",
        "square_of_exchanged_sum", "a b c f", [], (square(b * c + a * f), square(f * a + c * b)), [],
    )
    start = ("h", (u * minus(lifted(1), y), 1 + y))
    yield lemma("u : 1 stands for y where u = (1 + y) / (1 - y)", "start_ratio", "u y", [start], (minus(u, lifted(1)), (u + 1) * y), [minus_one])
    yield lemma(
        "and u + 1 isn't 0",
        "start_zero", "u y", [start, ("hz", (u + 1, lifted(0)))], (lifted(2), lifted(0)), [lifted(1), minus_one * minus(lifted(1), y)],
    )
    yield lemma(
        "a point with y = 0 has x^2 = 1",
        "x_where_y_zero", "x y", [("on", on_curve(x, y)), ("hy", (y, lifted(0)))], (x * x, lifted(1)), [minus_one, y + minus_d * (x * x * y)],
    )
    yield lemma(
        "a point with x = 0 has y^2 = 1",
        "y_where_x_zero", "x y", [("on", on_curve(x, y)), ("hx", (x, lifted(0)))], (y * y, lifted(1)), [minus_one, x + minus_d * (x * (y * y))],
    )
    yield lemma(
        "where Q and P + Q have y = 0, x1 x2 = 0",
        "product_where_both_zero", "x1 y1 x2 y2 t dm",
        [("hup", (t * dm, y_numerator(*P, *Q))), ("hy", (y2, lifted(0))), ("ht", (t, lifted(0)))],
        (x1 * x2, lifted(0)), [minus_one, minus_one * y1, dm],
    )
    yield lemma("y^2 = 1 in factors", "factors_of_one", "y", [("hy", (y * y, lifted(1)))], (minus(lifted(1), y) * (1 + y), lifted(0)), [lifted(1)])
    yield lemma(
        "a sum of points with x = 0 has x = 0",
        "sum_on_y_axis", "x1 y1 x2 y2 s dp",
        [("h", (s * dp, x_numerator(*P, *Q))), ("h1", (x1, lifted(0))), ("h2", (x2, lifted(0)))],
        (s * dp, lifted(0)), [minus_one, minus_one * y2, minus_one * y1],
    )
    yield lemma(
        "a point with y = 1 or y = -1 has x = 0, up to a constant",
        "x_where_u_degenerate", "x y", [("on", on_curve(x, y)), ("h", (minus(lifted(1), y) * (1 + y), lifted(0)))],
        (x * x * (1 + minus_d), lifted(0)), [minus_one, minus_one * (1 + minus_d * (x * x))],
    )
    yield lemma(
        "doubling: where X Z = 0, E = 0",
        "degenerate_doubling", "x z", [("h", (x * z, lifted(0)))], (minus(square(x + z), square(minus(x, z))), lifted(0)), [minus_one * 4],
    )
    yield lemma(
        "X - Z = (X + Z) y as an equation of X / Z",
        "cross_multiplied", "x z y", [("h", (minus(x, z), (x + z) * y))],
        (x * minus(lifted(1), y), z * (1 + y)), [minus_one],
    )
    yield lemma("1 - y and 1 + y together", "sum_is_two", "y", [], (minus(lifted(1), y) + (1 + y), lifted(2)), [])
