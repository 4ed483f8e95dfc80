"""Polynomials over GF(2^255 - 19), and expressions with names that are written as antt's."""

PRIME = 2**255 - 19


class Polynomial:
    """A sum of monomials: a dict from a sorted tuple of (variable, exponent) to a coefficient."""

    def __init__(self, terms):
        self.terms = {monomial: c % PRIME for monomial, c in terms.items() if c % PRIME}

    def __add__(self, other):
        terms = dict(self.terms)
        for monomial, c in other.terms.items():
            terms[monomial] = terms.get(monomial, 0) + c
        return Polynomial(terms)

    def __neg__(self):
        return Polynomial({monomial: -c for monomial, c in self.terms.items()})

    def __sub__(self, other):
        return self + -other

    def __mul__(self, other):
        terms = {}
        for left, c in self.terms.items():
            for right, e in other.terms.items():
                monomial = joined(left, right)
                terms[monomial] = terms.get(monomial, 0) + c * e
        return Polynomial(terms)


def constant(c):
    return Polynomial({(): c})


def joined(left, right):
    exponents = dict(left)
    for name, n in right:
        exponents[name] = exponents.get(name, 0) + n
    return tuple(sorted(exponents.items()))


def divides(left, right):
    exponents = dict(right)
    return all(exponents.get(name, 0) >= n for name, n in left)


def quotient(left, right):
    exponents = dict(left)
    for name, n in right:
        exponents[name] -= n
    return tuple(sorted((name, n) for name, n in exponents.items() if n))


def divided(f, rules):
    """Divides f by rules (leading monomial, polynomial) as long as one leads a monomial: the cofactors and the remainder."""
    cofactors = [constant(0) for _ in rules]
    while True:
        for i, (lead, g) in enumerate(rules):
            hit = next((monomial for monomial in f.terms if divides(lead, monomial)), None)
            if hit is not None:
                q = Polynomial({quotient(hit, lead): f.terms[hit] * pow(g.terms[lead], -1, PRIME)})
                f = f - q * g
                cofactors[i] = cofactors[i] + q
                break
        else:
            return cofactors, f


# The curve x^2 + y^2 = 1 + d x^2 y^2 and the point with y = 4 / 5 (RFC 7748, 4.1, after the change of coordinates that makes
# the coefficient of x^2 equal 1).
D = 121665 * pow(121666, -1, PRIME) % PRIME
BASE_Y = 4 * pow(5, -1, PRIME) % PRIME
_square = (1 - BASE_Y * BASE_Y) * pow(1 - D * BASE_Y * BASE_Y, -1, PRIME) % PRIME
BASE_X = pow(_square, (PRIME + 3) // 8, PRIME)
if BASE_X * BASE_X % PRIME != _square:
    BASE_X = BASE_X * pow(2, (PRIME - 1) // 4, PRIME) % PRIME
assert BASE_X * BASE_X % PRIME == _square
assert pow(D, (PRIME - 1) // 2, PRIME) == PRIME - 1

CONSTANTS = {"d": D, "minus_d": PRIME - D, "minus_one": PRIME - 1, "base_x": BASE_X, "base_y": BASE_Y}


class Expression:
    """A sum, a product, a literal, a named constant, a variable or a polynomial."""

    def __init__(self, kind, *parts):
        self.kind = kind
        self.parts = parts

    def __add__(self, other):
        return Expression("+", self, lifted(other))

    def __radd__(self, other):
        return Expression("+", lifted(other), self)

    def __mul__(self, other):
        return Expression("*", self, lifted(other))

    def __rmul__(self, other):
        return Expression("*", lifted(other), self)

    def polynomial(self):
        if self.kind == "+":
            return self.parts[0].polynomial() + self.parts[1].polynomial()
        if self.kind == "*":
            return self.parts[0].polynomial() * self.parts[1].polynomial()
        if self.kind == "literal":
            return constant(self.parts[0])
        if self.kind == "constant":
            return constant(CONSTANTS[self.parts[0]])
        if self.kind == "polynomial":
            return self.parts[0]
        return Polynomial({((self.parts[0], 1),): 1})

    def number(self):
        """The expression on natural numbers."""
        if self.kind == "+":
            return f"{self.parts[0].number()} + {in_brackets(self.parts[1], '+')}"
        if self.kind == "*":
            return f"{in_brackets(self.parts[0], '+')} * {in_brackets(self.parts[1], '+*')}"
        return str(self.parts[0])

    def reflected(self, variables):
        """The expression as a value of the type Expr."""
        if self.kind in "+*":
            word = {"+": "plus", "*": "times"}[self.kind]
            return f"({word} {self.parts[0].reflected(variables)} {self.parts[1].reflected(variables)})"
        if self.kind == "variable":
            return f"(var {variables.index(self.parts[0])})"
        if self.kind == "polynomial":
            terms = [f"term {c} ({listed(indexes(monomial, variables))})" for monomial, c in self.parts[0].terms.items()]
            return f"(sum_of ({listed(terms)}))"
        return f"(lit {self.parts[0]})"

    def constants(self):
        if self.kind in "+*":
            return self.parts[0].constants() | self.parts[1].constants()
        return {self.parts[0]} if self.kind == "constant" else set()


def in_brackets(e, kinds):
    return f"({e.number()})" if e.kind in "+*" and e.kind in kinds else e.number()


def lifted(e):
    return e if isinstance(e, Expression) else Expression("literal", e)


def variables(names):
    return [Expression("variable", name) for name in names.split()]


def named(name):
    return Expression("constant", name)


def expression_of(polynomial):
    return Expression("polynomial", polynomial)


def indexes(monomial, variables):
    return [str(variables.index(name)) for name, n in monomial for _ in range(n)]


def listed(items):
    return " ∷ ".join(list(items) + ["[]"])
