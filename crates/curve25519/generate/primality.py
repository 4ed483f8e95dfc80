"""Pratt's certificate that 2^255 - 19 is prime: for each prime q on the way down the primes of q - 1 and a generator."""

from polynomials import PRIME, listed

# The primes on the way: each q - 1 is a product of those before it. That they are primes is what the proofs check.
# fmt: off
PRIMES = [
    2, 3, 5, 7, 11, 13, 17, 19, 23, 29, 31, 37, 41, 43, 47, 53, 59, 83, 97, 103, 107, 127, 131, 173, 223, 239, 353, 419, 479, 487,
    991, 1723, 2437, 3727, 4153, 9463, 32573, 37853, 57467, 65147, 75707, 132049, 430751, 569003, 1923133, 8574133, 2773320623,
    72106336199, 1919519569386763, 31757755568855353, 75445702479781427272750846543864801,
    74058212732561358302231226437062788676166966415465897661863160754340907, PRIME,
]
# fmt: on


def factors(n):
    found = []
    for q in PRIMES:
        while n % q == 0 and n > 1:
            found.append(q)
            n //= q
    assert n == 1
    return found


def generator(q, below):
    g = 1 if q == 2 else 2
    while any(pow(g, (q - 1) // part, q) == 1 for part in below):
        g += 1
    return g


def name_of(q):
    if q == PRIME:
        return "prime_certified"
    digits = str(q)
    return "prime_" + (digits if len(digits) < 12 else f"{len(digits)}_digits")


def certificates(lines):
    for q in PRIMES:
        below = factors(q - 1)
        name = name_of(q)
        generates = generator(q, set(below))
        text = ("pub " if q == PRIME else "") + f"{name} : IsPrime {q}\n"
        text += f"{name} =\n" + lines(4, f"prime_by_certificate {q} {generates} {q.bit_length()}")
        text += lines(4, f"({listed(map(str, below))})")
        proofs = "tt"
        for part in reversed(below):
            proofs = f"({name_of(part)}, {proofs})"
        # (on one line: rt fmt would give each of these pairs lines of its own)
        yield text + f"    {proofs}\n    refl\n"
