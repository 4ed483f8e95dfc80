#!/usr/bin/env python3
"""Writes the proof files that hold certificates: the curve's constants, the identities of its group law and of the ladder, and that
2^255 - 19 is prime. With --check it writes nothing, and ends with status 1 where a file isn't what it would write."""

import sys
from pathlib import Path

sys.dont_write_bytecode = True
sys.path.insert(0, str(Path(__file__).resolve().parent))

from identities import addition, ladder, lines
from polynomials import CONSTANTS
from primality import certificates

PROOFS = Path(__file__).resolve().parent.parent / "proofs"

IDENTITIES = """use Rattle.std.proofs.Common.{ℕ, ◌+◌, ◌*◌, [], ◌∷◌, refl}
use Rattle.curve25519.specs.Field.{prime}
use Rattle.curve25519.proofs.Congruence.{Congruent}
use Rattle.curve25519.proofs.CurveConstants.{%s}
use Rattle.curve25519.proofs.Polynomials.{lit, var, plus, times, premise, sum_of, term, nth, follows}

"""

WORDS = {
    "d": "121665 / 121666",
    "minus_d": "-d",
    "minus_one": "-1: a + minus_one * b stands for a - b",
    "base_x": "the x of the base point",
    "base_y": "its y, 4 / 5",
}


def files():
    made = "-- Made by generate/certificates.py, with its certificates."
    constants = "-- The curve x^2 + y^2 = 1 + d x^2 y^2 over GF(p), and its base point.\n" + made + "\nuse Rattle.std.proofs.Common.{ℕ}\n"
    for name, value in CONSTANTS.items():
        constants += f"\n-- {WORDS[name]}\nunfoldable pub {name} : ℕ\n{name} = {value}\n"
    yield "CurveConstants.antt", constants
    yield (
        "AdditionIdentities.antt",
        "-- The identities of the group law: each follows from its premises by cofactors, which the checker multiplies out.\n"
        + made + "\n" + IDENTITIES % "d, minus_d, minus_one, base_x, base_y" + "\n".join(addition()),
    )
    yield (
        "LadderIdentities.antt",
        "-- The identities of a step of the ladder: each follows from its premises by cofactors, which the checker multiplies out.\n"
        + made + "\n" + IDENTITIES % "d, minus_d, minus_one" + "\n".join(ladder()),
    )
    yield (
        "PrimalityCertificate.antt",
        "-- 2^255 - 19 is prime, by Pratt's certificate: of each prime q a generator, the bits of its powers, and the primes of q - 1.\n"
        + made + "\nuse Rattle.std.proofs.Common.{[], ◌∷◌, refl}\n"
        + "use Rattle.curve25519.proofs.PrimalityTest.{IsPrime, prime_by_certificate}\n\n"
        + "\n".join(certificates(lines)),
    )


def main():
    status = 0
    for name, text in files():
        path = PROOFS / name
        if "--check" in sys.argv[1:]:
            if not path.is_file() or path.read_text(encoding="utf-8") != text:
                print(f"proofs/{name} isn't what generate/certificates.py writes")
                status = 1
        else:
            path.write_text(text, encoding="utf-8")
    return status


if __name__ == "__main__":
    sys.exit(main())
