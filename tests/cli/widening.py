#!/usr/bin/env python3
"""Checks which parts tools/widen.py finds in definitions, and what it changes in proofs.

usage: widening.py

Prints a line for each check, and the counts. The exit status is 0, or 1 if a check fails. Needs nothing of the kit: no part is tried.
"""
import sys
import tempfile
from pathlib import Path

sys.path[:0] = [str(Path(__file__).resolve().parents[1]), str(Path(__file__).resolve().parents[2] / "tools")]

from definitions import scope_of
from program import Report, parser_of
from widen import parts_of, with_its_value

DEFINITIONS = """-- Definitions of every form.
use Rattle.std.specs.Prelude.{◌≡◌, ℕ, ⊤, List}

-- a value, which says nothing
pub record Span : Type 0 where
  pub start : ℕ
  pub length : ℕ

-- the text is of this value
pub record IsOf (limit : ℕ) (text : List ℕ) : Type 0 where
  pub span : Span
  pub inside : span.start + span.length ≤ limit
  pub whole :
      length text ≡ span.length

abbrev pub IsLast : List ℕ → ℕ → Type 0
IsLast [] n = ⊤
IsLast (m ∷ []) n = (m ≡ n) × (0 < n)
IsLast (m ∷ ms) n = IsLast ms n

abbrev pub Written : Result ℕ Fault → List ℕ → Type 0
Written result text = 0 < length text → (front : List ℕ)
    × MatchResult result (λ n. n ≡ length front) (λ _. (front ≡ []) ⊎ ((rest : List ℕ) × (text ≡ front ++ rest)))

abbrev pub double : ℕ → ℕ
double n = n + n
"""

PARTS = {
    "Span": [],
    "IsOf": [("field inside", "span.start + span.length ≤ limit"), ("field whole", "length text ≡ span.length")],
    "IsLast": [("clause 2, conjunct 1", "m ≡ n"), ("clause 2, conjunct 2", "0 < n"), ("clause 3, conjunct 1", "IsLast ms n")],
    "Written": [
        ("clause 1, conjunct 1", "n ≡ length front"),
        ("clause 1, conjunct 2", "front ≡ []"),
        ("clause 1, conjunct 3", "text ≡ front ++ rest"),
    ],
    "double": [],
}

PROOFS = """of : IsOf 9 text
of = record { span = record { start = 0; length = 2 }; inside = omega (arith, a.1); whole = refl }
other = record { inside = omega arith }
"""
CHANGED = PROOFS.replace("inside = omega (arith, a.1);", "inside = tt ;")


def main() -> int:
    parser_of(__doc__).parse_args()
    report = Report()
    with tempfile.TemporaryDirectory() as folder:
        path = Path(folder, "Forms.antt")
        path.write_text(DEFINITIONS)
        items = scope_of(path).items
        for name, wanted in PARTS.items():
            found = [(part.what, part.text) for part in parts_of(items[name])]
            if found == wanted:
                report.add_ok(name)
            else:
                report.add_difference(name, f"{found}, and not {wanted}")
        inside = parts_of(items["IsOf"])[0]
        if with_its_value(PROOFS, inside) == CHANGED:
            report.add_ok("a proof that gives a value")
        else:
            report.add_difference("a proof that gives a value", with_its_value(PROOFS, inside))
    return report.end()


if __name__ == "__main__":
    sys.exit(main())
