"""The counts of captures that a collapse makes one, against groups of a whole list."""
import itertools
import random
import unittest
from unittest import mock


from warcdx import FIELDS
from warcdx_gateway import rows
from warcdx_gateway.answers import arranged, or_nothing
from warcdx_gateway.refusal import Refusal
from warcdx_gateway.rows import DIGEST, KEY, STAMP, Collapse, Grouper, row_of_values
from warcdx_gateway.selection import sliced


def capture(key: str, number: int, digest: str) -> list[str]:
    given = {"urlkey": key, "timestamp": f"{number:014}", "digest": digest}
    values = dict.fromkeys(FIELDS, "-") | given
    return row_of_values([values[name] for name in FIELDS])


class Groups(unittest.TestCase):
    def test_groups_are_those_of_the_whole_list(self) -> None:
        rng = random.Random(3)
        for _ in range(300):
            keys = sorted(rng.choice("abcd") for _ in range(rng.randrange(20)))
            found = [capture(key, at, rng.choice("XYZ")) for at, key in enumerate(keys)]
            wanted = []
            for _, group in itertools.groupby(found, lambda row: row[KEY]):
                each = list(group)
                digests = {row[DIGEST] for row in each}
                counts = (len(each), len(digests), len(each) - 1)
                wanted.append((each[0][STAMP], each[-1][STAMP], *map(str, counts)))
            grouper, given, at = Grouper([Collapse("urlkey")], [None]), [], 0
            while at < len(found):
                size = rng.randrange(4)
                given += grouper.select(found[at : at + size])
                at += size
            given += grouper.rest()
            columns = (STAMP, rows.END, rows.GROUP_COUNT, rows.DIGEST_COUNT, rows.SKIPPED)
            self.assertEqual(wanted, [tuple(row[place] for place in columns) for row in given])

    def test_a_group_goes_on_after_a_resume_key(self) -> None:
        grouper = Grouper([Collapse("urlkey")], ["a"])
        self.assertEqual([], grouper.select([capture("a", 2, "X"), capture("b", 3, "X")]))
        self.assertEqual(["b"], [row[KEY] for row in grouper.rest()])

    def test_the_digests_of_a_group_are_bounded(self) -> None:
        with mock.patch.object(rows, "MOST_DIGESTS", 2):
            grouper = Grouper([Collapse("urlkey")], [None])
            grouper.select([capture("a", number, str(number)) for number in range(2)])
            self.assertRaises(Refusal, grouper.select, [capture("a", 3, "3")])


class Pieces(unittest.TestCase):
    def test_an_array_with_names_alone_is_empty(self) -> None:
        whole, alone = b'[["a"],\n["1"],\n["2"]]\n', b'[["a"]]\n'
        for size in range(1, len(whole)):
            for text, wanted in ((whole, whole), (alone, b"[]\n")):
                pieces = iter([text[at : at + size] for at in range(0, len(text), size)])
                self.assertEqual(wanted, b"".join(or_nothing(pieces)))

    def test_captures_are_given_in_the_order_of_their_numbers(self) -> None:
        groups = [[["3"], ["4"]], [], [["5"], ["6"], ["7"]]]
        for numbers in ((7, 3, 5), (4,), range(7, 2, -1), ()):
            found = [row for group in arranged(iter(groups), numbers, 3) for row in group]
            self.assertEqual([[str(number)] for number in numbers], found)

    def test_captures_are_those_of_their_numbers(self) -> None:
        groups = [[["1"], ["2"]], [], [["3"]], [["4"], ["5"]]]
        rows = [row for group in groups for row in group]
        for first in range(7):
            for ends in ((), *((end,) for end in range(7))):
                found = [row for group in sliced(iter(groups), first, *ends) for row in group]
                self.assertEqual(rows[first : ends[0] if ends else None], found)


if __name__ == "__main__":
    unittest.main()
