"""The calls of gaplinte.py, with answers that documents 01 and 02 give."""

import array
import copy
import doctest
import math
import os
import pathlib
import random
import re
import shutil
import subprocess
import sys
import tempfile
import threading
import unittest

import gaplinte
from gaplinte import (
    KIND_CLOSE,
    KIND_OPEN,
    Answer,
    Call,
    OpenLine,
    Owner,
    Plan,
    Reason,
    Refused,
    Row,
    Sheet,
    Trial,
    Walker,
)

FOLDER = pathlib.Path(__file__).resolve().parent
REPOSITORY = FOLDER.parents[1]
LAST = 2**64 - 1
MOST = 2**16 - 1


def load_tests(loader, tests, pattern):
    tests.addTests(doctest.DocTestSuite(gaplinte))
    return tests


def packed(*fields):
    """The bytes of fields, each a width and a number, from its highest bit on; what is left of the last byte is 0."""
    bits = "".join(f"{number:0{width}b}" for width, number in fields)
    bits += "0" * (-len(bits) % 8)
    return int(bits, 2).to_bytes(len(bits) // 8, "big")


def image(*paths):
    """The image with these paths, each a line and the rows above it, also where they are no legal tree."""
    fields = [(7, len(paths))]
    for line, *rows in paths:
        fields += [(6, line), (4, len(rows)), *((12, number) for row in rows for number in row)]
    return packed(*fields)


class Case(unittest.TestCase):
    def refused(self, number, call, *arguments):
        with self.assertRaises(Refused) as caught:
            call(*arguments)
        self.assertEqual(caught.exception.number, number)

    def opened(self, *periods):
        """Opens lines 1, 2, 3 .. with periods; p@s is p with start s, p!n is p refused with n."""
        plan = Plan()
        for line, (period, mark, number) in enumerate((re.split("([@!])", text) for text in periods), 1):
            before = copy.copy(plan)
            if mark == "@":
                self.assertEqual(plan.open(line, int(period)), int(number))
            else:
                self.refused(int(number), plan.open, line, int(period))
                self.assertEqual(plan, before)
        return plan


class MarkedCases(Case):
    def test_a(self):
        plan = self.opened("4@0", "6@1", "8@2", "2!5", "12@3")
        self.assertEqual([plan.owner(round) for round in (7, 10, 9)], [(2, None), (3, None), (None, 1)])
        shown = plan.show(5)
        self.assertEqual((shown.period, shown.start), (12, 3))
        self.assertEqual(shown.path, ((2, 1), (3, 1), (2, 0)) + ((0, 0),) * 8)
        self.assertEqual(shown.path[1], Row(weight=3, edge=1))
        self.assertEqual(plan.turns(5, 0, 100), 9)
        self.assertEqual(plan.lines(), [(1, 4, 0), (2, 6, 1), (3, 8, 2), (5, 12, 3)])
        self.assertEqual(plan.lines()[3], OpenLine(line=5, period=12, start=3))

    def used(self, plan, line):
        """The rows of a line's path that are used."""
        return tuple(row for row in plan.show(line).path if row.weight)

    def test_b_to_h(self):
        self.opened("4@0", "4@1", "2!5")
        plan = self.opened("6@0", "12@1", "12@2")
        paths = [((6, 0),), ((6, 1), (2, 0)), ((6, 2), (2, 0))]
        self.assertEqual([self.used(plan, line) for line in (1, 2, 3)], paths)
        self.opened("1@0", "1!5", "4095!5")
        self.opened("2@0", "3!5")
        powers = [f"{2**power}@{2**(power - 1) - 1}" for power in range(1, 12)]
        self.assertEqual(self.opened(*powers).show(11).path, ((2, 1),) * 10 + ((2, 0),))
        self.opened("4095@0", "4096!2", "0!2")
        plan = Plan()
        self.assertEqual(plan.open(63, 5), 0)
        self.refused(1, plan.open, 64, 5)

    def test_i(self):
        orders = (REPOSITORY / "examples/case-i.orders").read_bytes()
        plan = Plan()
        answers = [(0, 0), (0, 1), (5, None), (0, None), (0, 1), (4, None)]
        self.assertEqual(plan.run_list(orders), answers)
        self.assertEqual(plan.lines(), [(1, 6, 0), (3, 3, 1)])

    def test_earliest_start(self):
        plan = Plan()
        self.assertEqual(plan.open(0, 4), 0)
        # The root has weight 4, and above each 8 stands a node of weight 2. For line 4 the root is full, and the nodes
        # offer 5, 6 and 7. For line 5 the root offers 3, and the nodes above lines 4 and 2 offer 1 and 6.
        self.assertEqual([plan.open(line, 8) for line in (1, 2, 3, 4)], [1, 2, 3, 5])
        plan.close(1)
        plan.close(3)
        self.assertEqual([plan.open(line, 8) for line in (5, 6, 7)], [1, 3, 6])
        lines = [(0, 4, 0), (2, 8, 2), (4, 8, 5), (5, 8, 1), (6, 8, 3), (7, 8, 6)]
        self.assertEqual(plan.lines(), lines)

    def test_an_emptied_plan_is_the_fresh_one(self):
        plan = self.opened("4@0", "6@1", "8@2")
        for line in (1, 2, 3):
            self.assertIsNone(plan.close(line))
        self.assertEqual(plan, Plan())
        self.assertEqual(plan.lines(), [])


class Refusals(Case):
    def test_each_call(self):
        plan = self.opened("4@0")
        before = copy.copy(plan)
        for line in (64, 256, 2**32, LAST):
            self.refused(1, plan.open, line, 4)
            self.refused(1, plan.trial, line, 4)
            self.refused(1, plan.close, line)
            self.refused(1, plan.show, line)
            self.refused(1, plan.turns, line, 0, 9)
            self.refused(1, gaplinte.pack, KIND_CLOSE, line)
        for period in (4096, 65548, 2**32 + 4, LAST):
            self.refused(2, plan.open, 2, period)
            self.refused(2, plan.trial, 2, period)
            self.refused(2, plan.reason, period, 0, 0, 0)
            self.refused(2, gaplinte.pack, KIND_OPEN, 2, period)
        self.refused(2, plan.open, 2, 0)
        self.refused(2, plan.trial, 2, 0)
        self.refused(2, plan.reason, 0, 0, 0, 0)
        self.refused(3, plan.open, 1, 4)
        self.refused(3, plan.trial, 1, 4)
        self.refused(4, plan.close, 2)
        self.refused(4, plan.show, 2)
        self.refused(4, plan.turns, 2, 0, 9)
        self.refused(4, plan.turns, 2, 0, 0)
        self.refused(5, plan.open, 2, 3)
        self.refused(5, plan.trial, 2, 3)
        self.refused(6, gaplinte.pack, 2, 0, 0)
        self.refused(6, gaplinte.pack, KIND_CLOSE, 0, 1)
        self.refused(6, gaplinte.read, b"\x80\0\0")
        self.refused(7, plan.run_list, b"\0")
        self.refused(7, plan.run_list, bytes(65538))
        self.refused(8, plan.write_image, bytearray(5))
        self.refused(9, Walker(LAST, 0).walk, plan)
        self.refused(10, plan.reason, 4, 1, 0, 0)
        self.refused(11, plan.reason, 4, 0, 0, 4)
        self.refused(12, plan.reason, 4, 0, 0, 1)
        for call in (plan.read_image, Plan.from_image):
            self.refused(13, call, b"")
            self.refused(14, call, b"\1")
        self.refused(15, plan.weave, plan)
        long = Plan()
        self.assertEqual(long.open(2, 2048), 0)
        self.refused(16, plan.weave, long)
        self.assertEqual(plan, before)

    def test_texts_are_those_of_the_header(self):
        header = (REPOSITORY / "include/gaplinte.h").read_text()
        texts = re.findall(r'return "(.*)";', header)
        self.assertEqual(texts[0], "not refused")
        self.assertEqual([Refused(number).text for number in range(1, 17)], texts[1:17])
        self.assertEqual(len(set(texts)), len(texts))
        self.assertEqual(str(Refused(4)), "refused with 4: the line is not open")


class Numbers(Case):
    def test_none_is_cut(self):
        plan = self.opened("4@0")
        before = copy.copy(plan)
        for number in (-1, 2**64, 2**64 + 1, -(2**64) + 2, 10**5000):
            for call in (
                lambda: plan.open(number, 8),
                lambda: plan.open(2, number),
                lambda: plan.trial(number, 8),
                lambda: plan.trial(2, number),
                lambda: plan.reason(number, 0, 0, 0),
                lambda: plan.reason(4, number, 0, 0),
                lambda: plan.reason(4, 0, number, 0),
                lambda: plan.reason(4, 0, 0, number),
                lambda: plan.close(number),
                lambda: plan.owner(number),
                lambda: plan.show(number),
                lambda: plan.turns(number, 0, 9),
                lambda: plan.turns(1, number, 9),
                lambda: plan.turns(1, 0, number),
                lambda: plan.sheet(number, 9),
                lambda: plan.sheet(0, number),
                lambda: gaplinte.pack(number, 1, 0),
                lambda: gaplinte.pack(0, number, 0),
                lambda: gaplinte.pack(0, 1, number),
                lambda: Walker(number),
                lambda: Walker(0, number),
            ):
                self.assertRaises(OverflowError, call)
        self.assertRaises(OverflowError, plan.turns, 1, 0, 2**32)
        self.assertRaises(OverflowError, plan.sheet, 0, 2**16)
        walker = Walker()
        walker.next = 2**64
        self.assertRaises(OverflowError, walker.walk, plan)
        self.assertEqual((walker.next, walker.owned), (2**64, 0))
        self.assertEqual(plan, before)

    def test_the_largest(self):
        plan = self.opened("1@0")
        self.assertEqual(plan.owner(LAST), (1, None))
        self.assertEqual(plan.turns(1, LAST, 2**32 - 1), 2**32 - 1)

    def test_whole_numbers_only(self):
        for number in (1.0, "1", None, b"\1"):
            self.assertRaises(TypeError, Plan().open, number, 4)
            self.assertRaises(TypeError, Plan().open, 1, number)
            self.assertRaises(TypeError, Plan().trial, number, 4)
            self.assertRaises(TypeError, Plan().trial, 1, number)
            self.assertRaises(TypeError, Plan().reason, number, 0, 0, 0)
            self.assertRaises(TypeError, Plan().reason, 4, 0, 0, number)
            self.assertRaises(TypeError, Plan().owner, number)
            self.assertRaises(TypeError, Plan().sheet, number, 4)
            self.assertRaises(TypeError, Plan().sheet, 1, number)


class Records(Case):
    def test_bytes_there_and_back(self):
        plan = self.opened("4@0", "6@1")
        record = bytes(plan)
        self.assertEqual(len(record), 2816)
        numbers = memoryview(record).cast("H")
        self.assertEqual(numbers[22 * 2 : 22 * 2 + 5].tolist(), [2, 1, 3, 0, 0])
        self.assertEqual(Plan.from_bytes(record), plan)
        self.assertEqual(Plan.from_bytes(array.array("H", numbers)), plan)
        self.assertNotEqual(plan, Plan())
        self.assertNotEqual(plan, record)
        for wrong in (b"", record[1:], record + b"\0"):
            self.assertRaises(ValueError, Plan.from_bytes, wrong)
        self.assertRaises(TypeError, Plan.from_bytes, 2816)

    def test_a_copy_has_its_own_record(self):
        plan = self.opened("4@0")
        for copied in (copy.copy(plan), copy.deepcopy(plan)):
            copied.close(1)
            self.assertEqual((plan.lines(), copied.lines()), ([(1, 4, 0)], []))

    def test_a_record_that_is_no_tree(self):
        booked = Plan()
        self.assertEqual(booked.open(3, 12), 0)
        self.assertTrue(Plan().is_tree() and booked.is_tree())
        numbers = array.array("H", bytes(booked))
        numbers[22 * 3 + 1] = 12
        plan = Plan.from_bytes(numbers)
        self.assertFalse(plan.is_tree())
        self.assertEqual([plan.owner(round) for round in (0, 1, LAST)], [(None, 0)] * 3)
        self.assertEqual(Walker().walk(plan), (None, 0))
        self.assertEqual(plan.lines(), [])
        for call in (plan.show, plan.close, lambda line: plan.turns(line, 0, 7)):
            self.refused(4, call, 3)
        self.refused(2, plan.open, 3, 0)
        self.refused(2, plan.trial, 3, 0)
        self.assertEqual(plan.trial(3, 12), (0, 1, False))
        self.refused(2, plan.reason, 0, 0, 0, 0)
        self.refused(10, plan.reason, 12, 0, 0, 0)
        self.assertEqual([plan.sheet(LAST, rounds).idle for rounds in (0, 7, MOST)], [0, 7, MOST])
        self.assertEqual(plan.sheet(0, 7), ((0,) * 64, 7))
        self.assertEqual(plan.to_image(), b"\0")
        self.refused(13, plan.read_image, b"")
        self.assertEqual(booked.weave(plan).lines(), [(3, 24, 0)])
        self.assertEqual(plan.weave(booked).lines(), [(3, 24, 1)])
        self.assertEqual(plan.weave(plan), Plan())
        self.assertEqual(bytes(plan), numbers.tobytes())
        self.assertEqual(plan.open(3, 12), 0)
        self.assertEqual(plan, booked)
        plan = Plan.from_bytes(numbers)
        plan.read_image(b"\0")
        self.assertEqual(plan, Plan())


class Trials(Case):
    def nodes(self, plan):
        """The weight of each node of a plan, by the edges that lead to it from the root."""
        nodes = {}
        for line, *_ in plan.lines():
            path = [row for row in plan.show(line).path if row.weight]
            for level, row in enumerate(path):
                nodes[tuple(above.edge for above in path[:level])] = row.weight
        return nodes

    def tried(self, plan, line, period):
        """What a trial tells; the plan stays as found, and an open does what was told."""
        before, after = copy.copy(plan), copy.copy(plan)
        told = plan.trial(line, period)
        self.assertEqual(plan, before)
        self.assertEqual(after.open(line, period), told.start)
        old, new = self.nodes(before), self.nodes(after)
        self.assertEqual(len(new) - len(old), told.added)
        # A split leaves the node where it is, with another weight.
        self.assertIs(told.split, any(new[edges] != weight for edges, weight in old.items() if edges in new))
        return told

    def test_case_a(self):
        plan = Plan()
        # The 6 splits the root: a node of weight 2 stands above the 4, and one of weight 3 above the 6.
        for line, (period, told) in enumerate(
            ((4, (0, 1, False)), (6, (1, 2, True)), (8, (2, 1, False)), (12, (3, 1, False))), 1
        ):
            self.assertEqual(self.tried(plan, line, period), told)
            plan.open(line, period)
        self.refused(5, plan.trial, 5, 2)
        told = plan.trial(5, 16)
        self.assertEqual(told, Trial(start=6, added=1, split=False))

    def test_earliest_start(self):
        plan = Plan()
        for line, period in ((0, 4), (1, 8), (2, 8), (3, 8), (4, 8)):
            plan.open(line, period)
        plan.close(1)
        plan.close(3)
        # In the node above line 4, under the root, and in the node above line 2.
        for line, told in ((5, (1, 0, False)), (6, (3, 1, False)), (7, (6, 0, False))):
            self.assertEqual(self.tried(plan, line, 8), told)
            plan.open(line, 8)

    def test_one_line(self):
        plan = self.opened("4@0")
        # The root of weight 4 becomes one of weight 2 for the 2 and the 6, with a node of weight 2 above the 4.
        for period, told in ((4, (1, 0, False)), (8, (1, 1, False)), (2, (1, 1, True)), (6, (1, 2, True))):
            self.assertEqual(self.tried(plan, 2, period), told)

    def test_a_full_plan(self):
        plan = self.opened(*(f"128@{start}" for start in range(63)))
        # Each of 63 lines gets a node of weight 2 at a split; the 192 has one of weight 3 besides.
        for period, told in ((128, (63, 0, False)), (64, (63, 63, True)), (192, (63, 64, True))):
            self.assertEqual(self.tried(plan, 0, period), told)
        self.refused(5, plan.trial, 0, 32)

    def test_a_deep_plan(self):
        plan = self.opened(*(f"{2**power}@{2**(power - 1) - 1}" for power in range(1, 12)))
        self.assertEqual(self.tried(plan, 0, 2048), (2047, 0, False))
        self.refused(5, plan.trial, 0, 1024)

    def test_checks_in_sequence(self):
        plan = self.opened("4@0")
        self.refused(1, plan.trial, 64, 0)
        self.refused(1, plan.trial, 64, 3)
        self.refused(2, plan.trial, 1, 0)
        self.refused(3, plan.trial, 1, 3)
        self.assertEqual(plan.lines(), [(1, 4, 0)])

    def test_each_period(self):
        for plan in (Plan(), self.opened("12@0", "12@1"), self.opened("4@0", "6@1", "8@2", "12@3")):
            for period in range(1, 200):
                after = copy.copy(plan)
                try:
                    after.open(63, period)
                except Refused as refused:
                    self.refused(refused.number, plan.trial, 63, period)
                else:
                    self.tried(plan, 63, period)


class Reasons(Case):
    def reasons(self, plan, period, *classes):
        """The lines at classes of nodes, each of them a level, an offset and a class; the plan stays as found."""
        before = copy.copy(plan)
        lines = [plan.reason(period, *asked).line for asked in classes]
        self.assertEqual(plan, before)
        return lines

    def test_taken_away_one_after_the_other(self):
        plan = self.opened("4@0", "6@1", "8@2", "2!5")
        # The root and the node above the 4 and the 8 have weight 2, the one above the 6 has weight 3. The node of the 8
        # has step 4.
        above, above_the_6 = ((0, 0, 0), (1, 0, 0)), ((0, 0, 1), (1, 1, 0))
        self.assertEqual(self.reasons(plan, 2, *above, *above_the_6, (2, 2, 0)), [1, 1, 2, 2, None])
        plan.close(3)
        self.assertEqual(self.reasons(plan, 2, *above, *above_the_6), [1, 1, 2, 2])
        self.refused(10, plan.reason, 2, 2, 2, 0)
        self.refused(5, plan.open, 4, 2)
        plan.close(2)
        # The root and the node above the 4 are joined.
        self.assertEqual(self.reasons(plan, 2, (0, 0, 0)), [1])
        self.refused(12, plan.reason, 2, 0, 0, 1)
        self.refused(10, plan.reason, 2, 1, 0, 0)
        self.refused(10, plan.reason, 2, 1, 1, 0)
        self.assertEqual(plan.open(4, 2), 1)
        self.assertEqual(self.reasons(plan, 2, *above), [1, 1])
        self.assertEqual(plan.reason(2, 0, 0, 1), Reason(line=4))

    def test_the_lowest_number_at_any_depth(self):
        plan = Plan()
        self.assertEqual([plan.open(*each) for each in ((9, 4), (63, 6), (5, 8), (0, 16))], [0, 1, 2, 6])
        self.assertEqual(self.reasons(plan, 2, (0, 0, 0), (0, 0, 1)), [0, 63])
        self.assertEqual(self.reasons(plan, 4, (1, 0, 0), (1, 0, 1)), [9, 0])
        plan.close(0)
        self.assertEqual(self.reasons(plan, 4, (0, 0, 0), (1, 0, 1)), [5, 5])

    def test_classes_by_the_divisor(self):
        plan = self.opened(*(f"12@{start}" for start in range(8)))
        for line in (1, 3, 4, 5, 6):
            plan.close(line)
        # The root has weight 12, and its edges 1, 6 and 7 lead to lines 2, 7 and 8.
        for period, lines in ((1, [2]), (5, [2]), (2, [7, 2]), (10, [7, 2])):
            classes = range(len(lines))
            self.assertEqual(self.reasons(plan, period, *((0, 0, each) for each in classes)), lines)
            self.refused(11, plan.reason, period, 0, 0, len(lines))
        for period, free, classes in ((9, 2, 3), (6, 5, 6), (30, 2, 6), (12, 0, 12), (24, 11, 12)):
            self.refused(12, plan.reason, period, 0, 0, free)
            self.refused(11, plan.reason, period, 0, 0, classes)
        self.assertEqual(self.reasons(plan, 6, (0, 0, 0), (0, 0, 1)), [7, 2])
        self.assertEqual(self.reasons(plan, 12, (0, 0, 1), (0, 0, 6), (0, 0, 7)), [2, 7, 8])

    def test_checks_in_sequence(self):
        plan = self.opened("6@0", "12@1", "12@2")
        before = copy.copy(plan)
        for period in (0, 4096):
            for asked in ((0, 0, 0), (0, 0, 9), (1, 0, 0)):
                self.refused(2, plan.reason, period, *asked)
        # Line 1 stands at level 1 and offset 0, and line 2 at level 2 and offset 1.
        for period in (5, 12):
            for asked in ((1, 0, 0), (1, 3, 0), (0, 1, 9), (2, 1, 0), (11, 0, 0)):
                self.refused(10, plan.reason, period, *asked)
        self.assertEqual(self.reasons(plan, 5, (1, 1, 0), (1, 1, 2), (1, 1, LAST)), [None] * 3)
        self.refused(11, plan.reason, 12, 1, 1, 2)
        self.refused(11, plan.reason, 12, 0, 0, 7)
        self.refused(12, plan.reason, 12, 1, 1, 1)
        self.refused(12, plan.reason, 12, 0, 0, 3)
        self.assertEqual(plan, before)

    def test_wide_numbers(self):
        plan = self.opened("4@0", "6@1", "8@2")
        # Cut to 16 or 32 bits they would be 0, 1 and 2.
        for wide in (2**16, 2**32, 2**63):
            self.refused(2, plan.reason, wide + 2, 0, 0, 0)
            for asked in ((wide, 0, 0), (wide + 1, 0, 0), (0, wide, 0), (1, wide + 1, 0)):
                self.refused(10, plan.reason, 2, *asked)
            self.refused(11, plan.reason, 2, 0, 0, wide)
            self.refused(11, plan.reason, 2, 0, 0, wide + 1)
        self.refused(2, plan.reason, LAST, 0, 0, 0)
        self.refused(10, plan.reason, 2, LAST, 0, 0)
        self.refused(10, plan.reason, 2, 0, LAST, 0)
        self.refused(11, plan.reason, 2, 0, 0, LAST)

    def test_the_smallest_plans(self):
        emptied = self.opened("4@0")
        emptied.close(1)
        for plan in (Plan(), emptied):
            self.refused(10, plan.reason, 4, 0, 0, 0)
        plan = self.opened("1@0")
        self.assertEqual([plan.reason(period, 0, 0, 0).line for period in (1, 4095)], [1, 1])
        self.refused(11, plan.reason, 4095, 0, 0, 1)
        self.refused(10, plan.reason, 4095, 1, 0, 0)

    def test_a_deep_plan(self):
        plan = self.opened(*(f"{2**power}@{2**(power - 1) - 1}" for power in range(1, 12)))
        self.assertEqual(self.reasons(plan, 1024, (10, 1023, 0), (9, 511, 0), (9, 511, 1)), [11, 10, 11])
        self.assertEqual(self.reasons(plan, 512, (10, 1023, 0)), [None])
        self.refused(12, plan.reason, 2048, 10, 1023, 1)
        self.refused(10, plan.reason, 2048, 11, 1023, 0)

    def test_texts(self):
        self.assertEqual(str(Reason(line=4)), "line 4 stands in the class")
        self.assertEqual(str(Reason(line=None)), "the node's step does not divide the period")

    def nodes(self, plan):
        """Step and weight of each node of a plan, by level and offset."""
        nodes = {}
        for line, *_ in plan.lines():
            step, offset = 1, 0
            for level, row in enumerate(row for row in plan.show(line).path if row.weight):
                nodes[level, offset] = (step, row.weight)
                step, offset = step * row.weight, offset + row.edge * step
        return nodes

    def free_classes(self, plan, period):
        """How many classes of nodes have no reason; each other one has the line that the starts tell.

        The edges of a class lead to the rounds that leave its first one when they are divided by step times d.
        """
        lines, free = plan.lines(), 0
        for (level, offset), (step, weight) in self.nodes(plan).items():
            if period % step:
                self.assertEqual(self.reasons(plan, period, (level, offset, 0)), [None])
                continue
            d = math.gcd(weight, period // step)
            for first, edge_class in zip(range(offset, offset + step * d, step), range(d)):
                within = [it.line for it in lines if it.start % (step * d) == first]
                if within:
                    self.assertEqual(self.reasons(plan, period, (level, offset, edge_class)), within[:1])
                else:
                    self.refused(12, plan.reason, period, level, offset, edge_class)
                    free += 1
            self.refused(11, plan.reason, period, level, offset, d)
        return free

    def test_each_class_of_each_node(self):
        seen = set()
        for periods in (("4@0", "6@1", "8@2", "12@3"), ("60@0", "60@1", "90@2", "60@3"), ("5@0", "35@1")):
            plan = self.opened(*periods)
            for period in range(1, 150):
                free = self.free_classes(plan, period)
                seen.add(free > 0)
                if free:
                    copy.copy(plan).open(63, period)
                else:
                    self.refused(5, plan.open, 63, period)
        self.assertEqual(seen, {False, True})


class Turns(Case):
    def test_from_a_first_round_on(self):
        plan = self.opened("4@0", "6@1", "8@2", "12@3")
        # Line 4 owns rounds 3, 15, 27 .. 87, 99.
        self.assertEqual([plan.turns(4, 0, rounds) for rounds in (0, 3, 4, 99, 100)], [0, 0, 1, 8, 9])
        self.assertEqual([plan.turns(4, 4, rounds) for rounds in (0, 11, 12, 23, 24)], [0, 0, 1, 1, 2])
        # 2**64 divided by 12 leaves 4, so it owns 2**64 - 1 and then 2**64 + 11.
        self.assertEqual([plan.turns(4, LAST, rounds) for rounds in (0, 1, 12, 13)], [0, 1, 1, 2])

    def test_round_by_round(self):
        plan = self.opened("4@0", "6@1", "8@2", "12@3")
        for line, (period, start) in enumerate(((4, 0), (6, 1), (8, 2), (12, 3)), 1):
            for first in (0, start + 1, 2**32, LAST - 20, LAST):
                for rounds in range(50):
                    owned = sum(round % period == start for round in range(first, first + rounds))
                    self.assertEqual(plan.turns(line, first, rounds), owned)


class Rests(Case):
    def walked(self, plan, round):
        """The owner of a round, which a walker hands on."""
        owner, walker = plan.owner(round), Walker(round, 70)
        self.assertEqual(walker.walk(plan), owner)
        self.assertEqual((walker.next, walker.owned), (round + 1, 70 if owner.line is None else 71))
        return owner

    def test_case_a(self):
        plan = self.opened("4@0", "6@1", "8@2", "12@3")
        # Of 24 rounds; 0 where one is owned. The next owned ones are 7, 10, 12, 15, 18 and 24.
        rests = [0, 0, 0, 0, 0, 2, 1, 0, 0, 1, 0, 1, 0, 0, 1, 0, 0, 1, 0, 0, 0, 3, 2, 1]
        self.assertEqual(plan.owner(9), Owner(line=None, rest=1))
        # 2**64 divided by 24 leaves 16, so that the last round asked, 2**64 - 2, leaves 14.
        for round in (*range(48), *range(LAST - 24, LAST)):
            self.assertEqual(self.walked(plan, round).rest, rests[round % 24] or None)

    def test_the_empty_plan(self):
        emptied = self.opened("4@0")
        emptied.close(1)
        for plan in (Plan(), emptied):
            self.assertEqual([plan.owner(round) for round in (0, 1, LAST)], [Owner(line=None, rest=0)] * 3)
            self.assertEqual(self.walked(plan, 1), (None, 0))

    def test_the_longest(self):
        plan = self.opened("4095@0")
        rounds = (0, 1, 4094, 4095)
        self.assertEqual([self.walked(plan, round).rest for round in rounds], [None, 4094, 1, None])
        # 2**12 divided by 4,095 leaves 1, so 2**64 leaves 16: the line owns 2**64 - 16, and then 2**64 + 4079.
        rounds = (LAST - 15, LAST - 14, LAST - 1)
        self.assertEqual([self.walked(plan, round).rest for round in rounds], [None, 4094, 4081])
        self.assertEqual(plan.owner(LAST), (None, 4080))

    def test_a_close_makes_rests_longer(self):
        plan = self.opened("4@0", "6@1", "8@2", "12@3")
        plan.close(3)
        # Round 10 was line 3's, and 12 is the next owned one now.
        self.assertEqual([plan.owner(round).rest for round in (8, 9, 10, 11, 12)], [None, 3, 2, 1, None])

    def test_until_the_next_owned_round(self):
        for periods in (("4@0",), ("6@0", "12@1", "12@2"), ("5@0", "35@1"), ("2@0", "1024@1")):
            plan = self.opened(*periods)
            owners = [plan.owner(round) for round in range(5000)]
            owned = [round for round, owner in enumerate(owners) if owner.rest is None]
            lines = plan.lines()
            fitting = [round for round in range(5000) if any(round % it.period == it.start for it in lines)]
            self.assertEqual(owned, fitting)
            for before, after in zip(owned, owned[1:]):
                rests = [owner.rest for owner in owners[before + 1 : after]]
                self.assertEqual(rests, list(range(after - before - 1, 0, -1)))


class Sheets(Case):
    def sheet(self, plan, first, rounds):
        """A sheet, which adds up and has the turns of each line alone; the plan stays as found."""
        before = copy.copy(plan)
        sheet = plan.sheet(first, rounds)
        self.assertEqual(plan, before)
        self.assertEqual(sheet.total, rounds)
        lines = [line for line, *_ in plan.lines()]
        turns = [plan.turns(line, first, rounds) if line in lines else 0 for line in range(64)]
        self.assertEqual(sheet.turns, tuple(turns))
        return sheet

    def figures(self, plan, first, rounds):
        """The turns of lines 1 to 4 and the idle rounds."""
        sheet = self.sheet(plan, first, rounds)
        return (*sheet.turns[1:5], sheet.idle)

    def counted(self, plan, first, rounds):
        """A sheet of rounds below 2**64, counted with the owner call."""
        owners = [plan.owner(round).line for round in range(first, first + rounds)]
        return tuple(owners.count(line) for line in range(64)), owners.count(None)

    def test_case_a(self):
        plan = self.opened("4@0", "6@1", "8@2", "12@3")
        # Of 24 rounds line 1 owns 0, 4 .. 20, line 2 owns 1, 7, 13 and 19, line 3 owns 2, 10 and 18, and line 4 owns 3
        # and 15.
        self.assertEqual(self.sheet(plan, 0, 24), Sheet(turns=(0, 6, 4, 3, 2) + (0,) * 59, idle=9))
        self.assertEqual(self.figures(plan, 17, 24), (6, 4, 3, 2, 9))
        # Lines 2, 1 and 3 own 7, 8 and 10.
        self.assertEqual(self.figures(plan, 5, 7), (1, 1, 1, 0, 4))
        # 4 times 24 rounds, and 1096 to 1099, which leave 16 to 19 when they are divided by 24.
        self.assertEqual(self.figures(plan, 1000, 100), (25, 17, 13, 8, 37))
        self.assertEqual(self.figures(plan, 3, 0), (0, 0, 0, 0, 0))
        plan.close(3)
        self.assertEqual(self.figures(plan, 0, 24), (6, 4, 0, 2, 12))

    def test_past_64_bits(self):
        plan = self.opened("4@0", "6@1", "8@2", "12@3")
        # 2**64 divided by 24 leaves 16: 2**64 - 1 is line 4's, and 2**64, 2**64 + 2, 2**64 + 3, 2**64 + 4 and 2**64 + 8
        # are those of lines 1, 3, 2, 1 and 1.
        self.assertEqual(self.figures(plan, LAST, 0), (0, 0, 0, 0, 0))
        self.assertEqual(self.figures(plan, LAST, 1), (0, 0, 0, 1, 0))
        self.assertEqual(self.figures(plan, LAST, 10), (3, 1, 1, 1, 4))
        # 2730 times 24 rounds, and 15 that leave 15 to 23 and 0 to 5.
        self.assertEqual(self.figures(plan, LAST, MOST), (16384, 10922, 8192, 5462, 24575))

    def test_one_line_and_none(self):
        emptied = self.opened("4@0")
        emptied.close(1)
        for first in (0, 2**32, LAST):
            for rounds in (0, 1, 7, MOST):
                self.assertEqual(self.figures(self.opened("1@0"), first, rounds), (rounds, 0, 0, 0, 0))
                for plan in (Plan(), emptied):
                    self.assertEqual(self.sheet(plan, first, rounds), ((0,) * 64, rounds))
        # 2**64 divided by 4,095 leaves 16, and 65,535 is 4095 * 16 + 15.
        longest = self.opened("4095@0")
        self.assertEqual(self.figures(longest, LAST - 15, MOST), (17, 0, 0, 0, MOST - 17))
        self.assertEqual(self.figures(longest, LAST - 14, MOST), (16, 0, 0, 0, MOST - 16))

    def test_the_first_line_and_the_last(self):
        plan = Plan()
        self.assertEqual((plan.open(0, 2), plan.open(63, 6)), (0, 1))
        # Of 12 rounds 0, 2 .. 10 are line 0's, and 1 and 7 are line 63's.
        self.assertEqual(self.sheet(plan, 0, 12), ((6,) + (0,) * 62 + (2,), 4))

    def drawn_order(self, drawing):
        """An open or a close, which can be refused."""
        kind = drawing.choice((KIND_OPEN, KIND_OPEN, KIND_CLOSE))
        period = drawing.choice((6, 8, 12, 24, 35, 96, 4032, 4095)) if kind == KIND_OPEN else 0
        return gaplinte.pack(kind, drawing.choice((0, 1, 2, 31, 62, 63)), period)

    def test_after_each_step(self):
        drawing, seen = random.Random(1), set()
        for _ in range(20):
            plan = Plan()
            for _ in range(30):
                order = self.drawn_order(drawing)
                answer, = plan.run_list(order)
                seen.add((gaplinte.read(order).kind, answer.result))
                first = drawing.choice((0, drawing.randrange(2**64 - 200), LAST - 200))
                self.assertEqual(self.sheet(plan, first, 200), self.counted(plan, first, 200))
                self.sheet(plan, LAST - drawing.randrange(300), drawing.randrange(2**16))
        self.assertEqual(seen, {(KIND_OPEN, 0), (KIND_OPEN, 3), (KIND_OPEN, 5), (KIND_CLOSE, 0), (KIND_CLOSE, 4)})


class Lists(Case):
    def test_opens_and_closes_are_told_apart(self):
        orders = [(KIND_OPEN, 1, 6), (KIND_CLOSE, 1), (KIND_CLOSE, 1), (KIND_OPEN, 1, 0)]
        orders = b"".join(gaplinte.pack(*order) for order in orders) + b"\0\0\1"
        answers = [(0, 0), (0, None), (4, None), (2, None), (6, None)]
        self.assertEqual(Plan().run_list(orders), answers)
        self.assertEqual(Plan().run_list(bytearray(orders)), answers)
        self.assertEqual(Plan().run_list(orders)[0], Answer(result=0, start=0))

    def test_starts_of_12_bits(self):
        plan = Plan()
        orders = b"".join(gaplinte.pack(KIND_OPEN, power, 2**power) for power in range(1, 12))
        starts = [answer.start for answer in plan.run_list(orders)]
        self.assertEqual(starts, [2 ** (power - 1) - 1 for power in range(1, 12)])

    def test_shortest_and_longest(self):
        plan = Plan()
        self.assertEqual(plan.run_list(b""), [])
        self.assertEqual(plan, Plan())
        answers = plan.run_list(gaplinte.pack(KIND_OPEN, 1, 8) * 21845)
        self.assertEqual(answers, [(0, 0)] + [(3, None)] * 21844)
        self.assertRaises(TypeError, plan.run_list, 3)


class Images(Case):
    # The paths have 2, 2, 3 and 3 rows: 7 + 4 * 10 + 10 * 24 bits are 287, and one more fills 36 bytes.
    CASE_A = bytes.fromhex(
        "08 09 00 10 00 00 10 00 04 40 04 00 20 06 00 01 98 01"
        "00 00 01 00 08 01 00 00 86 00 40 02 00 60 02 00 40 00"
    )

    def case_a(self):
        return self.opened("4@0", "6@1", "8@2", "12@3")

    def not_read(self, number, image):
        """Bytes that are no image, to a plan with lines, which stays as found, and to a new one."""
        plan = self.case_a()
        self.refused(number, plan.read_image, image)
        self.assertEqual(plan, self.case_a())
        self.refused(number, Plan.from_image, image)

    def test_there_and_back(self):
        paths = (1, (2, 0), (2, 0)), (2, (2, 1), (3, 0)), (3, (2, 0), (2, 1), (2, 0)), (4, (2, 1), (3, 1), (2, 0))
        self.assertEqual(image(*paths), self.CASE_A)
        powers = [f"{2**power}@{2**(power - 1) - 1}" for power in range(1, 12)]
        deep = [(power, *[(2, 1)] * (power - 1), (2, 0)) for power in range(1, 12)]
        for plan, written in (
            (Plan(), b"\0"),
            (self.case_a(), self.CASE_A),
            (self.opened("1@0"), image((1, (1, 0)))),
            (self.opened("6@0", "12@1", "12@2"), image((1, (6, 0)), (2, (6, 1), (2, 0)), (3, (6, 2), (2, 0)))),
            (self.opened(*powers), image(*deep)),
        ):
            self.assertEqual(plan.to_image(), written)
            for lent in (written, bytearray(written), memoryview(written)):
                self.assertEqual(Plan.from_image(lent), plan)
            other = self.opened("7@0", "7@1")
            self.assertIsNone(other.read_image(written))
            self.assertEqual(other, plan)

    def test_bookings_go_on(self):
        plan = Plan.from_image(self.CASE_A)
        self.refused(3, plan.open, 4, 12)
        self.refused(5, plan.open, 5, 2)
        # The node with offset 1 and step 2 has its edge 2 free.
        self.assertEqual(plan.open(5, 24), 5)
        self.assertEqual(plan.owner(29), (5, None))
        plan.close(5)
        self.assertEqual(plan.to_image(), self.CASE_A)
        # The root is joined.
        plan.close(4)
        plan.close(2)
        self.assertEqual(plan.to_image(), image((1, (4, 0)), (3, (4, 2), (2, 0))))

    def test_lent_buffers(self):
        for plan, written in (Plan(), b"\0"), (self.case_a(), self.CASE_A):
            length = len(written)
            for room in range(length):
                buffer = bytearray(b"\xee" * room)
                self.refused(8, plan.write_image, buffer)
                self.assertEqual(buffer, b"\xee" * room)
            for more in (0, 1, 9, 70000):
                buffer = bytearray(b"\xee" * (length + more))
                self.assertEqual(plan.write_image(buffer), length)
                self.assertEqual(buffer, written + b"\xee" * more)

    def test_what_can_be_lent(self):
        plan = self.case_a()
        buffer = bytearray(40)
        self.assertEqual(plan.write_image(memoryview(buffer)[2:38]), 36)
        self.assertEqual(buffer, b"\0\0" + self.CASE_A + b"\0\0")
        numbers = array.array("H", [0] * 18)
        self.assertEqual(plan.write_image(numbers), 36)
        self.assertEqual(numbers.tobytes(), self.CASE_A)
        for wrong in (bytes(40), memoryview(bytes(40)), memoryview(bytearray(80))[::2], 40, "", None):
            self.assertRaises(TypeError, plan.write_image, wrong)
        for wrong in (1, "\0", None):
            self.assertRaises(TypeError, plan.read_image, wrong)
            self.assertRaises(TypeError, Plan.from_image, wrong)
        self.assertEqual(plan, self.case_a())

    def test_a_buffer_is_given_back(self):
        buffer = bytearray()
        try:
            self.case_a().write_image(buffer)
        except Refused as refused:
            self.assertEqual(refused.number, 8)
            buffer.extend(bytes(36))
        self.assertEqual(self.case_a().write_image(buffer), 36)
        buffer.clear()

    def test_fields_cut_off(self):
        for length in range(36):
            self.not_read(13, self.CASE_A[:length])
        # 64 lines; a bit of the line; three bits of a length of 14 or more, and seven bits of a weight
        for written in (b"\x80", b"\x03", b"\x02\x07", b"\x02\x00\x80"):
            self.not_read(13, written)

    def test_fields_out_of_range(self):
        path = (7, 3), (6, 5)
        row = (12, 2), (12, 1)
        for fields in (
            *([(7, count)] for count in (65, 66, 127)),
            *([*path, (4, length)] for length in (0, 12, 13, 14, 15)),
            [*path, (4, 1), (12, 0)],
            [*path, (4, 11), *row * 10, (12, 0)],
            [*path, (4, 1), *row, (6, 5), (4, 0)],
        ):
            for more in (b"", b"\0" * 40, b"\xff" * 40):
                self.not_read(14, packed(*fields) + more)

    def test_behind_the_last_field(self):
        illegal = image((5, (2, 2)))
        for written in (b"\0", b"\1", self.CASE_A, illegal):
            for more in (b"\0", b"\1", b"\xff", written):
                self.not_read(13, written + more)
        self.not_read(14, b"\1")
        self.not_read(14, self.CASE_A[:-1] + b"\1")
        # Seven bits are left behind the last field.
        legal = image((5, (2, 1)))
        for bit in range(7):
            self.not_read(14, legal[:-1] + bytes([legal[-1] | 1 << bit]))

    def test_illegal_trees(self):
        for paths in (
            # an edge that is not below its weight
            [(5, (2, 2))],
            [(5, (4095, 4095))],
            [(5, (2, 1), (3, 3))],
            # a period above 4,095: 4,096, 65,536 + 5 and 2**32 + 4, and the largest of all
            [(5, (2, 0), (2048, 0))],
            [(5, (3121, 0), (21, 0))],
            [(5, (2642, 0), (2501, 0), (650, 0))],
            [(5, *[(4095, 0)] * 11)],
            # a weight of 1 that is not alone, or not above edge 0
            [(5, (1, 1))],
            [(5, (1, 0), (2, 0))],
            [(5, (2, 0), (1, 0))],
            [(5, (1, 0)), (6, (1, 0))],
            # two weights at one place
            [(5, (2, 0)), (6, (3, 1))],
            [(5, (2, 0), (2, 0)), (6, (2, 0), (3, 1))],
            # a line on another's way, or at its place
            [(5, (2, 0)), (6, (2, 0), (2, 1))],
            [(5, (2, 0), (2, 1)), (6, (2, 0))],
            [(5, (2, 0)), (6, (2, 0))],
            # line numbers that fall or are equal
            [(6, (2, 0)), (5, (2, 1))],
            [(5, (2, 0)), (5, (2, 1))],
        ):
            self.not_read(14, image(*paths))

    def test_the_longest(self):
        # 64 lines, each under 11 nodes of weight 2. Its edges are the bits of its number, the least first, over and
        # over.
        bits = [[line >> level % 6 & 1 for level in range(11)] for line in range(64)]
        written = image(*((line, *((2, bit) for bit in bits[line])) for line in range(64)))
        self.assertEqual(len(written), 2193)
        plan = Plan.from_image(written)
        self.assertTrue(plan.is_tree())
        self.assertEqual([row.edge for row in plan.show(62).path], bits[62])
        self.assertEqual(plan.to_image(), written)
        self.not_read(13, written[:-1])
        self.not_read(13, written + b"\0")
        self.not_read(14, b"\x82" + written[1:])

    def test_each_tree_has_its_image(self):
        drawing = random.Random(2)
        plans = [Plan() for _ in range(300)]
        for plan in plans:
            for _ in range(drawing.randrange(8)):
                line, period = drawing.randrange(2), drawing.randrange(1, 5)
                orders = gaplinte.pack(KIND_OPEN, line, period), gaplinte.pack(KIND_CLOSE, line)
                plan.run_list(drawing.choice(orders))
        pairs = {(plan.to_image(), bytes(plan)) for plan in plans}
        self.assertLess(len(pairs), len(plans))
        self.assertEqual(len({written for written, _ in pairs}), len(pairs))
        self.assertEqual(len({record for _, record in pairs}), len(pairs))
        for written, record in pairs:
            self.assertEqual(bytes(Plan.from_image(written)), record)


class Weaves(Case):
    def side(self, line, *periods):
        """Opens lines from this one on, with periods p@s."""
        plan = Plan()
        for line, text in enumerate(periods, line):
            period, start = text.split("@")
            self.assertEqual(plan.open(line, int(period)), int(start))
        return plan

    def woven(self, one, other, *paths):
        """What two plans are woven to, with these paths, each a line and the rows above it; both stay as found."""
        before = copy.copy(one), copy.copy(other)
        woven = one.weave(other)
        self.assertEqual((one, other), before)
        self.assertEqual(woven.to_image(), image(*paths))
        # Rounds of the two plans become even and odd ones, the last of all an odd one.
        for round in (*range(100), *range(2**63 - 100, 2**63)):
            owners = woven.owner(2 * round).line, woven.owner(2 * round + 1).line
            self.assertEqual(owners, (one.owner(round).line, other.owner(round).line))
        return woven

    def not_woven(self, number, one, other):
        """On either side."""
        before = copy.copy(one), copy.copy(other)
        self.refused(number, one.weave, other)
        self.refused(number, other.weave, one)
        self.assertEqual((one, other), before)

    def test_two_plans(self):
        one, other = self.side(1, "4@0", "6@1", "8@2", "12@3"), self.side(5, "6@0", "12@1", "12@2")
        woven = self.woven(
            one,
            other,
            (1, (2, 0), (2, 0), (2, 0)),
            (2, (2, 0), (2, 1), (3, 0)),
            (3, (2, 0), (2, 0), (2, 1), (2, 0)),
            (4, (2, 0), (2, 1), (3, 1), (2, 0)),
            (5, (2, 1), (6, 0)),
            (6, (2, 1), (6, 1), (2, 0)),
            (7, (2, 1), (6, 2), (2, 0)),
        )
        lines = [(1, 8, 0), (2, 12, 2), (3, 16, 4), (4, 24, 6), (5, 12, 1), (6, 24, 3), (7, 24, 5)]
        self.assertEqual(woven.lines(), lines)

    def test_rests(self):
        # Line 1 has the rounds 0, 8, 16 .. and line 2 has 1, 7, 13, 19 .., which begin anew after 24.
        woven = self.side(1, "4@0").weave(self.side(2, "3@0"))
        rests = [0, 0, 5, 4, 3, 2, 1, 0, 0, 4, 3, 2, 1, 0, 2, 1, 0, 2, 1, 0, 4, 3, 2, 1]
        self.assertEqual([woven.owner(round).rest or 0 for round in range(48)], rests * 2)
        # 2**64 divided by 24 leaves 16.
        self.assertEqual([woven.owner(LAST - back).rest for back in (0, 1, 2)], [1, 2, None])

    def test_sides_without_nodes(self):
        empty, plan = Plan(), self.side(1, "4@0", "4@1")
        self.woven(plan, empty, (1, (2, 0), (4, 0)), (2, (2, 0), (4, 1)))
        self.woven(empty, plan, (1, (2, 1), (4, 0)), (2, (2, 1), (4, 1)))
        self.assertEqual(self.woven(empty, empty), Plan())
        every, other = self.side(63, "1@0"), self.side(0, "1@0")
        self.woven(every, empty, (63, (2, 0)))
        self.woven(empty, every, (63, (2, 1)))
        self.woven(every, plan, (1, (2, 1), (4, 0)), (2, (2, 1), (4, 1)), (63, (2, 0)))
        full = self.woven(every, other, (0, (2, 1)), (63, (2, 0)))
        self.refused(5, full.open, 1, 2)

    def test_a_line_open_in_both(self):
        for line in range(64):
            plan = self.side(line, "4@0")
            self.not_woven(15, plan, plan)
            for other in (self.side(line, "1@0"), self.side(line, "4095@0"), self.side(max(line - 1, 0), "5@0", "5@1")):
                self.not_woven(15, plan, other)

    def test_doubled_periods(self):
        for period in (2048, 2049, 4095):
            for other in (Plan(), self.side(6, "1@0"), self.side(0, "7@0", "7@1")):
                self.not_woven(16, self.side(5, f"{period}@0"), other)
        longest = self.side(5, "2047@0", "2047@1")
        self.woven(longest, Plan(), (5, (2, 0), (2047, 0)), (6, (2, 0), (2047, 1)))
        self.woven(Plan(), longest, (5, (2, 1), (2047, 0)), (6, (2, 1), (2047, 1)))

    def test_eleven_nodes(self):
        plan = self.side(5, "1@0")
        for times in range(1, 12):
            plan = self.woven(Plan(), plan, (5, *[(2, 1)] * times))
        self.assertEqual(plan.lines(), [(5, 2048, 2047)])
        self.not_woven(16, plan, Plan())

    def test_bookings_go_on(self):
        # The node above line 3 has step 2 and offset 1, the one above line 2 has step 4 and offset 2.
        plan = self.side(1, "4@0", "6@1").weave(self.side(3, "3@0", "3@1"))
        before = copy.copy(plan)
        self.refused(3, plan.open, 2, 12)
        self.refused(5, plan.open, 5, 2)
        self.assertEqual([plan.open(line, 12) for line in (5, 6)], [5, 6])
        plan.close(5)
        plan.close(6)
        self.assertEqual(plan, before)
        plan.close(2)
        plan.close(1)
        # The root is joined with the node of the other side.
        self.assertEqual(plan.to_image(), image((3, (6, 1)), (4, (6, 3))))

    def test_woven_again(self):
        one, two, three = (self.side(line, "1@0") for line in (1, 2, 3))
        woven = one.weave(two)
        self.woven(woven, three, (1, (2, 0), (2, 0)), (2, (2, 0), (2, 1)), (3, (2, 1)))
        self.woven(three, woven, (1, (2, 1), (2, 0)), (2, (2, 1), (2, 1)), (3, (2, 0)))
        self.not_woven(15, woven, two)


class Orders(Case):
    def test_there_and_back(self):
        self.assertEqual(gaplinte.pack(KIND_OPEN, 3, 291), b"\x03\x12\x30")
        self.assertEqual(gaplinte.read(b"\x03\x12\x30"), Call(kind=KIND_OPEN, line=3, period=291))
        for line in range(64):
            for period in (0, 1, 15, 16, 255, 256, 4095):
                order = (line << 16 | period << 4).to_bytes(3, "big")
                self.assertEqual(gaplinte.pack(KIND_OPEN, line, period), order)
                self.assertEqual(gaplinte.read(order), (KIND_OPEN, line, period))
            order = bytes([0x40 | line, 0, 0])
            self.assertEqual(gaplinte.pack(KIND_CLOSE, line), order)
            self.assertEqual(gaplinte.read(order), (KIND_CLOSE, line, 0))

    def test_three_bytes(self):
        for order in (b"", b"\0\0", b"\0\0\0\0"):
            self.assertRaises(ValueError, gaplinte.read, order)
        self.assertRaises(TypeError, gaplinte.read, 3)


class Walks(Case):
    def test_owned_rounds_are_counted(self):
        plan = self.opened("4@0")
        walker = Walker()
        for round in range(100):
            self.assertEqual(walker.walk(plan), (None, 4 - round % 4) if round % 4 else (1, None))
            self.assertEqual((walker.next, walker.owned), (round + 1, round // 4 + 1))

    def test_at_the_end(self):
        plan = self.opened("4@0")
        for place in ((LAST, 0), (0, LAST), (LAST, LAST)):
            walker = Walker(*place)
            self.refused(9, walker.walk, plan)
            self.assertEqual((walker.next, walker.owned), place)
        walker = Walker(next=LAST - 3, owned=LAST - 1)
        self.assertEqual(walker.walk(plan), (1, None))
        self.assertEqual((walker.next, walker.owned), (LAST - 2, LAST))


class Threads(Case):
    def test_different_plans(self):
        def lists(plan, period, answers):
            orders = gaplinte.pack(KIND_OPEN, 1, period) + gaplinte.pack(KIND_OPEN, 2, 2 * period)
            orders += gaplinte.pack(KIND_CLOSE, 1)
            answers.extend(plan.run_list(orders * 500) for _ in range(20))

        plans, told = [Plan() for _ in range(4)], [[] for _ in range(4)]
        arguments = zip(plans, (4, 6, 8, 10), told)
        threads = [threading.Thread(target=lists, args=each) for each in arguments]
        for thread in threads:
            thread.start()
        for thread in threads:
            thread.join()
        for plan, period, answers in zip(plans, (4, 6, 8, 10), told):
            alone, expected = Plan(), []
            lists(alone, period, expected)
            self.assertEqual((plan, answers), (alone, expected))
            self.assertEqual(plan.lines(), alone.lines())


class Library(Case):
    def imported(self, library):
        """What an import prints, and where the library was found, with GAPLINTE_LIBRARY set."""
        program = "import gaplinte; print(gaplinte._library._name)"
        environment = {**os.environ, "GAPLINTE_LIBRARY": str(library), "PYTHONPATH": str(FOLDER)}
        return subprocess.run(
            [sys.executable, "-B", "-c", program], env=environment, capture_output=True, text=True
        )

    def test_path_by_the_environment(self):
        with tempfile.TemporaryDirectory() as folder:
            library = pathlib.Path(folder) / "other.so"
            missing = self.imported(library)
            self.assertNotEqual(missing.returncode, 0)
            self.assertIn("ImportError", missing.stderr)
            self.assertIn(str(library), missing.stderr)
            shutil.copy(gaplinte._library._name, library)
            self.assertEqual(self.imported(library).stdout, f"{library}\n")


if __name__ == "__main__":
    unittest.main()
