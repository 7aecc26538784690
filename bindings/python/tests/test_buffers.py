"""Lists cross by the buffer protocol: without a copy where they fit, with one where they do not, refused where they cannot."""

import mmap
import unittest
from array import array

from redstartgilt import Factor, Permutation, Refused, Requests, WholeFactor, lent
from redstartgilt._lists import lend, room, take

from .given import F2


def words(*items):
    return array("I", items)


class Lending(unittest.TestCase):
    """The calls on lent lists take buffers as they are or not at all."""

    def test_a_list_is_no_buffer(self):
        with self.assertRaisesRegex(TypeError, "orig_to_perm is no buffer: list"):
            lent.call("from_orig_to_perm", [0, 1], words(0, 0))

    def test_other_types_and_sizes(self):
        for bad in (array("H", [0]), array("Q", [0]), array("f", [0]), array("d", [0]), array("b", [0]), b"\0\0\0\0"):
            with self.assertRaisesRegex(TypeError, "integers of 32 bits are needed"):
                lent.call("from_orig_to_perm", bad, words(0))
        for bad in (array("f", [0]), array("q", [0]), array("Q", [0]), words(0)):
            with self.assertRaisesRegex(TypeError, "floats of 64 bits are needed"):
                lent.call("count_and_least", bad)
        for bad in (array("Q", [0]), array("d", [0]), array("i", [0])):
            with self.assertRaisesRegex(TypeError, "signed integers of 64 bits are needed"):
                lend("q", bad, "values")

    def test_strides_and_dimensions(self):
        with self.assertRaisesRegex(ValueError, "must be contiguous"):
            lent.call("count_and_least", memoryview(array("d", [1, 2, 3, 4]))[::2])
        with self.assertRaisesRegex(ValueError, "must be contiguous"):
            lent.call("count_and_least", memoryview(array("d", [1, 2]))[::-1])
        with self.assertRaisesRegex(ValueError, "has 2 dimensions"):
            lent.call("count_and_least", memoryview(bytes(32)).cast("d", (2, 2)))

    def test_a_buffer_that_is_not_aligned(self):
        shifted = memoryview(bytearray(33))[1:].cast("d")
        with self.assertRaisesRegex(ValueError, "not aligned"):
            lent.call("count_and_least", shifted)

    def test_read_only_buffers_are_read_and_not_written(self):
        fixed = memoryview(words(1, 0)).toreadonly()
        inverse = words(7, 7)
        self.assertEqual(lent.call("from_orig_to_perm", fixed, inverse), 0)
        self.assertEqual(inverse.tolist(), [1, 0])
        with self.assertRaisesRegex(TypeError, "perm_to_orig is read-only"):
            lent.call("from_orig_to_perm", inverse, fixed)
        self.assertEqual(fixed.tolist(), [1, 0])
        least = lent.call("count_and_least", memoryview(array("d", [3.0, -1.0]).tobytes()).cast("d"))
        self.assertEqual((least.num_negative, least.min_value), (1, -1.0))

    def test_overlaps(self):
        memory = words(0, 1, 2, 3)
        view = memoryview(memory)
        with self.assertRaisesRegex(ValueError, "overlaps another list"):
            lent.call("from_orig_to_perm", view[:2], view[1:3])
        with self.assertRaisesRegex(ValueError, "overlaps another list"):
            lent.call("from_orig_to_perm", memory, memory)
        self.assertEqual(lent.call("from_orig_to_perm", view[:2], view[2:]), 0)
        # Lists that are only read may be one.
        self.assertEqual(lent.call("validate", view[:2], view[:2]), 0)
        # One written to in the midst of a longer one that is read.
        longer = memoryview(words(*range(6)))
        with self.assertRaisesRegex(ValueError, "overlaps another list"):
            lent.call("read_requests", longer.cast("B"), longer[2:3], words(0))

    def test_numbers_are_not_cut(self):
        with self.assertRaisesRegex(OverflowError, "n is -1"):
            lent.call("check_factor", -1, words(0), words(), array("d"))
        with self.assertRaisesRegex(OverflowError, "n is 18446744073709551616"):
            lent.call("check_factor", 2**64, words(0), words(), array("d"))
        self.assertEqual(lent.call("check_factor", 2**64 - 1, words(0), words(), array("d")), 1)
        self.assertEqual(lent.call("check_factor", 2**32, words(0), words(), array("d")), 1)

    def test_the_number_of_arguments(self):
        with self.assertRaisesRegex(TypeError, "validate takes 2 arguments, and 1 were given"):
            lent.call("validate", words(0))

    def test_short_lists_are_refused_and_left_as_they_were(self):
        starts, rows, values = words(0, 2, 3), words(0, 1, 1), array("d", [1, 2, 1])
        result = [words(7, 7, 7), words(7, 7, 7), array("d", [7, 7, 7]), words(*[7] * 12)]
        for short in range(4):
            lists = [array(part.typecode, part) for part in result]
            lists[short].pop()
            before = [part.tolist() for part in lists]
            reply = lent.call(
                "selected_inverse_entries_with_limit",
                *(2, starts, rows, values, 2, words(0), words(0), 3, *lists),
            )
            self.assertEqual(reply.refusal, 7)
            self.assertEqual([part.tolist() for part in lists], before)

    def test_empty_buffers(self):
        self.assertEqual(lent.call("validate", words(), memoryview(b"").cast("I")), 0)


class Taking(unittest.TestCase):
    """The classes take buffers that fit without a copy, and anything else with one."""

    def test_what_fits_is_not_copied(self):
        for kind, fits in [("I", "I"), ("I", "i"), ("d", "d"), ("q", "q"), ("B", "B")]:
            memory = array(fits, [1, 2, 3])
            self.assertEqual(take(kind, memory, "list").address, memory.buffer_info()[0])
            self.assertNotEqual(take(kind, memory, "list", copy=True).address, memory.buffer_info()[0])
            fixed = memoryview(memory).toreadonly()
            self.assertEqual(take(kind, fixed, "list").address, memory.buffer_info()[0])

    def test_what_does_not_fit_is_converted(self):
        for other in (array("H", [1, 2]), array("Q", [1, 2]), array("b", [1, 2]), [1, 2], (1, 2), range(1, 3)):
            self.assertEqual(take("I", other, "list").view.tolist(), [1, 2])
        for other in (array("f", [1, 2]), array("i", [1, 2]), [1, 2.0], iter([1.0, True + 1])):
            self.assertEqual(take("d", other, "list").view.tolist(), [1.0, 2.0])
        for other in (array("i", [1, -2]), [1, -2.0], array("d", [1, -2])):
            self.assertEqual(take("q", other, "list").view.tolist(), [1, -2])
        strided = memoryview(array("d", [1, 2, 3, 4]))[::2]
        self.assertEqual(take("d", strided, "list").view.tolist(), [1.0, 3.0])
        shifted = memoryview(bytearray(17))[1:].cast("d")
        self.assertEqual(take("d", shifted, "list").view.tolist(), [0.0, 0.0])

    def test_what_is_no_number_is_an_error(self):
        for kind, bad in [
            ("I", [0.0]),
            ("I", ["1"]),
            ("I", "12"),
            ("d", ["1"]),
            ("d", "12"),
            ("d", [None]),
            ("d", [1j]),
        ]:
            with self.assertRaisesRegex(TypeError, "list"):
                take(kind, bad, "list")
        for kind, bad in [("q", [0.5]), ("q", [2**63]), ("q", [float("nan")]), ("d", [2**53 + 1])]:
            with self.assertRaisesRegex(ValueError, "list: "):
                take(kind, bad, "list")
        with self.assertRaisesRegex(OverflowError, "list: "):
            take("d", [10**400], "list")
        with self.assertRaisesRegex(ValueError, "list has 2 dimensions"):
            take("d", memoryview(bytes(32)).cast("d", (2, 2)), "list")

    def test_an_index_that_no_word_holds_is_refused_as_the_index_itself(self):
        for index in (-1, 2, 2**31, 2**32, 2**64, -(2**40)):
            with self.assertRaises(Refused) as refused:
                Factor(([0, 2, 3], [0, index, 1], [1.0, 2.0, 1.0]))
            self.assertEqual(refused.exception.number, 3)
            with self.assertRaises(Refused) as refused:
                Factor(F2).selected_inverse([(0, index)])
            self.assertEqual(refused.exception.number, 5)
            with self.assertRaises(Refused) as refused:
                Permutation(cell_to_place=[0, index])
            self.assertEqual(refused.exception.number, 10)
        with self.assertRaises(Refused) as refused:
            Factor((array("i", [0, -2, 3]), array("i", [0, 1, 1]), array("d", [1, 2, 1])))
        self.assertEqual(refused.exception.number, 2)

    def test_a_factor_sees_its_buffers_unless_it_copies(self):
        values = array("d", [1, 2, 1])
        lists = array("I", [0, 2, 3]), array("I", [0, 1, 1]), values
        shared, own = Factor(lists), Factor(lists, copy=True)
        values[1] = 3.0
        self.assertEqual(shared.variances().tolist(), [10.0, 1.0])
        self.assertEqual(own.variances().tolist(), [5.0, 1.0])
        # Each call checks the lists anew.
        lists[1][1] = 0
        with self.assertRaises(Refused) as refused:
            shared.variances()
        self.assertEqual(refused.exception.number, 3)
        lists[1][1] = 1
        values[1] = float("inf")
        with self.assertRaises(Refused) as refused:
            shared.selected_inverse([(0, 0)])
        self.assertEqual(refused.exception.number, 18)
        # A buffer that is in use cannot change its length.
        with self.assertRaises(BufferError):
            values.append(1.0)

    def test_lists_of_every_form_give_one_answer(self):
        starts, rows, values = F2
        for form in (list, tuple):
            self.assertEqual(Factor((form(starts), form(rows), form(values))).variances().tolist(), [5.0, 1.0])
        for kind in "iIqQhHbB":
            lists = array(kind, starts), array(kind, rows), array("f", values)
            self.assertEqual(Factor(lists).variances().tolist(), [5.0, 1.0])
        memory = mmap.mmap(-1, 24)
        memory[:] = array("d", values).tobytes()
        self.assertEqual(Factor((starts, rows, memoryview(memory).cast("d"))).variances().tolist(), [5.0, 1.0])

    def test_whole_numbers_stay_whole(self):
        big = 2**53 - 1
        inverse = WholeFactor(([0, 2, 3], [0, 1, 1], [1, 0, 1])).selected_inverse([(0, 0)])
        self.assertIsInstance(inverse[0, 0], int)
        with self.assertRaises(Refused) as refused:
            WholeFactor(([0, 2, 3], [0, 1, 1], array("q", [1, big, 1]))).selected_inverse([(0, 0)])
        self.assertEqual(refused.exception.number, 20)

    def test_requests_of_unequal_lists(self):
        with self.assertRaises(Refused) as refused:
            Factor(F2).selected_inverse(Requests(2, [0, 1], [0]))
        self.assertEqual(refused.exception.number, 4)
        with self.assertRaises(ValueError):
            Factor(F2).selected_inverse([(0, 1, 2)])

    def test_rooms_are_zero(self):
        for length in (0, 1, 5, 2**15):
            for kind in "IdqB":
                self.assertFalse(any(room(kind, length).view))


if __name__ == "__main__":
    unittest.main()
