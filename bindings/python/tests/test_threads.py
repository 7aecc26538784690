"""Calls at once: many threads on one factor, each with a workspace of its own or none, and threads with small stacks."""

import sys
import threading
import time
import unittest
from concurrent.futures import ThreadPoolExecutor

from redstartgilt import STACK_BYTES, Factor, Workspace
from redstartgilt.workspace import in_use

from .given import random_triplets


def chain_factor(n):
    """2 on the diagonal, 1 below it."""
    return Factor.from_triplets(n, [(c, c, 2.0) for c in range(n)] + [(c + 1, c, 1.0) for c in range(n - 1)])


class Threads(unittest.TestCase):
    def setUp(self):
        self.factor = Factor.from_triplets(
            120, [(r, c, v / 4 if r != c else 1.5) for r, c, v in random_triplets(120, 1)]
        )
        self.pairs = [(cell, cell) for cell in range(0, 120, 7)]

    def test_one_factor_in_many_threads(self):
        variances, entries = self.factor.variances().tolist(), list(self.factor.selected_inverse(self.pairs))
        chain = self.factor.why(119, 60, self.pairs)
        start = threading.Barrier(4)

        def work(own):
            start.wait()
            workspace = Workspace() if own else None
            for _ in range(10):
                if self.factor.variances(workspace=workspace).tolist() != variances:
                    return "variances"
                if list(self.factor.selected_inverse(self.pairs, workspace=workspace)) != entries:
                    return "entries"
                if self.factor.why(119, 60, self.pairs, workspace=workspace) != chain:
                    return "chain"
            return "same"

        with ThreadPoolExecutor(4) as pool:
            self.assertEqual(list(pool.map(work, [True, True, False, False])), ["same"] * 4)

    def test_one_result_in_many_threads(self):
        found = self.factor.selected_inverse(self.pairs)
        expected = [found.get(row, column) for row in range(120) for column in range(0, 120, 11)]

        def work(_):
            return [found.get(row, column) for row in range(120) for column in range(0, 120, 11)]

        with ThreadPoolExecutor(4) as pool:
            self.assertEqual(list(pool.map(work, range(4))), [expected] * 4)

    def test_a_workspace_serves_one_call_at_a_time(self):
        workspace = Workspace()
        with in_use(workspace):
            with self.assertRaisesRegex(RuntimeError, "in use by another call"):
                self.factor.variances(workspace=workspace)
        # It is free again, also after a call that was refused.
        with self.assertRaises(ValueError):
            self.factor.selected_inverse([(120, 0)], workspace=workspace)
        self.assertEqual(len(self.factor.variances(workspace=workspace)), 120)

    def test_the_lock_is_released(self):
        """Another thread runs while a call does, and at no other time: the interpreter does not switch by itself."""
        self.addCleanup(sys.setswitchinterval, sys.getswitchinterval())
        factor, workspace = chain_factor(4_096), Workspace()
        # What makes memory releases the lock too, so it is made beforehand.
        factor.why(4_095, 4_095, [(0, 0)], workspace=workspace)
        go, ran = threading.Event(), []
        thread = threading.Thread(target=lambda: (go.wait(), ran.append(True)))
        thread.start()
        sys.setswitchinterval(60)
        go.set()
        self.assertEqual(ran, [])
        # On a busy machine the other thread may be late for a call.
        deadline = time.monotonic() + 20
        while not ran and time.monotonic() < deadline:
            self.assertEqual(len(factor.why(4_095, 4_095, [(0, 0)], workspace=workspace)), 8_191)
        after = list(ran)
        sys.setswitchinterval(0.005)
        thread.join()
        self.assertEqual(after, [True])

    def test_a_thread_with_a_small_stack(self):
        before = threading.stack_size(STACK_BYTES + 384 * 1024)
        self.addCleanup(threading.stack_size, before)
        factor = chain_factor(4_096)
        found = []
        thread = threading.Thread(target=lambda: found.extend(factor.variances()))
        thread.start()
        thread.join()
        self.assertEqual(found[-2:], [0.3125, 0.25])


if __name__ == "__main__":
    unittest.main()
