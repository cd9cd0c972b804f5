"""Work on several copies at a time."""
from __future__ import annotations

import threading
import unittest

from mend_reel.model import Fault
from mend_reel.engine.external_programs import of_each
from . import made  # noqa: F401, it finds the package


class Jobs(unittest.TestCase):
    def test_results_come_in_order(self) -> None:
        for jobs in (1, 2, 9):
            self.assertEqual(of_each(jobs, lambda item: item * item, range(5)), [0, 1, 4, 9, 16])
            self.assertEqual(of_each(jobs, str, []), [])

    def test_several_at_a_time(self) -> None:
        """Two wait for each other, which one after the other never would."""
        barrier = threading.Barrier(2, timeout=5)
        self.assertEqual(sorted(of_each(2, lambda _: barrier.wait(), "ab")), [0, 1])

    def test_a_fault_ends_the_work(self) -> None:
        def work(item: int) -> None:
            raise Fault(str(item))

        for jobs in (1, 2):
            with self.assertRaisesRegex(Fault, "0"):
                of_each(jobs, work, range(5))


if __name__ == "__main__":
    unittest.main()
