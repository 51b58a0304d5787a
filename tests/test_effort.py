import os
import subprocess
import unittest

from tests import effort


class EffortTest(unittest.TestCase):
    def test_what_takes_more_than_is_allowed_is_noticed(self):
        with effort.soon(40):
            effort.fixed_work()
        with self.assertRaisesRegex(AssertionError, "times as long as a fixed piece of work, and 4 times are allowed"):
            with effort.soon(4):
                for _ in range(40):
                    effort.fixed_work()

    def test_a_process_that_was_waited_for_counts(self):
        before = effort.spent()
        subprocess.run(["sh", "-c", "n=0; while [ $n -lt 100000 ]; do n=$((n + 1)); done"], check=True)
        self.assertGreater(effort.spent() - before, effort.unit() / 10)

    def test_what_has_ended_does_not_run(self):
        self.assertTrue(effort.is_running(os.getpid()))
        with subprocess.Popen(["true"]) as job:
            effort.wait_until(lambda: not effort.is_running(job.pid))


if __name__ == "__main__":
    unittest.main()
