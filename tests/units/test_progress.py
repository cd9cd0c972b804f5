"""What is reported while the work is done."""
import io
import tempfile
import unittest
from unittest import mock

from mend_reel.model import Copy
from mend_reel.program.progress import Progress, clock


class Terminal(io.StringIO):
    def isatty(self):
        return True


class ProgressTest(unittest.TestCase):
    def shown(self, stream, quiet, steps):
        progress = Progress(quiet, stream)
        with mock.patch("time.monotonic", side_effect=[second for second, _ in steps]):
            progress.begin("reading")
            for _, done in steps[1:]:
                progress.at(done, 200)
        progress.end()
        return stream.getvalue()

    def test_terminal_shows_how_much_is_left(self):
        shown = self.shown(Terminal(), False, [(100.0, 0), (110.0, 50), (110.05, 60), (130.0, 150)])
        self.assertEqual(shown, "\r\033[Kreading: 25 %, 0:00:30 left\r\033[Kreading: 75 %, 0:00:10 left\r\033[K")

    def test_elsewhere_comes_a_line_a_minute(self):
        shown = self.shown(io.StringIO(), False, [(100.0, 0), (130.0, 50), (160.0, 100), (200.0, 150), (220.0, 200)])
        self.assertEqual(shown, "mend-reel: reading: 50 %, 0:01:00 left\nmend-reel: reading: 100 %, 0:00:00 left\n")

    def test_quiet_shows_nothing(self):
        self.assertEqual(self.shown(Terminal(), True, [(100.0, 0), (200.0, 50)]), "")

    def test_where_another_file_is_read_the_time_left_counts_anew(self):
        shown = self.shown(Terminal(), False, [(100.0, 0), (190.0, 180), (200.0, 0), (210.0, 50)])
        self.assertEqual(shown.split("\r\033[K")[1:4], ["reading: 90 %, 0:00:10 left", "reading: 0 %", "reading: 25 %, 0:00:30 left"])

    def test_copies_report_how_far_they_are_read(self):
        stream = Terminal()
        progress = Progress(False, stream)
        with tempfile.TemporaryFile() as file:
            file.write(bytes(1000))
            file.flush()
            copy = Copy("a", file.fileno(), 1000)
            progress.watch([copy])
            progress.begin("reading the copies")
            self.assertEqual(copy.read(250, 10), bytes(10))
        self.assertRegex(stream.getvalue(), r"reading the copies: 25 %, 0:00:00 left$")

    def test_nothing_done_has_no_time_left(self):
        self.assertEqual(self.shown(Terminal(), False, [(100.0, 0), (110.0, 0)]), "\r\033[Kreading: 0 %\r\033[K")

    def test_a_stream_that_takes_nothing_is_left_alone(self):
        class Closed(Terminal):
            writes = 0

            def write(self, text):
                self.writes += 1
                raise BrokenPipeError

        stream = Closed()
        self.shown(stream, False, [(100.0, 0), (110.0, 50), (130.0, 150)])
        self.assertEqual(stream.writes, 1)

    def test_clock(self):
        self.assertEqual([clock(0), clock(59.6), clock(3661)], ["0:00:00", "0:01:00", "1:01:01"])


if __name__ == "__main__":
    unittest.main()
