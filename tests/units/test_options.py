"""The words of the command line."""
import contextlib
import io
import unittest

from mend_reel.program.options import VERSION, read


class OptionsTest(unittest.TestCase):
    def refused(self, *words):
        """The status and the last line of a command line that is not understood."""
        printed = io.StringIO()
        with contextlib.redirect_stderr(printed), self.assertRaises(SystemExit) as ended:
            read(words)
        return ended.exception.code, printed.getvalue().splitlines()[-1]

    def test_out_comes_first_where_it_is_not_named(self):
        options = read(["--force", "out", "a", "--jobs", "2", "b"])
        self.assertEqual((options.out, options.is_named, options.copies, options.force, options.jobs), ("out", False, ("a", "b"), True, 2))

    def test_out_is_named(self):
        for words in (["-o", "out", "a", "b"], ["a", "-oout", "b"], ["a", "b", "--out", "out"], ["--out=out", "a", "b"]):
            options = read(words)
            self.assertEqual((options.out, options.is_named, options.copies), ("out", True, ("a", "b")))

    def test_names_after_two_hyphens_are_no_options(self):
        self.assertEqual(read(["-o", "out", "--", "a", "-b.mkv"]).copies, ("a", "-b.mkv"))
        self.assertEqual(read(["-o", "out", "--", "--", "--check"]).copies, ("--", "--check"))
        self.assertEqual((read(["--", "-out", "-a"]).out, read(["--", "-out", "-a"]).copies), ("-out", ("-a",)))
        self.assertEqual(read(["--check", "--", "-a"]).copies, ("-a",))

    def test_maps_are_of_copies(self):
        options = read(["-o", "out", "a", "a=b", "c", "--map", "a=b=x", "--map", "c=y=z", "--digest", "d"])
        self.assertEqual((options.maps, options.read()), ({1: "x", 2: "y=z"}, ["d", "x", "y=z"]))
        self.assertEqual(read(["--check", "a", "b", "--map", "b=x"]).maps, {1: "x"})

    def test_check_has_no_out(self):
        options = read(["--check", "a", "--report", "page"])
        self.assertEqual((options.out, options.copies, options.made()), (None, ("a",), ["page"]))
        self.assertEqual(read(["--check", "--digest", "sums", "a", "b"]).read(), ["sums"])

    def test_all_that_is_made(self):
        self.assertEqual(read(["out", "a", "--json", "j", "--report", "r"]).made(), ["out", "r", "j"])

    def test_words_that_are_wrong_are_named(self):
        for words, line in [
            ([], "the following arguments are required: OUT, COPY"),
            (["out"], "the following arguments are required: COPY"),
            (["--check"], "the following arguments are required: COPY"),
            (["--frce", "out", "a"], "unrecognized arguments: --frce"),
            (["--rep", "page", "out", "a"], "unrecognized arguments: --rep"),
            (["--jobs", "0", "out", "a"], "argument --jobs: 0 is less than 1"),
            (["--jobs", "two", "out", "a"], "argument --jobs: invalid number value: 'two'"),
            (["--check", "--keep", "x", "a"], "argument --keep: not allowed with argument --check"),
            (["out", "a", "--report"], "argument --report: expected one argument"),
            (["out", "a", "--report", "--"], "argument --report: expected one argument"),
            (["-o", "out"], "the following arguments are required: COPY"),
            (["-o", "", "a"], "a name is empty"),
            (["-o", "out", "a", ""], "a name is empty"),
            (["--check", "-o", "x", "a"], "argument -o: not allowed with argument --check"),
            (["--check", "--map", "b=x", "a"], "argument --map: b=x is not the name of a copy, =, and its map"),
            (["-o", "out", "a", "--map", "b=x"], "argument --map: b=x is not the name of a copy, =, and its map"),
            (["-o", "out", "a", "--map", "a="], "argument --map: a= is not the name of a copy, =, and its map"),
            (["-o", "out", "a", "--map", "a=x", "--map", "a=y"], "argument --map: a has two maps"),
        ]:
            with self.subTest(words=words):
                self.assertEqual(self.refused(*words), (2, f"mend-reel: error: {line}"))

    def test_version(self):
        printed = io.StringIO()
        with contextlib.redirect_stdout(printed), self.assertRaises(SystemExit) as ended:
            read(["--version"])
        self.assertEqual((ended.exception.code, printed.getvalue()), (0, f"mend-reel {VERSION}\n"))


if __name__ == "__main__":
    unittest.main()
