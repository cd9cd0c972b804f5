"""tests/guide: which lines of the guide are commands, and what they print."""
import importlib.machinery
import importlib.util
import pathlib
import tempfile
import unittest

PATH = pathlib.Path(__file__).resolve().parents[1] / "guide"
LOADER = importlib.machinery.SourceFileLoader("guide", str(PATH))
SPEC = importlib.util.spec_from_loader("guide", LOADER)
guide = importlib.util.module_from_spec(SPEC)
LOADER.exec_module(guide)

PAGE = """# A guide

    a line that is no command

Text:

    $ echo one; echo two >&2
    one
    two
    $ for n in 1 2; do
        echo $n; done
    1
    $ printf '%s\\n' a \\
        b
    $ cd / | cat
    $ x=7

More text.

    $ echo $x; pwd
    old
""".splitlines()


class GuideTest(unittest.TestCase):
    def test_commands_go_on_until_a_shell_has_all_of_them(self):
        first, second = [guide.commands(PAGE[start:end]) for start, end in guide.blocks(PAGE)]
        self.assertEqual(first, [(["$ echo one; echo two >&2"], ["one", "two"]), (["$ for n in 1 2; do", "    echo $n; done"], ["1"]),
                                 (["$ printf '%s\\n' a \\", "    b"], []), (["$ cd / | cat"], []), (["$ x=7"], [])])
        self.assertEqual(second, [(["$ echo $x; pwd"], ["old"])])

    def test_a_page_gets_what_is_printed(self):
        with tempfile.NamedTemporaryFile() as program:
            made = guide.with_printed(PAGE, program.name)
        self.assertEqual(made[:9], PAGE[:9])
        self.assertEqual(made[9:], ["    $ for n in 1 2; do", "        echo $n; done", "    1", "    2", "    $ printf '%s\\n' a \\", "        b", "    a", "    b",
                                    "    $ cd / | cat", "    $ x=7", "", "More text.", "", "    $ echo $x; pwd", "    7", "    /tmp/reels"])

    def test_commands_before_a_page_are_run_and_not_shown(self):
        with tempfile.NamedTemporaryFile() as program:
            made = guide.with_printed(["    $ echo $y", "    old"], program.name, ["y=8; echo of those before", "echo twice"])
        self.assertEqual(made, ["    $ echo $y", "    8"])

    def test_the_first_part_of_a_page_ends_at_a_heading(self):
        page = ["# A guide", "", "    $ echo 1", "### Small", "## One", "    $ echo 2"]
        self.assertEqual(guide.commands_of(guide.first_part(page)), ["echo 1"])
        self.assertEqual(guide.commands_of(guide.first_part(page[:4])), ["echo 1"])


if __name__ == "__main__":
    unittest.main()
