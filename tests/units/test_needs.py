"""tests/needs: what the gate needs is looked for before it begins."""
import os
import pathlib
import subprocess
import tempfile
import unittest

NEEDS = pathlib.Path(__file__).resolve().parents[1] / "needs"
# A stand-in for apt-get that makes the commands of FFmpeg, and for id, which says that it is root.
INSTALLS = '#!/bin/sh\nfor name in ffmpeg ffprobe; do ln -sf /bin/true "$(dirname "$0")/$name"; done\n'
ROOT, SOMEONE = "#!/bin/sh\necho 0\n", "#!/bin/sh\necho 1000\n"


class Machine:
    """A folder of all commands but those that begin with `ff`, and apt-get."""

    def __init__(self, folder):
        self.folder = pathlib.Path(folder)
        for path in reversed(os.environ["PATH"].split(os.pathsep)):
            for command in os.scandir(path) if os.path.isdir(path) else ():
                self.link(command)
        self.command("rt", "#!/bin/sh\n")

    def link(self, command):
        at = self.folder / command.name
        if not command.name.startswith("ff") and command.name not in ("apt-get", "id"):
            at.unlink(missing_ok=True)
            at.symlink_to(command.path)

    def command(self, name, text):
        (self.folder / name).unlink(missing_ok=True)
        (self.folder / name).write_text(text)
        (self.folder / name).chmod(0o755)

    def run(self):
        return subprocess.run([NEEDS], env={**os.environ, "PATH": str(self.folder)}, capture_output=True, text=True)


class Needs(unittest.TestCase):
    def setUp(self):
        self.folder = tempfile.TemporaryDirectory()
        self.addCleanup(self.folder.cleanup)
        self.machine = Machine(self.folder.name)

    def test_what_is_missing_is_named_in_one_line(self):
        self.machine.command("id", SOMEONE)
        self.machine.command("apt-get", INSTALLS)
        ran = self.machine.run()
        self.assertEqual((ran.returncode, ran.stdout), (1, ""))
        self.assertEqual(ran.stderr, "install what is missing, as by: sudo apt-get install ffmpeg\n")

    def test_what_is_missing_is_installed_where_it_may(self):
        self.machine.command("id", ROOT)
        self.machine.command("apt-get", INSTALLS)
        ran = self.machine.run()
        self.assertEqual((ran.returncode, ran.stdout, ran.stderr), (0, "installs ffmpeg\n", ""))

    def test_an_install_that_fails_is_no_success(self):
        self.machine.command("id", ROOT)
        self.machine.command("apt-get", "#!/bin/sh\nexit 100\n")
        ran = self.machine.run()
        self.assertEqual(ran.returncode, 1)
        self.assertIn("sudo apt-get install ffmpeg", ran.stderr)

    def test_the_kit_comes_first(self):
        (self.machine.folder / "rt").unlink()
        ran = self.machine.run()
        self.assertEqual((ran.returncode, len(ran.stderr.splitlines())), (1, 1))
        self.assertIn("Rattle kit", ran.stderr)


if __name__ == "__main__":
    unittest.main()
