"""Files that are made as parts, and what names stand for."""
import fcntl
import os
import pathlib
import tempfile
import unittest
from unittest import mock

from mend_reel.model import Fault
from mend_reel.program import output_files
from mend_reel.program.output_files import (Files, check_room, descriptor_of, front_of, holds_data, is_held, is_recording, is_same,
                                            is_written_to, parts_of)


class InFolder(unittest.TestCase):
    def setUp(self):
        self.temporary = tempfile.TemporaryDirectory()
        self.folder = pathlib.Path(self.temporary.name)
        self.path = str(self.folder / "out [1].mkv")
        self.work = self.folder / "work"
        self.work.mkdir()

    def tearDown(self):
        self.temporary.cleanup()

    def names(self):
        return sorted(set(os.listdir(self.folder)) - {"work"})

    def make(self, files, path, content):
        output = files.make(path, str(self.work))
        pathlib.Path(output.part).write_bytes(content)
        return output


class FilesTest(InFolder):
    def test_file_has_its_name_when_all_is_done(self):
        files = Files()
        output = self.make(files, self.path, b"abc")
        self.assertNotIn("out [1].mkv", self.names())
        files.settle(output)
        files.remove()
        self.assertEqual(self.names(), ["out [1].mkv"])
        self.assertEqual(pathlib.Path(self.path).read_bytes(), b"abc")

    def test_a_file_that_can_get_no_name_takes_no_other_away(self):
        files = Files()
        out, report = self.make(files, self.path, b"abc"), self.make(files, str(self.folder / "report"), b"page")
        (self.folder / "report").mkdir()
        files.settle(out)
        with self.assertRaisesRegex(Fault, "cannot write .*report"):
            files.settle(report)
        files.remove()
        self.assertEqual(self.names(), ["out [1].mkv", "report"])

    def test_older_file_is_unchanged_by_a_fault(self):
        pathlib.Path(self.path).write_bytes(b"old")
        files = Files()
        self.make(files, self.path, b"new")
        files.remove()
        self.assertEqual((self.names(), pathlib.Path(self.path).read_bytes()), (["out [1].mkv"], b"old"))

    def test_file_has_the_permissions_of_a_new_one(self):
        umask = os.umask(0o027)
        try:
            output = self.make(Files(), self.path, b"abc")
            self.assertEqual(os.stat(output.part).st_mode & 0o777, 0o640)
        finally:
            os.umask(umask)

    def test_parts_are_those_of_the_same_name(self):
        files, others = Files(), Files()
        part = self.make(files, self.path, b"abc").part
        self.make(others, str(self.folder / "out 1.mkv"), b"abc")
        (self.folder / "out [1].mkv.notes.part").write_bytes(b"")
        self.assertEqual(parts_of(self.path), [part])

    def test_a_part_is_held_until_it_has_its_place(self):
        files = Files()
        output = self.make(files, self.path, b"abc")
        self.assertIs(is_held(output.part), True)
        files.settle(output)
        self.assertIs(is_held(self.path), False)
        self.assertIsNone(is_held(output.part))
        files.remove()

    def test_the_second_of_two_at_one_place_is_refused_and_leaves_nothing(self):
        first, second, others = Files(), Files(), Files()
        output = self.make(first, self.path, b"abc")
        with self.assertRaisesRegex(Fault, r"another run makes .*out \[1\].mkv now: it holds .*out \[1\].mkv.\w{8}.part"):
            second.make(self.path, str(self.work))
        second.remove()
        self.assertEqual((self.names(), first.left, second.left), ([os.path.basename(output.part)], [], []))
        others.make(str(self.folder / "out"), str(self.work))
        first.remove()
        second.make(self.path, str(self.work))
        self.assertEqual(second.left, [])
        others.remove()
        second.remove()

    def test_a_part_that_nobody_holds_was_left(self):
        part = self.folder / "out [1].mkv.abcdefgh.part"
        part.write_bytes(b"ab")
        files = Files()
        self.make(files, self.path, b"abc")
        self.assertEqual(files.left, [str(part)])
        files.remove()
        self.assertEqual(self.names(), [part.name])

    def test_what_can_not_be_known_is_neither_held_nor_left(self):
        os.symlink("none", self.folder / "out [1].mkv.abcdefgh.part")
        files = Files()
        self.make(files, self.path, b"abc")
        self.assertEqual(files.left, [])
        files.remove()

    def test_where_a_lock_keeps_others_from_writing_nothing_is_held(self):
        part = self.folder / "out [1].mkv.abcdefgh.part"
        part.write_bytes(b"ab")
        files, opened = Files(), open
        with mock.patch("builtins.open", lambda path, *more, **named: opened("/dev/full" if path.endswith(".part") else path, *more, **named)):
            output = files.make(self.path, str(self.work))
        self.assertEqual((is_held(output.part), files.left), (False, []))
        files.remove()
        self.assertEqual(self.names(), [part.name])

    def test_a_folder_that_something_else_holds_costs_a_moment(self):
        other = os.open(self.folder, os.O_RDONLY)
        fcntl.flock(other, fcntl.LOCK_EX)
        files = Files()
        try:
            with mock.patch.object(output_files, "PAUSE", 0):
                files.settle(self.make(files, self.path, b"abc"))
        finally:
            os.close(other)
        self.assertEqual(self.names(), ["out [1].mkv"])

    def test_longest_name_can_be_made(self):
        files = Files()
        path = str(self.folder / ("ü" * 127))
        files.settle(self.make(files, path, b"abc"))
        self.assertEqual(self.names(), ["ü" * 127])
        self.assertLess(len(os.fsencode(front_of(path))), 210)
        self.assertNotEqual(front_of("a" * 240 + "1.mkv"), front_of("a" * 240 + "2.mkv"))
        self.assertEqual(front_of("a" * 200), "a" * 200 + ".")

    def test_folders_that_were_made_are_removed(self):
        files = Files()
        files.make_folder(str(self.folder / "a/b"))
        self.assertEqual(self.names(), ["a"])
        files.remove()
        self.assertEqual(self.names(), [])

    def test_folder_that_was_there_stays(self):
        (self.folder / "a").mkdir()
        files = Files()
        files.make_folder(str(self.folder / "a"))
        files.remove()
        self.assertEqual(self.names(), ["a"])

    def test_folder_in_a_file_is_a_fault(self):
        (self.folder / "a").write_bytes(b"")
        with self.assertRaisesRegex(Fault, "cannot make .*a/b: Not a directory"):
            Files().make_folder(str(self.folder / "a/b"))

    def test_file_in_no_folder_is_a_fault(self):
        with self.assertRaisesRegex(Fault, "cannot write .*none/out: No such file"):
            Files().make(str(self.folder / "none/out"), str(self.work))

    def test_room_that_is_not_there_is_a_fault(self):
        with self.assertRaisesRegex(Fault, r"cannot write out.mkv: it needs 1152921504606846976 bytes"):
            check_room(self.path, "out.mkv", 1 << 60)
        check_room(self.path, "out.mkv", 1)


class LinksTest(InFolder):
    def test_the_file_after_a_link_gives_way_and_the_link_stays(self):
        (self.folder / "far").mkdir()
        os.symlink("far/out", self.path)
        files = Files()
        output = self.make(files, self.path, b"abc")
        self.assertEqual(os.path.dirname(output.part), os.path.realpath(self.folder / "far"))
        files.settle(output)
        self.assertEqual((os.readlink(self.path), (self.folder / "far/out").read_bytes()), ("far/out", b"abc"))

    def test_a_link_that_leads_nowhere_holds_data(self):
        os.symlink("nothing", self.path)
        self.assertTrue(holds_data(self.path))
        self.assertFalse(holds_data(str(self.folder / "nothing")))

    def test_a_file_is_the_same_by_any_name(self):
        one, other = str(self.folder / "one"), str(self.folder / "other")
        pathlib.Path(one).write_bytes(b"abc")
        pathlib.Path(other).write_bytes(b"abc")
        os.link(one, str(self.folder / "hard"))
        os.symlink("hard", str(self.folder / "soft"))
        self.assertEqual([is_same(one, str(self.folder / name)) for name in ("one", "hard", "soft", "other", "none")],
                         [True, True, True, False, False])


class RecordingTest(InFolder):
    def test_recordings_begin_as_containers_do(self):
        heads = [b"\x1aE\xdf\xa3\x93", b"RIFF\x10\0\0\0AVI ", b"nut/multimedia container\0", b"\x06\x0e\x2b\x34\x02\x05\x01\x01",
                 *(b"\0\0\0\x14" + name for name in (b"ftypqt  ", b"moov", b"mdat", b"wide"))]
        others = [b"", b"{\n \"format\"", b"<!DOCTYPE html>", b"plain 20 1 0", b"\x89PNG\r\n\x1a\n\0\0\0\rIHDR", b"ftypqt  ", b"\0" * 600]
        for content, is_one in [*((head, True) for head in heads), *((head, False) for head in others)]:
            (self.folder / "file").write_bytes(content)
            self.assertIs(is_recording(str(self.folder / "file")), is_one, content)

    def test_one_that_lost_its_start_is_known_by_its_name(self):
        for name, content, is_one in (("a.MKV", b"\0", True), ("a.avi", b"\0", True), ("a.mov", b"", False), ("a.html", b"\0", False)):
            (self.folder / name).write_bytes(content)
            self.assertIs(is_recording(str(self.folder / name)), is_one, name)

    def test_it_is_known_by_any_name(self):
        (self.folder / "a").write_bytes(b"\x1aE\xdf\xa3")
        (self.folder / "b.mkv").mkdir()
        os.symlink("a", self.folder / "soft")
        os.symlink("none", self.folder / "c.mkv")
        self.assertEqual([is_recording(str(self.folder / name)) for name in ("soft", "b.mkv", "c.mkv", "d.mkv")], [True, False, False, False])
        with open(self.folder / "a", "ab") as file:
            self.assertTrue(is_recording(f"/dev/fd/{file.fileno()}"))
        self.assertFalse(is_recording("/dev/null"))


class WrittenToTest(InFolder):
    def test_names_of_open_files(self):
        os.symlink("/dev/stdout", str(self.folder / "link"))
        os.symlink("-", str(self.folder / "dash"))
        names = ["-", "/dev/stdout", "/dev/stderr", "/dev/fd/7", "/proc/self/fd/12", "/dev/./fd/../stdout", str(self.folder / "link")]
        self.assertEqual([descriptor_of(name) for name in names], [1, 1, 2, 7, 12, 1, 1])
        self.assertEqual([descriptor_of(name) for name in ("out", "./-", "/dev/null", str(self.folder / "dash"))], [None] * 4)

    def test_devices_and_pipes_are_written_to(self):
        os.mkfifo(str(self.folder / "pipe"))
        (self.folder / "file").write_bytes(b"")
        paths = ["/dev/null", "-", str(self.folder / "pipe"), str(self.folder / "file"), str(self.folder), str(self.folder / "none")]
        self.assertEqual([is_written_to(path) for path in paths], [True, True, True, False, False, False])
        self.assertEqual([holds_data(path) for path in paths], [False, False, False, True, True, False])

    def test_a_disk_holds_data(self):
        state = os.stat_result([0o060600, *[0] * 9])
        original, output_files.state_of = output_files.state_of, lambda path: state
        try:
            self.assertTrue(holds_data("/dev/sda"))
        finally:
            output_files.state_of = original

    def test_an_open_file_gets_the_part_where_it_stands(self):
        path = str(self.folder / "log")
        with open(path, "w+b", buffering=0) as log:
            log.write(b"before ")
            files = Files()
            output = self.make(files, f"/dev/fd/{log.fileno()}", b"made")
            self.assertEqual(os.path.dirname(output.part), str(self.work))
            files.settle(output)
            log.write(b" after")
        self.assertEqual((pathlib.Path(path).read_bytes(), list(self.work.iterdir())), (b"before made after", []))

    def test_a_pipe_gets_the_part_and_stays_a_pipe(self):
        path = str(self.folder / "pipe")
        os.mkfifo(path)
        reader = os.open(path, os.O_RDONLY | os.O_NONBLOCK)
        try:
            files = Files()
            files.settle(self.make(files, path, b"made"))
            self.assertEqual((os.read(reader, 10), is_written_to(path)), (b"made", True))
        finally:
            os.close(reader)

    def test_a_file_that_is_not_open_is_a_fault(self):
        with self.assertRaisesRegex(Fault, "cannot write /dev/fd/987: it is closed"):
            Files().make("/dev/fd/987", str(self.work))


if __name__ == "__main__":
    unittest.main()
