"""Calls of the tool, with a stand-in for ffv1restore: what they print, what they make, and what a slip of the hand costs."""
from __future__ import annotations

import ast
import hashlib
import json
import os
import pathlib
import signal
import subprocess
import sys
import tempfile
import time
import typing
import unittest

import schema
from mend_reel.model import Fault
from mend_reel.program import options
from mend_reel.program.command import check
from . import stand_in

TESTS = pathlib.Path(__file__).resolve().parent.parent
TOOL = TESTS.parent / "tools/mend-reel"
REEL = (TESTS / "real/matroska-many/reel.mkv").read_bytes()
OTHER = (TESTS / "real/matroska-flac/reel.mkv").read_bytes()
GOOD = "OUT is what was recorded, as far as any check can tell"


def damaged(place: int, size: int = 60) -> bytes:
    return REEL[:place] + bytes(size) + REEL[place + size :]


class InFolder(unittest.TestCase):
    def setUp(self) -> None:
        self.temporary = tempfile.TemporaryDirectory()
        top = pathlib.Path(self.temporary.name)
        self.folder, self.work = top / "here", top / "work"
        self.folder.mkdir()
        self.work.mkdir()
        self.program = stand_in.make(top)
        self.write("a.mkv", damaged(1500))
        self.write("b.mkv", REEL)

    def tearDown(self) -> None:
        self.temporary.cleanup()

    def write(self, name: str, content: bytes) -> None:
        (self.folder / name).write_bytes(content)

    def read(self, name: str) -> bytes:
        return (self.folder / name).read_bytes()

    def names(self) -> list[str]:
        return sorted(str(path.relative_to(self.folder)) for path in self.folder.rglob("*"))

    def environment(self) -> dict[str, str]:
        return dict(os.environ, FFV1RESTORE=self.program, TMPDIR=str(self.work), PYTHONDONTWRITEBYTECODE="1")

    def call(self, *words: str, **more: typing.Any) -> "subprocess.CompletedProcess[bytes]":
        streams = {"stdin": subprocess.DEVNULL, "stdout": subprocess.PIPE, "stderr": subprocess.PIPE, **more}
        return subprocess.run([sys.executable, str(TOOL), *words], cwd=self.folder, env=self.environment(), **streams)

    def assert_refused(self, line: str, *words: str) -> None:
        """That a call is refused in this line, and that it changes nothing."""
        before = {name: self.read(name) for name in self.names() if (self.folder / name).is_file()}
        done = self.call(*words)
        self.assertEqual((done.returncode, done.stdout, done.stderr.decode()), (1, b"", f"mend-reel: {line}\n"))
        self.assertEqual({name: self.read(name) for name in self.names() if (self.folder / name).is_file()}, before)
        self.assertEqual(list(self.work.iterdir()), [])


class OutTest(InFolder):
    def test_out_is_named(self) -> None:
        done = self.call("a.mkv", "b.mkv", "-o", "out.mkv")
        self.assertEqual((done.returncode, done.stderr, self.read("out.mkv")), (0, b"", REEL))
        self.assertTrue(done.stdout.decode().startswith(GOOD))
        self.assertEqual((self.names(), list(self.work.iterdir())), (["a.mkv", "b.mkv", "out.mkv"], []))

    def calls(self, *words: str) -> dict[str, int]:
        """How often the program is called to judge whole files and frames, and what it is called for."""
        slow, log = self.folder.parent / "counting", self.folder.parent / "calls"
        slow.write_text(f'#!/bin/sh\necho "$1" >> {log}\nexec {self.program} "$@"\n')
        slow.chmod(0o755)
        log.unlink(missing_ok=True)
        subprocess.run([sys.executable, str(TOOL), "--force", "-o", "out.mkv", *words], cwd=self.folder, stdin=subprocess.DEVNULL,
                       stdout=subprocess.PIPE, env=dict(self.environment(), FFV1RESTORE=str(slow)), check=False)
        names = log.read_text().split()
        return {name: names.count(name) for name in ("check", "scan") if name in names}

    def test_what_is_out_byte_for_byte_is_judged_once(self) -> None:
        """OUT is checked whole, also where its copies are alike; a copy that is OUT is judged, and OUT is not."""
        self.write("c.mkv", damaged(9000))
        self.write("d.mkv", REEL)
        self.assertEqual(self.calls("a.mkv", "c.mkv"), {"check": 1})
        self.assertEqual((self.calls("b.mkv"), self.calls("b.mkv", "d.mkv"), self.calls("a.mkv", "b.mkv")), ({"check": 1},) * 3)
        self.assertEqual(self.calls("a.mkv"), {"check": 1, "scan": 1})

    def test_a_forgotten_out_costs_no_copy(self) -> None:
        self.write("c.mkv", damaged(9000))
        self.assert_refused("a.mkv is a recording of the same video as the copies (-o a.mkv overwrites it)", "--force", "a.mkv", "b.mkv", "c.mkv")
        self.assert_refused("a.mkv is there (--force overwrites it)", "a.mkv", "b.mkv", "c.mkv")

    def test_out_that_is_named_or_of_another_video_is_overwritten(self) -> None:
        for words in (["-o", "out.mkv"], ["out.mkv"]):
            self.write("out.mkv", damaged(9000) if "-o" in words else OTHER)
            self.assertEqual((self.call("--force", *words, "a.mkv", "b.mkv").returncode, self.read("out.mkv")), (0, REEL))

    def test_out_that_is_a_copy_is_refused_by_file(self) -> None:
        os.link(self.folder / "a.mkv", self.folder / "hard.mkv")
        os.symlink("a.mkv", self.folder / "soft.mkv")
        for name in ("a.mkv", "./a.mkv", "hard.mkv", "soft.mkv"):
            self.assert_refused(f"{name} is one of the copies", "--force", "-o", name, "a.mkv", "b.mkv")

    def test_out_that_is_a_link_leading_nowhere_is_there(self) -> None:
        os.symlink("nothing", self.folder / "out.mkv")
        self.assert_refused("out.mkv is there (--force overwrites it)", "-o", "out.mkv", "b.mkv")
        self.assertEqual(self.call("--force", "-o", "out.mkv", "a.mkv", "b.mkv").returncode, 0)
        self.assertEqual((os.readlink(self.folder / "out.mkv"), self.read("nothing")), ("nothing", REEL))

    def test_names_that_begin_with_a_hyphen(self) -> None:
        self.write("-b.mkv", REEL)
        self.assertEqual((self.call("-o", "out.mkv", "--", "a.mkv", "-b.mkv").returncode, self.read("out.mkv")), (0, REEL))

    def test_out_goes_to_standard_output_and_the_lines_to_the_other(self) -> None:
        for name in ("-", "/dev/stdout"):
            done = self.call("-o", name, "a.mkv", "b.mkv")
            self.assertEqual((done.returncode, done.stdout), (0, REEL))
            self.assertTrue(done.stderr.decode().startswith(GOOD))
        self.assertEqual(self.names(), ["a.mkv", "b.mkv"])

    def test_out_goes_on_where_standard_output_stands(self) -> None:
        with open(self.folder / "log", "wb", buffering=0) as log:
            log.write(b"before")
            self.assertEqual(self.call("-o", "/dev/stdout", "a.mkv", "b.mkv", stdout=log).returncode, 0)
        self.assertEqual(self.read("log"), b"before" + REEL)


class ReportsTest(InFolder):
    def test_a_file_that_is_there_is_overwritten_by_force_alone(self) -> None:
        for option in ("--report", "--json"):
            self.write("notes", b"mine")
            self.assert_refused("notes is there (--force overwrites it)", option, "notes", "-o", "out.mkv", "b.mkv")
            self.assert_refused("notes is there (--force overwrites it)", option, "notes", "--check", "b.mkv")
            self.assertEqual(self.call("--force", option, "notes", "--check", "b.mkv").returncode, 0)
            self.assertNotEqual(self.read("notes"), b"mine")

    def test_a_recording_is_overwritten_by_no_report(self) -> None:
        self.write("c", OTHER)
        os.symlink("c", self.folder / "soft")
        self.write("d.mkv", bytes(512) + REEL[512:])
        for option, name in (("--report", "c"), ("--json", "c"), ("--json", "soft"), ("--json", "d.mkv")):
            for force in ([], ["--force"]):
                for words in (["--check", "b.mkv"], ["-o", "out.mkv", "a.mkv", "b.mkv"]):
                    self.assert_refused(f"{name} is a recording: only -o overwrites one", *force, option, name, *words)
        with open(self.folder / "c", "ab") as end:
            done = self.call("--json", "-", "--check", "b.mkv", stdout=end)
        self.assertEqual((done.returncode, done.stderr, self.read("c")), (1, b"mend-reel: - is a recording: only -o overwrites one\n", OTHER))
        self.assertEqual((self.call("--force", "-o", "c", "a.mkv", "b.mkv").returncode, self.read("c")), (0, REEL))

    def test_what_is_read_is_never_overwritten(self) -> None:
        self.write("sums", b"0" * 32 + b"  out.mkv\n")
        self.assert_refused("sums is read: it is sums", "--force", "--digest", "sums", "--json", "sums", "-o", "out.mkv", "b.mkv")
        self.assert_refused("b.mkv is one of the copies", "--force", "--report", "b.mkv", "-o", "out.mkv", "b.mkv")
        self.assert_refused("page is named twice", "--report", "page", "-o", "page", "b.mkv")
        self.assert_refused("- is named twice", "--report", "/dev/stdout", "--json", "-", "-o", "out.mkv", "b.mkv")

    def test_a_document_goes_to_standard_output(self) -> None:
        for name in ("-", "/dev/stdout"):
            done = self.call("--json", name, "--check", "b.mkv")
            self.assertEqual((done.returncode, json.loads(done.stdout)["files"][0]["verdict"]["status"]), (0, 0))
            self.assertIn(b"frames: 16", done.stderr)
        self.assertTrue(os.path.islink("/dev/stdout"))

    def test_files_that_are_checked_are_one_document_and_one_page(self) -> None:
        done = self.call("--check", "--json", "made.json", "--report", "made.html", "a.mkv", "b.mkv")
        made = json.loads(self.read("made.json"))
        self.assertEqual((done.returncode, schema.faults(made), done.stderr), (3, "", b""))
        self.assertEqual([each["verdict"]["status"] for each in made["files"]], [3, 0])
        self.assertEqual(self.read("made.html").count(b"<section "), 2)
        self.assertEqual(done.stdout.decode().splitlines()[-1], "2 files: 1 undamaged, 1 damaged, 0 unreadable")
        self.assertNotIn(b"files: ", self.call("--check", "b.mkv").stdout)

    def test_a_file_that_can_not_be_judged_costs_the_others_nothing(self) -> None:
        self.write("notes", b"of no recording")
        (self.folder / "folder").mkdir()
        lines = {"none.mkv": "cannot read none.mkv: No such file or directory", "folder": "cannot read folder: it is no file",
                 "notes": "no FFV1 video was found in notes"}
        done = self.call("--check", "--json", "made.json", "--report", "made.html", "none.mkv", "b.mkv", "folder", "a.mkv", "notes")
        made, printed = json.loads(self.read("made.json")), done.stdout.decode().splitlines()
        self.assertEqual((done.returncode, schema.faults(made)), (1, ""))
        self.assertEqual([each.get("fault") for each in made["files"]], [lines["none.mkv"], None, lines["folder"], None, lines["notes"]])
        self.assertEqual([each["verdict"]["status"] for each in made["files"] if "verdict" in each], [0, 3])
        self.assertEqual([line for line in printed if "judged" in line], [f"{name} could not be judged: {why}" for name, why in lines.items()])
        self.assertEqual(printed[-1], "5 files: 1 undamaged, 1 damaged, 3 unreadable")
        self.assertEqual(done.stderr.decode().splitlines(), [f"mend-reel: {why}" for why in lines.values()])
        self.assertEqual(self.read("made.html").count(b"could not be judged"), 6)

    def test_a_document_is_written_where_no_file_can_be_judged(self) -> None:
        done = self.call("--check", "--json", "made.json", "none.mkv")
        made = json.loads(self.read("made.json"))
        self.assertEqual((done.returncode, schema.faults(made), len(made["files"])), (1, "", 1))
        self.assertEqual(done.stderr.decode(), "mend-reel: cannot read none.mkv: No such file or directory\n")

    def test_each_file_is_checked_by_its_line_in_a_manifest(self) -> None:
        (self.folder / "bag/data").mkdir(parents=True)
        self.write("bag/data/a.mkv", damaged(1500))
        self.write("bag/data/b.mkv", REEL)
        self.write("bag/manifest-sha256.txt", "".join(f"{hashlib.sha256(REEL).hexdigest()} data/{name}\n" for name in ("b.mkv", "a.mkv")).encode())
        words = ["bag/data/a.mkv", "bag/data/b.mkv", "a.mkv", "c.mkv", "bag/data/../data/b.mkv"]
        done = self.call("--check", "--digest", "bag/manifest-sha256.txt", *words)
        printed = done.stdout.decode().splitlines()
        self.assertEqual(done.returncode, 1)
        self.assertTrue(printed[0].startswith("bag/data/a.mkv is not the original: its SHA256 is"))
        self.assertIn("bag/data/b.mkv is the original: its SHA256 is that of bag/manifest-sha256.txt", printed)
        self.assertIn("c.mkv could not be judged: bag/manifest-sha256.txt does not name c.mkv", printed)
        self.assertEqual(printed[-1], "5 files: 2 undamaged, 2 damaged, 1 unreadable")
        done = self.call("--check", "--digest", "bag/manifest-sha256.txt", "bag/data/b.mkv", "bag/data/../data/b.mkv")
        self.assertEqual((done.returncode, done.stderr), (0, b""))

    def test_digests_of_frames_are_of_one_file(self) -> None:
        self.write("sums", FRAMES.encode())
        self.assert_refused("sums has the digests of one file's frames, and several files are given", "--check", "--digest", "sums", "a.mkv", "b.mkv")
        self.assert_refused("cannot read none: No such file or directory", "--check", "--digest", "none", "a.mkv", "b.mkv")

    def test_devices_are_written_to(self) -> None:
        before = os.stat("/dev/null")
        done = self.call("--json", "/dev/null", "--report", "/dev/null", "-o", "/dev/null", "a.mkv", "b.mkv")
        self.assertEqual((done.returncode, done.stderr), (0, b""))
        self.assertTrue(os.path.samestat(before, os.stat("/dev/null")))

    def test_a_missing_folder_is_found_before_any_copy_is_read(self) -> None:
        for option in ("--report", "--json", "-o"):
            words = [option, "none/file", *(["-o", "out.mkv"] if option != "-o" else []), "no-copy.mkv"]
            self.assert_refused("cannot write none/file: No such file or directory", *words)

    def test_a_report_that_fails_costs_no_out(self) -> None:
        done = self.call("--report", "/dev/full", "-o", "out.mkv", "a.mkv", "b.mkv")
        self.assertEqual((done.returncode, self.read("out.mkv")), (1, REEL))
        self.assertEqual(done.stderr.decode(), "mend-reel: cannot write /dev/full: No space left on device; out.mkv was made\n")
        self.assertTrue(done.stdout.decode().startswith(GOOD))


class ReaderTest(InFolder):
    def closed_pipe(self) -> int:
        reader, writer = os.pipe()
        os.close(reader)
        return writer

    def test_a_reader_that_closes_early_costs_nothing(self) -> None:
        writer = self.closed_pipe()
        done = self.call("-o", "out.mkv", "a.mkv", "b.mkv", stdout=writer)
        self.assertEqual((done.returncode, done.stderr, self.read("out.mkv")), (0, b"", REEL))
        done = self.call("--check", "a.mkv", stdout=writer)
        self.assertEqual((done.returncode, done.stderr), (3, b""))

    def test_nobody_who_reads_faults_or_progress_costs_nothing(self) -> None:
        writer = self.closed_pipe()
        done = self.call("-o", "out.mkv", "a.mkv", "b.mkv", stderr=writer)
        self.assertEqual((done.returncode, self.read("out.mkv")), (0, REEL))
        self.assertEqual(self.call("-o", "out.mkv", "a.mkv", stderr=writer).returncode, 1)

    def test_standard_output_that_is_full_costs_no_out(self) -> None:
        with open("/dev/full", "wb") as full:
            done = self.call("-o", "out.mkv", "b.mkv", stdout=full)
            self.assertEqual((done.returncode, self.read("out.mkv")), (1, REEL))
            self.assertEqual(done.stderr.decode(), "mend-reel: cannot write standard output: No space left on device; out.mkv was made\n")


class MendTest(InFolder):
    def test_all_of_the_file_is_mended_once(self) -> None:
        """Where another copy turns out to be the one to follow, only what is taken from it is made anew."""
        log = self.work.parent / "log"
        self.program = stand_in.make(self.work.parent, f"if words[0] == 'mend':\n    open({str(log)!r}, 'a').write(repr(open(words[1]).read()) + '\\n')")
        content = (TESTS / "real/matroska-no-crc/reel.mkv").read_bytes()
        self.write("c.mkv", content[:3300] + bytes([content[3300] ^ 1]) + content[3301:5000] + b"ABCDEFGHIJ" + content[5010:])
        self.write("d.mkv", content)
        self.assertIn(self.call("-o", "out.mkv", "c.mkv", "d.mkv").returncode, (0, 3))
        self.assertEqual(self.read("out.mkv"), content)
        lists = [ast.literal_eval(line).splitlines() for line in log.read_text().splitlines()]
        sizes = [sum(int(line.split()[1]) for line in each if not line.startswith("part")) for each in lists]
        self.assertEqual(sizes[0], len(content))
        self.assertEqual(len(sizes), 2)
        self.assertLess(sizes[1], 1000)


# What FFmpeg's framemd5 writes of the video of tests/real/matroska-no-crc.
FRAMES = """#format: frame checksums
#version: 2
#hash: MD5
#tb 0: 1/25
#media_type 0: video
#codec_id 0: rawvideo
#stream#, dts,        pts, duration,     size, hash
0,          0,          0,        1,     1536, b86114ffed88c590ee3643b17cf9d56e
0,          1,          1,        1,     1536, b86114ffed88c590ee3643b17cf9d56e
0,          2,          2,        1,     1536, b86114ffed88c590ee3643b17cf9d56e
0,          3,          3,        1,     1536, b86114ffed88c590ee3643b17cf9d56e
0,          4,          4,        1,     1536, be33f285329b2c86c872e2c305ae3e0f
0,          5,          5,        1,     1536, 97209e1fd355e8fec8124486016c2dce
"""
PLAIN = (TESTS / "real/matroska-no-crc/reel.mkv").read_bytes()


class AloneTest(InFolder):
    """Matroska files where there is no other program than ffv1restore."""

    def environment(self) -> dict[str, str]:
        return dict(super().environment(), PATH="/nowhere")

    def setUp(self) -> None:
        super().setUp()
        for name in "a.mkv", "b.mkv":
            self.write(name, PLAIN[:3200] + b"\xc1" + PLAIN[3201:])

    def test_a_repaired_frame_that_decodes(self) -> None:
        done = self.call("-o", "out.mkv", "a.mkv", "b.mkv")
        self.assertEqual((done.returncode, done.stderr, self.read("out.mkv")), (0, b"", PLAIN))
        self.assertTrue(done.stdout.decode().startswith(GOOD))
        self.assertIn("1 restored (1 woven)", done.stdout.decode())

    def test_a_repaired_frame_that_an_earlier_program_can_not_decode(self) -> None:
        self.program = stand_in.make(self.work.parent, "if words[0] == 'samples':\n    sys.exit('ffv1restore: words refused')")
        done = self.call("-o", "out.mkv", "a.mkv", "b.mkv")
        self.assertEqual((done.returncode, done.stderr, self.read("out.mkv")), (3, b"", PLAIN))
        self.assertIn("OUT has it with inverted bits", done.stdout.decode())

    def test_digests_of_decoded_frames(self) -> None:
        self.write("sums", FRAMES.encode())
        done = self.call("--digest", "sums", "-o", "out.mkv", "a.mkv", "b.mkv")
        self.assertEqual((done.returncode, done.stderr), (0, b""))
        self.assertIn("out.mkv has the original's frames: the digests of all 6 decoded frames are those of sums", done.stdout.decode())
        self.write("sums", FRAMES.replace("be33", "be34").encode())
        done = self.call("--force", "--digest", "sums", "-o", "out.mkv", "a.mkv", "b.mkv")
        self.assertEqual((done.returncode, done.stderr), (3, b""))
        self.assertIn("out.mkv does not have the original's frames: digests of sums differ: stream 0: frame 4", done.stdout.decode())

    def test_digests_of_sound_need_ffmpeg(self) -> None:
        sound = "#media_type 1: audio\n#codec_id 1: pcm_s16le\n1, 0, 0, 4608, 9216, " + "c" * 32 + "\n"
        self.write("sums", (FRAMES + sound).encode())
        self.assert_refused("cannot run ffmpeg: No such file or directory", "--digest", "sums", "-o", "out.mkv", "a.mkv", "b.mkv")


class InterruptedTest(InFolder):
    def interrupted(self, wait: float) -> tuple[int, str]:
        """The status and the line of a call that is interrupted so many seconds after it began to work."""
        child = subprocess.Popen([sys.executable, str(TOOL), "--json", "made.json", "-o", "out.mkv", "a.mkv", "b.mkv"], cwd=self.folder,
                                 env=self.environment(), stdout=subprocess.DEVNULL, stderr=subprocess.PIPE)
        while child.poll() is None and not list(self.work.iterdir()):
            time.sleep(0.001)
        time.sleep(wait)
        child.send_signal(signal.SIGTERM)
        said = child.communicate()[1].decode()
        return child.returncode, said

    def test_whenever_it_comes_nothing_is_left_and_it_is_said_whether_out_was_made(self) -> None:
        for tenth in range(8):
            status, said = self.interrupted(tenth / 10)
            is_made = (self.folder / "out.mkv").exists()
            self.assertEqual((list(self.work.iterdir()), [name for name in self.names() if name.endswith(".part")]), ([], []))
            self.assertIn((status, said), [(0, ""), (1, "mend-reel: interrupted; out.mkv was made\n")] if is_made
                          else [(1, "mend-reel: interrupted, and no OUT was made\n")])
            for name in ("out.mkv", "made.json"):
                (self.folder / name).unlink(missing_ok=True)


class InterruptedCheckTest(InFolder):
    def test_what_was_judged_before_stands(self) -> None:
        slow, reached = self.work.parent / "slow", self.work.parent / "reached"
        slow.mkdir()
        self.program = stand_in.make(slow, "import os, pathlib, time\n"
                                           "if words[0] == 'check' and os.path.realpath(words[1]).endswith('b.mkv'):\n"
                                           f"    pathlib.Path({str(reached)!r}).touch()\n    time.sleep(60)")
        words = [sys.executable, str(TOOL), "--json", "made.json", "--check", "a.mkv", "b.mkv", "a.mkv"]
        child = subprocess.Popen(words, cwd=self.folder, env=self.environment(), stdout=subprocess.PIPE, stderr=subprocess.PIPE)
        deadline = time.monotonic() + 60
        while not reached.exists() and child.poll() is None and time.monotonic() < deadline:
            time.sleep(0.01)
        child.send_signal(signal.SIGTERM)
        printed, said = (text.decode() for text in child.communicate())
        self.assertEqual((child.returncode, said), (1, "mend-reel: interrupted: 2 of 3 files were not judged\n"))
        self.assertTrue(printed.startswith("a.mkv: "), printed)
        self.assertEqual([entry["copies"][0]["path"] for entry in json.loads((self.folder / "made.json").read_text())["files"]], ["a.mkv"])
        self.assertEqual(list(self.work.iterdir()), [])


class SlowTest(InFolder):
    """Calls beside one that mends for a minute, and after it was killed."""

    def setUp(self) -> None:
        super().setUp()
        slow = self.work.parent / "slow"
        slow.mkdir()
        program, self.program = self.program, stand_in.make(slow, "if words[0] == 'mend':\n    import time\n    time.sleep(60)")
        self.child = subprocess.Popen([sys.executable, str(TOOL), "--json", "made.json", "-o", "out.mkv", "a.mkv", "b.mkv"], cwd=self.folder,
                                      env=self.environment(), stdout=subprocess.DEVNULL, stderr=subprocess.DEVNULL, start_new_session=True)
        self.addCleanup(self.kill)
        self.program = program
        deadline = time.monotonic() + 30
        while not list(self.work.glob("mend-reel.*/out")) and time.monotonic() < deadline:
            time.sleep(0.01)

    def kill(self) -> None:
        if self.child.returncode is None:
            os.killpg(self.child.pid, signal.SIGKILL)
            self.child.wait()

    def test_the_second_run_at_one_out_is_refused(self) -> None:
        before, folders = self.names(), list(self.work.iterdir())
        part, document = (next(self.folder.glob(f"{name}.*.part")).name for name in ("out.mkv", "made.json"))
        os.symlink("out.mkv", self.folder / "soft")
        for words in (["-o", "out.mkv"], ["out.mkv"], ["--force", "-o", "out.mkv"]):
            done = self.call(*words, "a.mkv", "b.mkv")
            self.assertEqual((done.returncode, done.stdout), (1, b""))
            self.assertEqual(done.stderr.decode(), f"mend-reel: another run makes out.mkv now: it holds {part}\n")
        self.assertIn(b"another run makes soft now", self.call("--force", "-o", "soft", "a.mkv", "b.mkv").stderr)
        done = self.call("--json", "made.json", "--check", "b.mkv")
        self.assertEqual((done.returncode, done.stderr.decode()), (1, f"mend-reel: another run makes made.json now: it holds {document}\n"))
        self.assertEqual((self.names(), list(self.work.iterdir())), (sorted([*before, "soft"]), folders))
        done = self.call("-o", "other.mkv", "a.mkv", "b.mkv")
        self.assertEqual((done.returncode, done.stdout.count(b"killed")), (0, 0))
        self.assertEqual(self.call("--check", "b.mkv").stdout.count(b"killed"), 0)

    def test_the_next_run_names_what_a_killed_one_left(self) -> None:
        self.kill()
        left, = self.work.iterdir()
        parts = sorted(path.name for path in self.folder.glob("*.part"))
        done = self.call("--json", "made.json", "-o", "out.mkv", "a.mkv", "b.mkv")
        self.assertEqual((done.returncode, self.read("out.mkv"), len(parts)), (0, REEL, 2))
        for name in (*parts, left):
            self.assertIn(f"a run that was killed left {name}; remove it\n", done.stdout.decode())
        self.assertTrue(left.is_dir() and all((self.folder / part).exists() for part in parts))


class TogetherTest(InFolder):
    def test_of_two_runs_at_once_one_makes_out(self) -> None:
        for _ in range(3):
            words = [sys.executable, str(TOOL), "-o", "out.mkv", "a.mkv", "b.mkv"]
            children = [subprocess.Popen(words, cwd=self.folder, env=self.environment(), stdout=subprocess.DEVNULL, stderr=subprocess.PIPE)
                        for _ in range(2)]
            said = [child.communicate()[1].decode() for child in children]
            self.assertEqual((sorted(child.returncode for child in children), self.read("out.mkv")), ([0, 1], REEL))
            refused = r"another run makes out.mkv now: it holds out.mkv.\w{8}.part|out.mkv is there \(--force overwrites it\)"
            self.assertRegex("".join(said), rf"^mend-reel: ({refused})\n$")
            self.assertEqual(self.names(), ["a.mkv", "b.mkv", "out.mkv"])
            (self.folder / "out.mkv").unlink()


class KeepTest(InFolder):
    def test_what_was_kept_is_overwritten_by_force_alone(self) -> None:
        (self.folder / "kept").mkdir()
        self.write("kept/list", b"mine")
        self.write("kept/notes", b"mine")
        self.assert_refused("kept/list is there (--force overwrites it)", "--keep", "kept", "-o", "out.mkv", "a.mkv", "b.mkv")
        self.assertEqual(self.call("--force", "--keep", "kept", "-o", "out.mkv", "a.mkv", "b.mkv").returncode, 0)
        self.assertEqual((self.read("kept/list")[:5], self.read("kept/notes")), (b"plain", b"mine"))

    def test_a_recording_with_such_a_name_is_refused_at_once(self) -> None:
        for option, name in (("--keep", "frame-3.hold"), ("--keep", "list"), ("--pictures", "frame-3.png")):
            (self.folder / "kept").mkdir(exist_ok=True)
            self.write(f"kept/{name}", OTHER)
            self.assert_refused(f"kept/{name} is a recording: only -o overwrites one", "--force", option, "kept", "-o", "out.mkv", "a.mkv", "b.mkv")
            (self.folder / "kept" / name).unlink()

    def test_names_of_copies_end_with_nul(self) -> None:
        name = "a\nb.mkv"
        self.write(name, REEL)
        self.assertEqual(self.call("--keep", "kept", "-o", "out.mkv", name, "a.mkv").returncode, 0)
        top = os.fsencode(os.path.realpath(self.folder))
        self.assertEqual(self.read("kept/copies"), top + b"/a\nb.mkv\0" + top + b"/a.mkv\0")

    def test_what_can_not_be_kept_is_a_note(self) -> None:
        (self.folder / "kept/list").mkdir(parents=True)
        done = self.call("--force", "--keep", "kept", "-o", "out.mkv", "a.mkv", "b.mkv")
        self.assertEqual((done.returncode, self.read("out.mkv")), (0, REEL))
        self.assertIn("kept/list is not kept: Is a directory\n", done.stdout.decode())

    def test_out_in_the_folder_of_what_is_kept_stays(self) -> None:
        done = self.call("--keep", ".", "-o", "list", "a.mkv", "b.mkv")
        self.assertEqual((done.returncode, self.read("list")), (0, REEL))
        self.assertIn("./list is not kept: it is another file of this call\n", done.stdout.decode())

    def test_a_copy_in_that_folder_is_refused_at_once(self) -> None:
        (self.folder / "kept").mkdir()
        os.link(self.folder / "b.mkv", self.folder / "kept/frame-3.hold")
        self.assert_refused("kept/frame-3.hold is one of the copies", "--force", "--keep", "kept", "-o", "out.mkv", "a.mkv", "b.mkv")


class CheckTest(InFolder):
    def test_standard_output_that_is_a_copy(self) -> None:
        with open(self.folder / "a.mkv", "ab") as copy:
            done = self.call("--json", "-", "--check", "a.mkv", stdout=copy)
        self.assertEqual((done.returncode, done.stderr), (1, b"mend-reel: - is one of the copies\n"))
        self.assertEqual(self.read("a.mkv"), damaged(1500))

    def test_a_folder_is_no_file(self) -> None:
        for words in (["-o", str(self.folder), "a"], ["--force", "-o", str(self.folder), "a"]):
            with self.assertRaisesRegex(Fault, "it is a folder"):
                check(options.read(words))


if __name__ == "__main__":
    unittest.main()
