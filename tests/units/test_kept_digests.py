"""Digests that were kept of a file, and what they say of it."""
import hashlib
import os
import pathlib
import tempfile
import unittest
from unittest import mock

from mend_reel.judging import kept_digests
from mend_reel.model import Fault
from . import made

CONTENT = made.noise(4, 5000)
MD5, SHA1, SHA256 = (hashlib.new(name, CONTENT).hexdigest() for name in ("md5", "sha1", "sha256"))
OTHER = hashlib.sha256(b"other").hexdigest()
FRAMES = """#format: frame checksums
#version: 2
#hash: MD5
#extradata 0,                             202, 6f61244b9f04f0d575c493bce15175f4
#software: Lavf59.27.100
#tb 0: 1/25
#media_type 0: video
#codec_id 0: {codec}
#dimensions 0: 160x120
#tb 1: 1/48000
#media_type 1: audio
#codec_id 1: pcm_s16le
#stream#, dts,        pts, duration,     size, hash
0,          0,          0,        1,    76800, AAAAAAAAAAAAAAAAAAAAAAAAAAAAAAAA
1,          0,          0,     4608,     9216, cccccccccccccccccccccccccccccccc
0,          1,          1,        1,    76800, bbbbbbbbbbbbbbbbbbbbbbbbbbbbbbbb
0,          2,          2,        1,    76800, dddddddddddddddddddddddddddddddd
"""


class DigestTest(unittest.TestCase):
    def setUp(self):
        folder = tempfile.TemporaryDirectory()
        self.addCleanup(folder.cleanup)
        self.folder = pathlib.Path(folder.name)
        (self.folder / "part").write_bytes(CONTENT)

    def compare(self, lines, named="/films/out.mkv", copies=()):
        kept = self.folder / "kept"
        kept.write_bytes(lines if isinstance(lines, bytes) else lines.encode())
        return kept_digests.compare(str(kept), str(self.folder / "part"), named, copies)

    def test_each_way_to_write_a_digest(self):
        for line in (f"{MD5}  out.mkv\n", f"{SHA1} *out.mkv", f"{SHA256}  /somewhere/else/out.mkv\r\n", f"SHA256 (out.mkv) = {SHA256}",
                     f"MD5 (a/out.mkv) = {MD5.upper()}"):
            found = self.compare("a line of something else\n\n" + line)
            self.assertTrue(found.is_original, line)
            self.assertIn("/films/out.mkv is the original", found.text)

    def test_how_far_the_work_is_is_reported(self):
        reported = []
        path = self.folder / "long"
        path.write_bytes(bytes(kept_digests.PIECE + 7))
        kept_digests.digest(str(path), "md5", lambda *each: reported.append(each))
        self.assertEqual(reported, [(kept_digests.PIECE, kept_digests.PIECE + 7), (kept_digests.PIECE + 7, kept_digests.PIECE + 7)])

    def test_another_file(self):
        found = self.compare(f"{OTHER}  out.mkv")
        self.assertFalse(found.is_original)
        self.assertIn(f"is not the original: its SHA256 is {SHA256}, and", found.text)

    def test_names_with_escapes(self):
        self.assertEqual(kept_digests.read_line("\\" + MD5 + "  a\\nb\\\\c\\r").name, "a\nb\\c\r")
        self.assertEqual(kept_digests.read_line(MD5 + "  a\\nb").name, "a\\nb")
        self.assertEqual(kept_digests.read_line(f"\\SHA256 (a\\\\b) = {SHA256}").name, "a\\b")

    def test_names_that_are_no_text(self):
        self.assertTrue(self.compare(f"{OTHER}  x\n{SHA256}  ".encode() + b"\xff.mkv\n", os.fsdecode(b"/\xff.mkv")).is_original)

    def test_which_line_is_meant(self):
        lines = f"{OTHER}  a.mkv\n{SHA256}  out.mkv\n{OTHER}  b.mkv\n"
        self.assertTrue(self.compare(lines).is_original)
        self.assertTrue(self.compare(lines, copies=["a.mkv"]).is_original)
        self.assertTrue(self.compare(lines, "/x/new.mkv", ["/y/out.mkv"]).is_original)
        self.assertFalse(self.compare(lines, "/x/new.mkv", ["/y/b.mkv"]).is_original)
        self.assertTrue(self.compare(f"{SHA256}  a name of its own\n", "/x/new.mkv").is_original)

    def test_of_several_the_strongest(self):
        self.assertTrue(self.compare(f"{'0' * 32}  out.mkv\n{SHA256}  out.mkv\n").is_original)

    def test_what_says_nothing(self):
        for lines, copies in ((f"{OTHER}  a.mkv\n{SHA256}  b.mkv\n", []), ("", []), ("nothing\n", []), (f"{SHA256[:-1]}  out.mkv", []),
                              (f"SHA1 (out.mkv) = {SHA256}", []), (f"{OTHER}  a.mkv\n{SHA256}  b.mkv\n", ["a.mkv", "b.mkv"])):
            with self.assertRaises(Fault):
                self.compare(lines, copies=copies)

    def line_of(self, lines, path, name="sums"):
        """The digest of the line of a file in a manifest that lies in a folder `bag`."""
        (self.folder / "bag").mkdir(exist_ok=True)
        manifest = str(self.folder / "bag" / name)
        pathlib.Path(manifest).write_text(lines)
        return kept_digests.line_of(kept_digests.entries(manifest), path, manifest).digest

    def test_the_line_of_a_file_in_a_manifest(self):
        one, two, three = (hashlib.sha256(bytes([number])).hexdigest() for number in range(3))
        lines = f"{one}  data/a.mkv\n{two}  data/more/a.mkv\n{three}  ./b.mkv\n"
        bag = str(self.folder / "bag")
        for path, digest in ((f"{bag}/data/a.mkv", one), (f"{bag}/data/more/a.mkv", two), (f"{bag}/b.mkv", three), (f"{bag}/data/../b.mkv", three),
                             ("data/a.mkv", one), ("./b.mkv", three), ("/far/more/a.mkv", two), ("/far/data/more/a.mkv", two), ("/far/b.mkv", three)):
            self.assertEqual(self.line_of(lines, path), digest, path)

    def test_the_line_from_the_manifests_folder_comes_first(self):
        one, two = (hashlib.sha256(bytes([number])).hexdigest() for number in range(2))
        self.assertEqual(self.line_of(f"{one}  a.mkv\n{two}  {self.folder}/bag/data/a.mkv\n", f"{self.folder}/bag/a.mkv"), one)
        os.symlink(self.folder / "bag", self.folder / "link")
        self.assertEqual(self.line_of(f"{one}  a.mkv\n{two}  data/a.mkv\n", f"{self.folder}/link/data/a.mkv"), two)

    def test_what_a_manifest_does_not_say_of_a_file(self):
        lines = f"{OTHER}  one/a.mkv\n{SHA256}  two/a.mkv\n{SHA256}  b.mkv\n{OTHER}  b.mkv\n"
        for path, fault in (("c.mkv", "sums does not name c.mkv"), ("/x/aa.mkv", "does not name"), ("b.mkv", "sums has two digests of b.mkv"),
                            ("/x/a.mkv", "sums has several lines that may be of /x/a.mkv: those of one/a.mkv and of two/a.mkv")):
            with self.assertRaisesRegex(Fault, fault):
                self.line_of(lines, path)

    def test_the_manifest_of_a_bag(self):
        sha512 = hashlib.sha512(CONTENT).hexdigest()
        for name, line, path in (("manifest-sha256.txt", f"{SHA256} data/a.mkv", "data/a.mkv"), ("manifest-md5.txt", f"{MD5}\t *data/a b.mkv", "data/a b.mkv"),
                                 ("manifest-sha1.txt", f"{SHA1.upper()}   data/100%25.mkv", "data/100%.mkv"), ("tagmanifest-sha512.txt", f"{sha512}  a", "a"),
                                 ("manifest-sha256.txt", f"{SHA256}  data/a%0Ab%20c", "data/a\nb%20c")):
            digest = self.line_of(line + "\n", f"{self.folder}/bag/{path}", name)
            self.assertEqual(digest, hashlib.new(kept_digests.ALGORITHMS[len(digest)], CONTENT).hexdigest())
        for name, line in (("manifest-sha512.txt", f"{SHA256}  a.mkv"), ("manifest-sha256.txt", "a.mkv"), ("manifest-crc32.txt", f"{'0' * 8}  a.mkv")):
            with self.assertRaisesRegex(Fault, "does not name"):
                self.line_of(line + "\n", "a.mkv", name)

    def test_a_file_that_is_checked_is_judged_by_its_line(self):
        kept, part = self.folder / "kept", str(self.folder / "part")
        kept.write_text(f"{OTHER}  one/part\n{SHA256}  part\n")
        self.assertTrue(kept_digests.compare(str(kept), part, part, [part]).is_original)
        kept.write_text(f"{OTHER}  a.mkv\n{SHA256}  b.mkv\n")
        with self.assertRaisesRegex(Fault, "kept does not name .*part"):
            kept_digests.compare(str(kept), part, part, [part])
        kept.write_text(f"{SHA256}  another.mkv\n")
        self.assertTrue(kept_digests.compare(str(kept), part, part, [part]).is_original)

    def test_a_long_line_is_refused(self):
        with self.assertRaisesRegex(Fault, "too long"):
            self.compare(b"x" * (1 << 17))

    def test_a_file_that_is_not_there(self):
        with self.assertRaisesRegex(Fault, "cannot read /nowhere"):
            kept_digests.compare("/nowhere", str(self.folder / "part"), "out", [])

    def test_the_digest_of_a_copy(self):
        with made.opened(CONTENT) as (copy,):
            self.assertEqual(kept_digests.sha256(copy), SHA256)


class FrameDigestTest(unittest.TestCase):
    def read(self, text):
        return kept_digests.read_frames(text.splitlines())

    def test_what_ffmpeg_is_asked_for(self):
        words = kept_digests.command("/a.mkv", self.read(FRAMES.format(codec="ffv1")))
        self.assertEqual(words[words.index("-map"):], ["-map", "0:v:0", "-c:0", "copy", "-map", "0:a:0", "-c:1", "pcm_s16le", "-f", "framehash",
                                                       "-hash", "MD5", "-format_version", "2", "-"])
        self.assertIn("file:/a.mkv", words)

    def test_words_of_a_file_are_not_trusted(self):
        words = kept_digests.command("/a.mkv", self.read(FRAMES.format(codec="copy -f mp4 /etc/passwd")))
        self.assertFalse([word for word in words if "passwd" in word])
        self.assertEqual(self.read(FRAMES.replace("#hash: MD5", "#hash: MD5 -f mp4")).hash, "MD5")
        self.assertEqual(self.read(FRAMES.replace("#hash: MD5", "#hash: SHA256")).hash, "SHA256")
        self.assertEqual(self.read(FRAMES.replace("#hash: MD5", "#hash: SHA256 -f mp4")).hash, "MD5")
        with self.assertRaisesRegex(Fault, "too many streams"):
            self.read("999, 0, 0, 1, 2, aa")
        self.assertFalse(self.read(f"#media_type {'9' * 5000}: video\n\u00b2, 0, 0, 1, 2, aa\n#version: \u00b2").frames)

    def test_equal_frames(self):
        wanted = self.read(FRAMES.format(codec="rawvideo"))
        self.assertEqual(kept_digests.differences(wanted, self.read(FRAMES.format(codec="rawvideo").lower())), {})
        self.assertEqual(wanted.frames[0][1], ("1", "76800", "b" * 32))

    def test_frames_that_differ(self):
        wanted = self.read(FRAMES.format(codec="rawvideo"))
        for old, new, found in (("b" * 32, "b" * 31 + "0", {0: [1]}), ("0,          2,          2,        1,    76800, " + "d" * 32 + "\n", "", {0: [2]}),
                                ("     9216", "     9217", {1: [0]}), ("0,          2,          2", "0,          2,          3", {0: [2]})):
            self.assertEqual(kept_digests.differences(wanted, self.read(FRAMES.replace(old, new))), found)
        more = self.read(FRAMES + "0,          3,          3,        1,    76800, " + "e" * 32)
        self.assertEqual(kept_digests.differences(wanted, more), {0: [3]})

    def test_times_are_compared_where_both_count_them_alike(self):
        other = FRAMES.replace("#tb 0: 1/25", "#tb 0: 1/1000").replace("0,          2,          2", "0,         80,         80")
        self.assertEqual(kept_digests.differences(self.read(FRAMES), self.read(other)), {})

    def test_the_sentence(self):
        with tempfile.TemporaryDirectory() as folder:
            kept = os.path.join(folder, "kept")
            pathlib.Path(kept).write_text(FRAMES)
            other = self.read(FRAMES.replace("b" * 32, "e" * 32).replace("d" * 32, "e" * 32))
            with mock.patch.object(kept_digests, "make_frames", return_value=other):
                found = kept_digests.compare(kept, "/a.mkv", "out.mkv", [])
            with mock.patch.object(kept_digests, "make_frames", return_value=self.read(FRAMES)):
                same = kept_digests.compare(kept, "/a.mkv", "out.mkv", [])
        self.assertFalse(found.is_original)
        self.assertTrue(found.text.endswith("differ: stream 0: frames 1 to 2"))
        self.assertTrue(same.is_original and same.text.startswith("out.mkv has the original's frames"))

    def test_runs(self):
        self.assertEqual(kept_digests.runs([1, 2, 3, 7]), "frames 1 to 3, 7")
        self.assertTrue(kept_digests.runs(list(range(0, 40, 2))).endswith("and 10 more"))
