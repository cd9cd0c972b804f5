"""mend-collection: which reels belong together, what digests say, how tasks are divided, and what becomes of a reel."""
import dataclasses
import hashlib
import json
import os
import pathlib
import sys
import tempfile
import unittest
from unittest import mock

from mend_collection import collection, command, judging, reports
from mend_collection.collection import Collection, Copy, Counts, Reel, Result, State, Verdict
from mend_reel.model import Fault

sys.path.insert(0, str(pathlib.Path(__file__).resolve().parents[1]))
import schema

UNDAMAGED, DAMAGED = Copy(State.UNDAMAGED, "", Counts(8, 0, 0, 0, 144)), Copy(State.DAMAGED, "damaged in one frame", Counts(8, 1, 0, 0, 900))
FOUND = {"copies": [{"path": "x: y.mkv"}], "verdict": {"status": 3, "sentence": "x: y.mkv: damaged in one frame."},
         "frame_counts": {"all": 8, "damaged": 1, "restored": 0, "woven": 0, "not_restored": 0},
         "sizes": {"verified": 9, "agreed": 1, "read": 2, "alone": 3, "open": 4}}
NOT_TEXT = os.fsdecode(b"not \xff.mkv")


class FolderTest(unittest.TestCase):
    def setUp(self):
        folder = tempfile.TemporaryDirectory()
        self.addCleanup(folder.cleanup)
        self.top = pathlib.Path(folder.name).resolve()
        self.one, self.two = (str(self.top / name) for name in ("one", "two"))

    def write(self, path, content=b"content"):
        (self.top / path).parent.mkdir(parents=True, exist_ok=True)
        (self.top / path).write_bytes(content)

    def judges(self, *names):
        folders = [collection.find(str(self.top / name)) for name in names]
        return (folders, *collection.read_judges(folders))


class PairingTest(FolderTest):
    def test_files_of_one_path_are_a_reel(self):
        for path in ("one/a.mkv", "two/a.mkv", "one/sub/b.AVI", "two/sub/c.nut", "one/d.mka", "two/e.txt", f"one/{NOT_TEXT}"):
            self.write(path)
        reels = collection.pair([collection.find(self.one), collection.find(self.two)])
        has = {reel.path: [file is not None for file in reel.files] for reel in reels}
        self.assertEqual(has, {"a.mkv": [True, True], "sub/b.AVI": [True, False], "sub/c.nut": [False, True], NOT_TEXT: [True, False]})

    def test_links_are_followed_and_not_in_a_circle(self):
        self.write("one/a.mkv")
        (self.top / "one/circle").symlink_to(self.top / "one")
        (self.top / "else").mkdir()
        self.write("else/b.mkv")
        (self.top / "one/else").symlink_to(self.top / "else")
        self.assertEqual(list(collection.find(self.one).files), ["a.mkv", "else/b.mkv"])

    def test_what_cannot_be_a_collection_is_refused(self):
        for path in ("one/a.mkv", "one/sub/a.mkv", "two/a.mkv", "full/a.txt"):
            self.write(path)
        both = [self.one, self.two]
        for names, out, fault in (([self.one, self.one], "out", "is "), ([self.one, f"{self.one}/sub"], "out", "lies in"),
                                  (both, f"{self.one}/x/y", "lies in"), (both, str(self.top), "lies in"),
                                  (both, str(self.top / "full"), "has files")):
            with self.subTest(names=names, out=out), self.assertRaisesRegex(Fault, fault):
                collection.refuse(names, out)
        collection.refuse(both, str(self.top / "out"))
        with self.assertRaisesRegex(Fault, "no reel is in two of the folders"):
            collection.pair([collection.find(f"{self.one}/sub"), collection.find(str(self.top / "full"))])


class DigestTest(FolderTest):
    def test_manifests_and_digests_beside_reels_judge_them(self):
        made = hashlib.sha256(b"content").hexdigest()
        for path in ("one/bag/data/a.mkv", "two/bag/data/a.mkv", "one/b.mkv", "two/b.mkv"):
            self.write(path)
        self.write("one/bag/manifest-sha256.txt", f"{made} data/a.mkv\n{made} data/gone.mkv\n{made} data/gone.txt\n{made} data/%25.mkv\n".encode())
        self.write("one/b.mkv.md5", hashlib.md5(b"content").hexdigest().upper().encode() + b"\n")
        self.write("two/b.mkv.sha256", f"{made} *b.mkv\n".encode())
        self.write("two/bag/data/a.mkv.sha1", b"no digest\n")
        (one, two), lost, notes = self.judges("one", "two")
        manifest = f"{self.one}/bag/manifest-sha256.txt"
        self.assertEqual(one.judges, {"bag/data/a.mkv": [("sha256", made, manifest)],
                                      "b.mkv": [("md5", hashlib.md5(b"content").hexdigest(), f"{self.one}/b.mkv.md5")]})
        self.assertEqual(two.judges, {"b.mkv": [("sha256", made, f"{self.two}/b.mkv.sha256")]})
        self.assertEqual(lost, {"bag/data/gone.mkv": manifest, "bag/data/%.mkv": manifest})
        self.assertEqual([note.split(":")[0] for note in notes],
                         [f"{manifest} names bag/data/gone.txt, and no folder has it", f"{self.two}/bag/data/a.mkv.sha1 is not used"])

    def test_what_another_folder_has_is_not_lost(self):
        self.write("one/manifest-md5.txt", f"{'0' * 32}  a.mkv\n".encode())
        self.write("two/a.mkv")
        _, lost, notes = self.judges("one", "two")
        self.assertEqual((lost, notes), ({}, []))

    def test_a_digest_says_more_than_a_check(self):
        self.write("a", b"content")
        path, right, wrong = str(self.top / "a"), ("sha256", hashlib.sha256(b"content").hexdigest(), "m"), ("md5", "0" * 32, "n")
        self.assertEqual(judging.by_digests(path, DAMAGED, [right]), Copy(State.UNDAMAGED, "", Counts(8, 0, 0, 0, 0), True))
        not_original = Copy(State.DAMAGED, "its MD5 is not that of n", UNDAMAGED.counts, False)
        self.assertEqual(judging.by_digests(path, UNDAMAGED, [right, wrong]), not_original)
        self.assertEqual(judging.by_digests(path, DAMAGED, []), DAMAGED)
        self.assertEqual(judging.by_digests(f"{path}-none", DAMAGED, [right]), DAMAGED)

    def test_digests_of_different_files_judge_their_own_copies_alone(self):
        one, other, longer = ["md5", "0" * 32, "m"], ["md5", "1" * 32, "n"], ["sha1", "2" * 40, "o"]
        self.assertEqual(judging.common_judges(Reel("a", [], [[one], [longer]])), [one, longer])
        self.assertEqual(judging.common_judges(Reel("a", [], [[one], [other]])), [])


class ResultTest(FolderTest):
    def setUp(self):
        super().setUp()
        self.collection = Collection([self.one, self.two], ["one", "two"], str(self.top / "out"), False)
        self.addCleanup(os.close, self.collection.open(False))
        self.reel = Reel(NOT_TEXT, [[1, 2], None], [[["md5", "0", "m"]], []])

    def result(self, verdict=Verdict.UNDAMAGED, **more):
        return Result(NOT_TEXT, self.collection.mark(self.reel), verdict, "why", [UNDAMAGED, Copy(State.MISSING)], UNDAMAGED.counts, **more)

    def test_a_result_is_read_as_it_was_written(self):
        self.assertIsNone(self.collection.read(self.reel))
        self.collection.write(self.result())
        self.assertEqual(self.collection.read(self.reel), self.result())
        again = Reel(*json.loads(json.dumps(self.reel)))
        self.assertEqual(self.collection.read(again), self.result())

    def test_a_result_is_of_files_with_their_sizes_times_and_digests(self):
        self.collection.write(self.result())
        for other in (self.reel._replace(files=[[1, 3], None]), self.reel._replace(files=[[2, 2], None]), self.reel._replace(files=[[1, 2], [1, 2]]),
                      self.reel._replace(judges=[[], []]), self.reel._replace(judges=[[["md5", "1", "m"]], []])):
            self.assertIsNone(self.collection.read(other))
        self.assertIsNotNone(self.collection.read(self.reel._replace(judges=[[["md5", "0", "other name"]], []])))

    def test_half_a_result_is_none(self):
        self.collection.write(self.result())
        path = self.collection.result_path(NOT_TEXT)
        pathlib.Path(path).write_text(pathlib.Path(path).read_text()[:-9])
        self.assertIsNone(self.collection.read(self.reel))

    def test_which_reels_are_settled(self):
        self.assertFalse(self.collection.is_settled(self.reel))
        for result, is_written, is_settled in ((self.result(), False, True), (self.result(), True, False), (self.result(is_made=True), True, True),
                                               (self.result(Verdict.UNREADABLE), False, False), (self.result(Verdict.DOUBT), False, True)):
            self.collection.write(result)
            self.collection.is_written = is_written
            self.assertEqual(self.collection.is_settled(self.reel), is_settled)

    def test_a_second_run_is_refused_and_anew_forgets(self):
        with self.assertRaisesRegex(Fault, "another run works in"):
            self.collection.open(False)

    def test_the_reports(self):
        results = [Result('a,"b"\n.mkv', "", Verdict.UNDAMAGED, "", [UNDAMAGED, UNDAMAGED], Counts(8, 0, 0, 0, 0)), self.result(Verdict.DOUBT),
                   Result("c.mkv", "", Verdict.UNREADABLE, "</script>"), Result("d.mkv", "", Verdict.MENDED, "")]
        lines = reports.write(self.collection, results, ["a note"])
        self.assertEqual(lines, [f"{NOT_TEXT}: in doubt: why", "c.mkv: unreadable: </script>", "d.mkv: mended", "a note",
                                 "4 reels: 1 undamaged, 1 mended, 1 in doubt, 1 unreadable"])
        table = (self.top / "out/collection.csv").read_bytes()
        self.assertEqual(table, b"path,verdict,good,frames,damaged,restored,lost,unchecked_bytes,reason\r\n"
                                b'"a,""b""\n.mkv",undamaged,one;two,8,0,0,0,0,\r\n'
                                b"not \xff.mkv,in doubt,one,8,0,0,0,144,why\r\nc.mkv,unreadable,,,,,,,</script>\r\nd.mkv,mended,,,,,,,\r\n")
        document = json.loads((self.top / "out/collection.json").read_text())
        self.assertEqual(schema.faults(document, schema.COLLECTION), "")
        self.assertEqual([row["path"] for row in document["reels"]], ["c.mkv", "not \ufffd.mkv", "d.mkv", 'a,"b"\n.mkv'])
        self.assertEqual((self.top / "out/index.html").read_text().count("</script>"), 2)


class VerdictTest(FolderTest):
    def compared(self, contents, copies):
        paths = []
        for number, content in enumerate(contents):
            self.write(str(number), content)
            paths.append(str(self.top / str(number)))
        result = Result("a", "", Verdict.UNDAMAGED, "", copies)
        judging.compare(result, paths, ["one", "two", "three"])
        return result.verdict, result.good(), result.reason, result.counts

    def test_undamaged_copies_that_are_alike_vouch_for_each_other(self):
        self.assertEqual(self.compared([b"a", b"a", b"b"], [UNDAMAGED, UNDAMAGED, DAMAGED]), (Verdict.UNDAMAGED, [0, 1], "", Counts(8, 1, 0, 0, 0)))

    def test_rot_leaves_size_and_time(self):
        for name, content in (("0", b"a"), ("1", b"b")):
            self.write(name, content)
            os.utime(self.top / name, (1, 1))
        result = Result("a", "", Verdict.UNDAMAGED, "", [UNDAMAGED, UNDAMAGED])
        judging.compare(result, [str(self.top / "0"), str(self.top / "1")], ["one", "two"])
        self.assertEqual(result.verdict, Verdict.DOUBT)

    def test_one_file_in_two_folders_vouches_for_nothing(self):
        (self.top / "1").symlink_to("0")
        self.assertEqual(self.compared([b"a", b"a"], [UNDAMAGED, UNDAMAGED]), (Verdict.UNDAMAGED, [0, 1], "", Counts(8, 0, 0, 0, 144)))

    def test_one_undamaged_copy_has_bytes_that_nothing_checks(self):
        self.assertEqual(self.compared([b"a", b"b"], [DAMAGED, UNDAMAGED]), (Verdict.UNDAMAGED, [1], "", Counts(8, 1, 0, 0, 144)))

    def test_undamaged_copies_that_differ_are_in_doubt(self):
        self.assertEqual(self.compared([b"a", b"a", b"ab"], [UNDAMAGED] * 3),
                         (Verdict.DOUBT, [0, 1, 2], "one and three have undamaged copies that differ", Counts(8, 0, 0, 0, 144)))

    def test_a_copy_that_changes_meanwhile_is_refused(self):
        self.write("a.mkv")
        reel = Reel("a.mkv", [collection.state_of(str(self.top / "a.mkv")), None], [[], []])
        judging.verify([str(self.top / "a.mkv"), "none"], reel)
        self.write("a.mkv", b"other")
        with self.assertRaisesRegex(Fault, "changed while it was judged"):
            judging.verify([str(self.top / "a.mkv"), "none"], reel)

    def test_what_a_document_has_of_a_file(self):
        self.assertEqual(judging.copy_of(FOUND), Copy(State.DAMAGED, "damaged in one frame", Counts(8, 1, 0, 0, 9)))
        self.assertEqual(judging.copy_of({"path": "x", "status": 1, "fault": "no video"}), Copy(State.UNREADABLE, "no video"))


class RunTest(FolderTest):
    """A task of two reels in two folders, with a checker that says of each copy that it is undamaged."""

    def setUp(self):
        super().setUp()
        for path in ("one/a.mkv", "two/a.mkv", "one/b.mkv", "two/b.mkv"):
            self.write(path)
        self.collection = Collection([self.one, self.two], ["one", "two"], str(self.top / "out"), False)
        self.addCleanup(os.close, self.collection.open(False))
        self.reels = collection.pair([collection.find(self.one), collection.find(self.two)])
        self.task, self.checked = self.top / "task", []
        self.task.write_text(json.dumps([dataclasses.asdict(self.collection), self.reels]))

    def run_with(self, work=lambda: None, state=UNDAMAGED):
        def check(paths):
            work()
            self.checked += paths
            return [state] * len(paths)

        with mock.patch.object(judging, "check", check):
            return judging.run_task(str(self.task))

    def test_each_copy_is_checked_and_each_reel_has_a_result(self):
        self.assertEqual(self.run_with(), 0)
        self.assertEqual(self.checked, [f"{self.top}/{path}" for path in ("one/a.mkv", "two/a.mkv", "one/b.mkv", "two/b.mkv")])
        self.assertEqual([self.collection.read(reel).verdict for reel in self.reels], [Verdict.UNDAMAGED] * 2)

    def test_a_task_that_is_tried_again_judges_what_has_no_result(self):
        self.collection.write(Result("a.mkv", self.collection.mark(self.reels[0]), Verdict.MENDED, ""))
        self.run_with()
        self.assertEqual(self.checked, [f"{self.one}/b.mkv", f"{self.two}/b.mkv"])
        self.assertEqual(self.collection.read(self.reels[0]).verdict, Verdict.MENDED)

    def test_a_task_of_a_run_that_was_stopped_writes_nothing(self):
        with self.assertRaisesRegex(Fault, "is gone"):
            self.run_with(self.task.unlink)
        self.assertEqual([self.collection.read(reel) for reel in self.reels], [None, None])

    def test_a_copy_that_changes_meanwhile_gives_no_verdict(self):
        self.assertEqual(self.run_with(lambda: self.write("two/b.mkv", b"changed")), 1)
        first, second = map(self.collection.read, self.reels)
        self.assertEqual((first.verdict, second.verdict), (Verdict.UNDAMAGED, Verdict.UNREADABLE))
        self.assertIn(f"{self.two}/b.mkv changed while it was judged", second.reason)
        self.assertFalse(self.collection.is_settled(self.reels[1]))

    def test_nothing_is_made_of_copies_that_change_meanwhile(self):
        def mended(words, folder):
            self.write("two/a.mkv", b"changed")
            for name in ("a.mkv", "b.mkv", "page", "document"):
                pathlib.Path(folder, name).touch()
            return [{**FOUND, "verdict": {"status": 0, "sentence": "", "reasons": []}}], ""

        with mock.patch.object(judging, "mend_reel", mended):
            self.assertEqual(self.run_with(state=DAMAGED), 1)
        self.assertFalse((self.top / "out/a.mkv").exists())
        self.assertFalse((self.top / "out/a.mkv.html").exists())

    def test_digests_of_one_copy_judge_all_if_they_agree(self):
        right, wrong = (hashlib.md5(content).hexdigest() for content in (b"content", b"other"))
        first, second = ["md5", right, "m"], ["md5", wrong, "n"]
        for judges, good in (([[first], []], [0, 1]), ([[], [second]], []), ([[first], [second]], [0])):
            reel = self.reels[0]._replace(judges=judges)
            paths = [f"{self.one}/a.mkv", f"{self.two}/a.mkv"]
            with mock.patch.object(judging, "mend_reel", lambda words, folder: ([], "no mending")):
                result = judging.judged(self.collection, reel, dict.fromkeys(paths, DAMAGED))
            self.assertEqual(result.good(), good)
            self.assertEqual("m and n have different digests" in result.reason, good == [0])

    def test_where_a_call_fails_each_file_is_checked_alone(self):
        def once(words, folder):
            return ([{"path": words[-1], "fault": "bad"}] if len(words) == 3 else []), "out of memory"

        with mock.patch.object(judging, "mend_reel", once):
            self.assertEqual(judging.check(["a", "b"]), [Copy(State.UNREADABLE, "bad")] * 2)
        with mock.patch.object(judging, "mend_reel", lambda words, folder: ([], "out of memory")):
            self.assertEqual(judging.check(["a", "b"]), [Copy(State.UNREADABLE, "out of memory")] * 2)
        self.assertEqual(judging.check([]), [])


class TaskTest(FolderTest):
    def sizes(self, *sizes):
        return [[reel.files[0][0] for reel in task] for task in command.divided([Reel("", [[size, 0], None], []) for size in sizes])]

    def test_few_reels_have_a_task_each_and_small_ones_one_together(self):
        self.assertEqual(self.sizes(1, 2, 3), [[1], [2], [3]])
        self.assertEqual([len(task) for task in self.sizes(*[1] * 130)], [4] * 32 + [2])
        self.assertEqual({len(task) for task in self.sizes(*[1] * 16000)}, {128})
        self.assertEqual(self.sizes(), [])

    def test_large_reels_have_a_task_each(self):
        large = command.MOST_BYTES
        self.assertEqual(self.sizes(*[1] * 126, large, large, 1)[-3:], [[large], [large], [1]])

    def test_the_log_of_gnu_parallel(self):
        self.write("log", b"Seq\tHost\tStarttime\tJobRuntime\tSend\tReceive\tExitval\tSignal\tCommand\n1\t:\t1.0\t 0.1\t0\t0\t0\t0\tx y\n"
                          b"12\tfar\t1.0\t 0.1\t0\t0\t255\t9\tx\ty\n3\t:\t1.0\t 0.1")
        self.assertEqual(command.read_log(str(self.top / "log")), {1: "its task ended on : with status 0, signal 0",
                                                                   12: "its task ended on far with status 255, signal 9"})


if __name__ == "__main__":
    unittest.main()
