"""The report for machines, and the page."""
import base64
import dataclasses
import html
import html.parser
import io
import json
import os
import re
import unittest
from unittest import mock

import schema
from mend_reel.copies.arrangement import Matched
from mend_reel.judging.kept_digests import Compared
from mend_reel.judging.reasons import Why
from mend_reel.judging.results import FrameState, NearEnd
from mend_reel.mending.verdict import Evidence, judge
from mend_reel.model import Because, Content, Kind, Outcome, SliceReport, State
from mend_reel.reports import json_document, page, timeline
from mend_reel.reports.pictures import Drawn, Tiles
from mend_reel.reports.summary import CopySummary, Role, Summary, Unreadable
from mend_reel.reports.timeline import COLUMNS, Shade, Timeline
from .test_verdict import element, missing, plain, recording, repaired, settled, undivided, voted

DAMAGED = (Outcome(element(1), State.MISSING, 0, "10", {0: (settled("11", 100), missing("10", 40, 100), settled("01", 0, 40))}),
           Outcome(element(3), State.WOVEN, 4, "00", {0: (SliceReport(0, 300, "woven", 4, "00"),)}),
           Outcome(element(4), State.WHOLE, 0, "10"))


def summary(layout, *outcomes, out=True, copies=2, compared=None, **more):
    judged = judge(Evidence(layout, layout.stretches, outcomes, layout, compared=compared))
    of_copies = [CopySummary(f"/films/copy-{number}.mkv", layout.size, "matroska", verified=layout.size // 2) for number in range(copies)]
    return Summary("2026-11-26T12:00:00Z", {"mend-reel": "0.2.0"}, ["mend-reel", "out.mkv", "a<b>.mkv"], of_copies,
                   CopySummary("/films/out.mkv", layout.size, "matroska", sha256="ab" * 32) if out else None, layout, judged, **more)


def unreadable(path="/films/lost.mkv"):
    return Unreadable("2026-11-26T12:00:00Z", {"mend-reel": "0.2.0"}, ["mend-reel"], path, f"cannot read {path}: Input/output error")


class Strict(html.parser.HTMLParser):
    """Sees that each element is closed in its turn, and keeps what is shown."""

    VOID = {"meta", "br", "img"}

    def __init__(self):
        super().__init__()
        self.open, self.words, self.links = [], [], []

    def handle_starttag(self, tag, attrs):
        self.links += [value for name, value in attrs if name in ("src", "href")]
        if tag not in self.VOID:
            self.open.append(tag)

    def handle_startendtag(self, tag, attrs):
        self.links += [value for name, value in attrs if name in ("src", "href")]

    def handle_endtag(self, tag):
        assert self.open.pop() == tag, tag

    def handle_data(self, data):
        self.words.append(data)


class MachineTest(unittest.TestCase):
    def read(self, made):
        file = io.StringIO()
        json_document.write(file, [made])
        whole = json.loads(file.getvalue())
        self.assertEqual(schema.faults(whole), "")
        read, = whole.pop("files")
        return {**whole, **read}

    def test_what_is_damaged(self):
        read = self.read(summary(recording(), *DAMAGED, compared=Compared(False, "it is not", True), notes=["a note"]))
        self.assertEqual((read["format"], read["format_version"], read["date"], read["command"][2]), ("mend-reel", 2, "2026-11-26T12:00:00Z", "a<b>.mkv"))
        self.assertEqual(read["frame_counts"], {"all": 6, "damaged": 2, "restored": 1, "woven": 1, "not_restored": 1})
        self.assertEqual(sum(read["sizes"].values()), recording().size)
        self.assertEqual((read["verdict"]["status"], read["verdict"]["reasons"][0]["why"], read["digest"]["is_original"]), (3, "damaged", False))
        first, second, third = read["stretches"]
        self.assertEqual((first["stretch"], first["state"], first["is_open"], first["range"], first["times"]), (5, "missing", True, [624, 1124], [0.04, 0.04]))
        self.assertEqual(first["places"], [{"copy": 1, "range": [624, 1124], "is_alike": True}, {"copy": 2, "range": [624, 1124], "is_alike": False}])
        self.assertEqual(first["frames"][0]["slices"], [
            {"range_in_frame": [100, 300], "state": "settled", "combinations": 0, "given_by": [1, 2]},
            {"range_in_frame": [40, 100], "state": "missing", "combinations": 0, "given_by": [1]},
            {"range_in_frame": [0, 40], "state": "settled", "combinations": 0, "given_by": [2]}])
        self.assertEqual((second["combinations"], second["frames"][0]["state"], third["frames"]), (4, "woven", []))
        self.assertEqual(read["notes"][0], "a note")

    def test_where_a_frame_that_decodes_was_guessed(self):
        outcomes = [Outcome(element(number), State.MISSING, 0, "00", {0: (settled("11", 100), repaired("00", 0, 100))}) for number in range(4)]
        near = {recording().frames[number].place: each for number, each in enumerate(NearEnd)}
        found = judge(Evidence(recording(), recording().stretches, outcomes, recording(), decoded=near))
        read = self.read(dataclasses.replace(summary(recording()), verdict=found))
        self.assertEqual([(frame["guessed_near_end"], frame["state"]) for stretch in read["stretches"] for frame in stretch["frames"]],
                         [("none", "woven"), ("some", "woven"), ("all", "not restored"), (None, "not restored")])
        self.assertEqual([reason["why"] for reason in read["verdict"]["reasons"]], ["beside", "near_end", "repaired"])
        self.assertIn("frame 1 (0:00:00.040, bytes 724 to 1024): restored with a slice that is voted", read["notes"][0])

    def test_the_tiles_of_frames_that_are_shown(self):
        made = summary(recording(), *DAMAGED)
        lost = next(result for result in made.verdict.results.frames.values() if result.state is FrameState.LOST)
        made.shown = [Drawn(lost, Tiles(frozenset({7, 5}), frozenset({3}), frozenset({2, 1})), 24)]
        first, second, _ = self.read(made)["stretches"]
        self.assertEqual(first["frames"][0]["tiles"], {"count": 24, "lost": [5, 7], "undecodable": [3], "unclean": [1, 2], "is_keyframe": True})
        self.assertEqual([frame["tiles"] for frame in second["frames"]], [None])
        made.shown = [Drawn(lost, Tiles(frozenset({0}), is_key=False), 1)]
        self.assertIs(self.read(made)["stretches"][0]["frames"][0]["tiles"]["is_keyframe"], False)
        self.assertIsNone(self.read(summary(recording(), *DAMAGED))["stretches"][0]["frames"][0]["tiles"])

    def test_nothing_is_damaged(self):
        read = self.read(summary(recording(), out=False))
        self.assertEqual((read["stretches"], read["out"], read["digest"], read["verdict"]["reasons"]), ([], None, None, []))

    def test_a_path_that_is_no_text_comes_back(self):
        path = os.fsdecode(b"/films/\xff\xfe.mkv")
        made = summary(recording(), notes=[f"note of {path}"])
        made.copies[1].path = path
        copies = self.read(made)["copies"]
        self.assertEqual(bytes.fromhex(copies[1]["path_hex"]), os.fsencode(path))
        self.assertEqual((copies[1]["path"], copies[0]["path_hex"] is None), ("/films/\ufffd\ufffd.mkv", True))


class SchemaTest(unittest.TestCase):
    def document(self):
        file = io.StringIO()
        json_document.write(file, [summary(recording(), *DAMAGED, notes=["a note"]), summary(recording(), out=False), unreadable()])
        return json.loads(file.getvalue())

    def test_the_schema_names_the_words_of_the_program_and_no_others(self):
        defs = json.loads(schema.SCHEMA.read_text())["$defs"]

        def words(name, field):
            return set(defs[name]["properties"][field]["enum"]) - {None}

        self.assertEqual(set(defs["content"]["enum"]), {content.value for content in Content})
        self.assertEqual(words("reason", "why"), {why.name.lower() for why in Why})
        self.assertEqual(words("reason", "because"), {because.name.lower() for because in Because if because.value})
        self.assertEqual(words("stretch", "state"), {state.value for state in State})
        self.assertEqual(words("stretch", "checksum"), {kind.value for kind in Kind})
        self.assertEqual(words("frame", "state"), {state.value for state in FrameState})
        self.assertEqual(words("frame", "guessed_near_end"), {near.value for near in NearEnd})
        self.assertEqual(words("copy", "role"), set(json_document.ROLES.values()))

    def test_several_files_are_one_document(self):
        made = self.document()
        self.assertEqual((schema.faults(made), len(made["files"]), made["files"][1]["out"]), ("", 3, None))

    def test_a_file_that_could_not_be_judged_has_its_entry(self):
        for entries in ([unreadable()], [unreadable(), summary(recording(), out=False)]):
            file = io.StringIO()
            json_document.write(file, entries)
            made = json.loads(file.getvalue())
            self.assertEqual((schema.faults(made), made["date"], len(made["files"])), ("", "2026-11-26T12:00:00Z", len(entries)))
            self.assertEqual(made["files"][0], {"path": "/films/lost.mkv", "path_hex": None, "status": 1,
                                                "fault": "cannot read /films/lost.mkv: Input/output error"})
        file = io.StringIO()
        json_document.write(file, [unreadable(os.fsdecode(b"/\xff.mkv"))])
        self.assertEqual((schema.faults(json.loads(file.getvalue())), json.loads(file.getvalue())["files"][0]["path_hex"]), ("", "2fff2e6d6b76"))

    def test_the_schema_refuses_other_documents(self):
        changes = [
            lambda made: made.pop("date"), lambda made: made.update(more=1), lambda made: made.update(format_version=1),
            lambda made: made["files"][0].pop("stretches"), lambda made: made["files"][0]["sizes"].update(verified=-1),
            lambda made: made["files"][0]["stretches"][0].update(state="good"), lambda made: made["files"][0]["stretches"][0].update(range=[1]),
            lambda made: made["files"][0]["copies"][0].update(copy=0), lambda made: made["files"][0]["copies"][0].update(sha256="ab"),
            lambda made: made["files"][0]["verdict"].update(status=1), lambda made: made["files"][0]["verdict"]["reasons"][0].update(times=[1, 2, 3]),
            lambda made: made["files"][0]["stretches"][0]["frames"][0]["slices"][0].pop("given_by"), lambda made: made.update(files=[]),
            lambda made: made["files"][2].pop("fault"), lambda made: made["files"][2].update(status=3), lambda made: made["files"][2].update(out=None)]
        for change in changes:
            made = self.document()
            change(made)
            self.assertNotEqual(schema.faults(made), "")


class PageTest(unittest.TestCase):
    def page(self, made):
        file = io.StringIO()
        page.write(file, [made])
        seen = Strict()
        seen.feed(file.getvalue())
        seen.close()
        self.assertEqual((seen.open, [link for link in seen.links if not link.startswith("data:image/png;base64,")]), ([], []))
        self.assertNotRegex(file.getvalue(), r"<script|url\(|@import|http")
        return file.getvalue(), " ".join(seen.words)

    def test_the_verdict_comes_first(self):
        _, words = self.page(summary(recording(), *DAMAGED, compared=Compared(False, "it is not the original", True), notes=["a note"]))
        order = [words.index(each) for each in ("it is not the original", "not restored",
                                                "pass a checksum", "What is in doubt", "a note", "SHA-256", "Where the damage lies", "Damaged frames", "2026-11-26")]
        self.assertEqual(order, sorted(order))

    def test_only_damaged_slices_are_shown(self):
        _, words = self.page(summary(recording(), *DAMAGED))
        self.assertIn("40 to 100: none passes", words)
        self.assertIn("0 to 40: that of copy 2", words)
        self.assertIn("woven from several copies, one of 4 combinations", words)
        self.assertNotIn("100 to 300", words)

    def test_a_repaired_slice_is_shown(self):
        slices = (settled("11", 100), repaired("00", 0, 100))
        _, words = self.page(summary(recording(), Outcome(element(1), State.MISSING, 0, "00", {0: slices})))
        self.assertIn("0 to 100: one wrong bit inverted, one of 2400 repairs", words)

    def test_a_voted_slice_is_shown(self):
        slices = (settled("11", 100), voted("00", 0, 100))
        _, words = self.page(summary(recording(), Outcome(element(1), State.MISSING, 0, "00", {0: slices})))
        self.assertIn("0 to 100: what most copies have, one of 4 combinations", words)

    def test_a_repaired_slice_of_a_frame_that_decodes_is_shown(self):
        slices = (settled("11", 100), repaired("00", 0, 100))
        found = judge(Evidence(recording(), recording().stretches, [Outcome(element(1), State.MISSING, 0, "00", {0: slices})], recording(), decoded={724: NearEnd.NONE}))
        _, words = self.page(dataclasses.replace(summary(recording()), verdict=found))
        self.assertIn("woven 0 to 100: one wrong bit inverted, one of 2400 repairs", words)

    def test_a_place_that_is_not_divided_is_shown(self):
        slices = (settled("11", 200), undivided("10", 100, 200), settled("01", 0, 100))
        _, words = self.page(summary(recording(), Outcome(element(1), State.MISSING, 0, "10", {0: slices})))
        self.assertIn("100 to 200: the footers do not lead there", words)
        self.assertIn("0 to 100: that of copy 2", words)

    def test_other_damage(self):
        _, words = self.page(summary(recording(), *DAMAGED))
        self.assertIn("Other damage", words)
        self.assertEqual(words.count("frames and sound"), 1)

    def test_a_share_of_a_copy_is_not_rounded_to_all(self):
        made = summary(recording(), *DAMAGED)
        for copy, verified in zip(made.copies, (9996, 10000)):
            copy.size, copy.verified = 10000, verified
        text, _ = self.page(made)
        self.assertEqual((text.count(">99.9 %<"), text.count(">100 %<"), text.count("100.0 %")), (1, 1, 0))

    def test_names_are_no_markup(self):
        made = summary(recording(), *DAMAGED)
        made.copies[0].path, made.out.path = "/<script>alert(1)</script>&.mkv", os.fsdecode(b"/\xff<b>.mkv")
        text, words = self.page(made)
        self.assertIn("/<script>alert(1)</script>&.mkv", words)
        text.encode("utf-8")

    def test_one_copy_and_no_frames(self):
        layout = recording(0)
        _, words = self.page(summary(layout, out=False, copies=1))
        self.assertIn("/films/copy-0.mkv is what was recorded", words)

    def test_without_out_the_page_names_none(self):
        _, words = self.page(summary(recording(), *DAMAGED, out=False, copies=1))
        self.assertIn("Bytes of /films/copy-0.mkv", words)
        self.assertNotRegex(words, r"\bOUT\b")

    def test_pictures_of_frames_that_are_not_restored(self):
        made = summary(recording(), *DAMAGED)
        lost = [result for result in made.verdict.results.frames.values() if result.state is FrameState.LOST]
        made.shown = [Drawn(lost[0], Tiles(frozenset({5})), 24, b"few"), Drawn(lost[0], Tiles(frozenset(range(8)), frozenset({9})), 24, b"more")]
        text, words = self.page(made)
        self.assertLess(words.index("9 of 24 tiles hatched"), words.index("1 of 24 tiles hatched"))
        self.assertEqual(re.findall(r'src="data:image/png;base64,([^"]*)"', text), [base64.b64encode(image).decode() for image in (b"more", b"few")])
        self.assertNotIn("What can be shown", "".join(self.page(summary(recording(), *DAMAGED))[1]))
        made.shown = [Drawn(lost[0], Tiles(), 24)]
        self.assertNotIn("What can be shown", "".join(self.page(made)[1]))

    def test_what_is_said_of_a_picture(self):
        made = summary(recording(), *DAMAGED)
        lost = next(result for result in made.verdict.results.frames.values() if result.state is FrameState.LOST)
        said = {Tiles(): {"0 of 6 tiles hatched"}, Tiles(frozenset({1}), frozenset({2, 3})): {"3 of 6 tiles hatched", "2 of these undamaged, but can't be decoded"},
                Tiles(unclean=frozenset({4})): {"0 of 6 tiles hatched", "1 shown, but their slices do not end as an encoder ends them"},
                Tiles(frozenset({1}), is_key=False): {"1 of 6 tiles hatched", "no keyframe: undamaged tiles are plain gray, as the frames before are needed to decode them"},
                Tiles(frozenset(range(6)), is_key=False): {"6 of 6 tiles hatched"}}
        for tiles, wanted in said.items():
            self.assertEqual(set(page.captions(Drawn(lost, tiles, 6, b""))), wanted)
            made.shown = [Drawn(lost, tiles, 6, b"")]
            text, words = self.page(made)
            self.assertTrue(all(words.count(each) == 1 and text.count(html.escape(each)) == 2 for each in wanted), text)

    def test_it_is_said_where_more_frames_are_lost_than_shown(self):
        outcomes = [Outcome(element(number), State.MISSING, 0, "10", {0: tuple(missing("10", at, at + 1) for at in range(6))}) for number in range(4)]
        made = summary(recording(), *outcomes)
        lost = list(made.verdict.results.frames.values())
        for count, is_said in ((3, True), (4, False)):
            made.shown = [Drawn(result, Tiles(), 24, b"") for result in lost[:count]]
            self.assertEqual("3 of 4 are shown, those with the most lost tiles" in self.page(made)[1], is_said)

    def test_many_frames_make_a_bounded_page(self):
        layout = recording(2200)
        outcomes = [Outcome(element(number), State.MISSING, 0, "10", {0: tuple(missing("10", at, at + 1) for at in range(60))})
                    for number in range(0, 2200, 2)]
        text, words = self.page(summary(layout, *outcomes))
        self.assertLess(len(text), 2_000_000)
        self.assertIn("The first 1000 of 1100 are shown.", words)
        self.assertIn("and 36 more slices", words)
        self.assertIn("and 1050 more", words)

    def test_many_copies_are_bounded(self):
        text, words = self.page(summary(recording(), copies=40))
        self.assertIn("28 further copies are not drawn", words)
        self.assertEqual(len(re.findall(r">copy \d+</text>", text)), 12)

    def test_files_that_are_checked_are_one_page(self):
        file = io.StringIO()
        good, bad = summary(recording(), out=False, copies=1), summary(recording(), *DAMAGED, out=False, copies=1)
        good.copies[0].path, bad.copies[0].path = "/films/good<.mkv", "/films/bad.mkv"
        page.write(file, [good, bad, unreadable()])
        seen = Strict()
        seen.feed(file.getvalue())
        seen.close()
        self.assertEqual((seen.open, file.getvalue().count("<h1>"), file.getvalue().count("<!DOCTYPE"), file.getvalue().count("<footer>")), ([], 4, 1, 1))
        # The table of all files comes first, the worst of them first, and each row leads to the file's own part.
        self.assertEqual(seen.links, ["#file-3", "#file-2", "#file-1"])
        self.assertEqual(re.findall(r'<section id="([^"]*)"><h1>([^<]*)</h1>', file.getvalue()),
                         [("file-1", "/films/good&lt;.mkv"), ("file-2", "/films/bad.mkv"), ("file-3", "/films/lost.mkv")])
        table, _ = file.getvalue().split('<section id="file-1">')
        self.assertIn("3 files: 1 undamaged, 1 damaged, 1 unreadable", table)
        order = [table.index(f">{state}<") for state in ("unreadable", "damaged", "undamaged")]
        self.assertEqual(order, sorted(order))
        self.assertIn("/films/lost.mkv could not be judged: cannot read /films/lost.mkv: Input/output error", table)

    def test_one_file_has_no_table_of_files(self):
        text, words = self.page(summary(recording(), out=False, copies=1))
        self.assertEqual((text.count("<h1>"), text.count("<a "), "What was found" in words), (1, 0, False))


class TimelineTest(unittest.TestCase):
    def test_frames_by_copy(self):
        drawn = Timeline(summary(plain(), Outcome(5, State.WHOLE, 0, "10", {0: (settled("10"),)})))
        frames = drawn.summary.layout.frames
        middle = [(each.place + 150) * COLUMNS // drawn.size for each in frames]
        shares = {copy: drawn.rows[copy, "frames"].shares() for copy in (0, 1)}
        self.assertEqual([shares[0][at] for at in middle], [Shade.WHOLE] * 6)
        self.assertEqual([shares[1][at] for at in middle], [Shade.WHOLE, Shade.ALL] + [Shade.WHOLE] * 4)
        self.assertEqual([drawn.rows[None, "frames"].shades()[at] for at in middle], [Shade.WHOLE, Shade.RESTORED] + [Shade.WHOLE] * 4)

    def test_sound_and_container(self):
        drawn = Timeline(summary(plain(), Outcome(3, State.OPEN, 0, "10"), Outcome(4, State.AGREED, 0, "10")))
        self.assertEqual(max(drawn.rows[None, "sound"].shades()), Shade.LOST)
        self.assertEqual(max(drawn.rows[None, "container"].shades()), Shade.RESTORED)
        self.assertEqual((max(drawn.rows[0, "sound"].shares()), max(drawn.rows[1, "sound"].shares())), (Shade.WHOLE, Shade.ALL))
        self.assertEqual(max(drawn.rows[1, "frames"].shares()), Shade.WHOLE)

    def test_shares_of_many_frames(self):
        columns = 48
        count = 20 * columns
        outcomes = [Outcome(element(number), State.WHOLE, 0, "10", {0: (settled("10"),)}) for number in range(0, count, 20)]
        outcomes += [Outcome(element(number), State.WHOLE, 0, "10", {0: (settled("10"),)}) for number in range(count // 2 + 1, count, 3)]
        with mock.patch.object(timeline, "COLUMNS", columns):
            shares = Timeline(summary(recording(count), *outcomes)).rows[1, "frames"].shares()
        self.assertEqual((set(shares[1:23]), set(shares[25:47])), ({Shade.SOME}, {Shade.MANY}))

    def test_another_file_has_the_frames_that_were_found_in_it(self):
        made = summary(recording(), copies=3, matched=[Matched(2, {0: 5, 1: 9})])
        made.copies[2].role = Role.OTHER
        shares = Timeline(made).rows[2, "frames"].shares()
        self.assertEqual((shares[70], shares[150], shares[400]), (Shade.WHOLE, Shade.WHOLE, Shade.NOTHING))

    def test_a_copy_that_is_cut_short_ends_where_it_ends(self):
        layout = plain()
        layout.stretches[10:] = [dataclasses.replace(stretch, places=(stretch.start, None)) for stretch in layout.stretches[10:]]
        drawn = Timeline(summary(layout))
        for kind in drawn.kinds:
            one, other, out = drawn.rows[0, kind].shares(), drawn.rows[1, kind].shares(), drawn.rows[None, kind].shades()
            self.assertEqual(one, out)
            self.assertEqual(other[:240], out[:240])
            self.assertEqual(set(other[270:]), {Shade.NOTHING})

    def test_a_copy_that_is_left_out_has_no_row(self):
        made = summary(recording(), copies=3)
        made.copies[2].role = Role.LEFT
        self.assertEqual(Timeline(made).copies, [0, 1, None])
