"""What is kept beside OUT, and what that may cost."""
import dataclasses
import hashlib
import pathlib
import re
import shutil
import stat
import tempfile
import unittest

import any_holdings
import held_frames
import readings
from mend_reel.judging.results import FrameResult, FrameState
from mend_reel.model import Content, Copy, Fault, Frame, SliceReport, Track
from mend_reel.program.kept_frames import Held, Keeper, copy_over, refuse_kept
from mend_reel.reports.pictures import LONGEST, Shape, Tiles, blank, picture
from . import stand_in

VIDEO = Track(1, Content.VIDEO, "V_FFV1", True, 48, 40, b"record")
RESULT = FrameResult(3, 3, Frame(1, 0.12, 100, 50), 0, FrameState.LOST, (0,))
# What `setup` prints of frames of two tiles, of 8 bits or more, with parities or without.
SETUP = "version 3.4\\ncoder 1 colorspace 0 depth {depth}\\nplanes {planes} shift 0 0\\ngrid 2x1 tiles 2\\ntables 1 contexts 666\\nec {ec} intra 1\\nstates 0\\nformat -\\n"
REAL = pathlib.Path(__file__).resolve().parent.parent / "real"


def setup(depth=8, planes=1, ec=1):
    """The lines of a shell script that print this setup."""
    return f"""if [ "$1" = setup ]; then printf '{SETUP.format(depth=depth, planes=planes, ec=ec)}'; exit; fi\n"""


# Lines that make an empty holding file.
TAKE = """if [ "$1 $2" = 'take --any' ]; then touch "$6"; exit; fi\n"""


class KeeperTest(unittest.TestCase):
    def setUp(self):
        self.temporary = tempfile.TemporaryDirectory()
        self.folder = pathlib.Path(self.temporary.name)
        self.work = self.folder / "work"
        self.work.mkdir()

    def tearDown(self):
        self.temporary.cleanup()

    def keeper(self, body, pictures=True):
        """A keeper whose program does what a shell script says."""
        path = self.folder / "program"
        path.write_text(f"#!/bin/sh\n{body}\n")
        path.chmod(path.stat().st_mode | stat.S_IXUSR)
        keeper = Keeper(str(path), self.work, str(self.folder / "kept"), None)
        keeper.pictures = str(self.folder / "pictures") if pictures else None
        return keeper

    def held(self, name="frame-3", **more):
        return Held(name, VIDEO, [("/films/a\nb.mkv", b"one"), ("/films/c.mkv", b"other")], **{"result": RESULT, **more})

    def pictured(self, samples, *lines):
        """Lines of a script that write these samples as a picture, and print these lines."""
        (self.folder / "made").write_bytes(samples)
        (self.folder / "printed").write_text("".join(f"{line}\n" for line in lines))
        return f"""if [ "$1 $2" = 'picture --any' ]; then cp {self.folder}/made "$4"; cat {self.folder}/printed; exit 3; fi\n"""

    def kept(self, folder="keep"):
        return sorted(path.name for path in (self.work / folder).iterdir())

    def test_frames_of_any_recording_with_parities_are_held(self):
        for depth, planes in ((8, 1), (10, 3), (16, 4), (12, 2)):
            keeper = self.keeper(setup(depth, planes))
            self.assertTrue(keeper.is_asked_for(VIDEO))
            self.assertEqual((keeper.shapes[1], keeper.notes), (Shape(48, 40, depth, False, (0, 0) if planes > 2 else None, (2, 1)), []))
            for name in ("keep", "pictures"):
                (self.work / name).rmdir()

    def test_a_recording_without_parities_is_one_note(self):
        keeper = self.keeper(setup(ec=0))
        self.assertEqual([keeper.is_asked_for(VIDEO), keeper.is_asked_for(VIDEO)], [False, False])
        self.assertEqual(keeper.notes, ["no frame of track 1 is kept or shown: its slices have no parities"])

    def test_a_record_that_is_not_read_is_one_note(self):
        keeper = self.keeper('echo "ffv1restore: setup fault 2" >&2; exit 1')
        self.assertEqual([keeper.is_asked_for(VIDEO), keeper.is_asked_for(VIDEO)], [False, False])
        self.assertEqual(keeper.notes, ["no frame of track 1 is kept or shown: ffv1restore does not read its Configuration Record (setup fault 2)"])

    def test_a_report_alone_has_no_such_note(self):
        for body in (setup(ec=0), "exit 1"):
            keeper = self.keeper(body, False)
            keeper.keep, keeper.draws = None, True
            self.assertEqual((keeper.is_asked_for(VIDEO), keeper.notes), (False, []))
            for name in ("keep", "pictures"):
                (self.work / name).rmdir()

    def test_nothing_that_is_not_asked_for_is_run(self):
        keeper = self.keeper(f"touch {self.folder}/ran", False)
        keeper.keep = None
        self.assertEqual((keeper.is_asked_for(VIDEO), keeper.shapes, (self.folder / "ran").exists()), (False, {}, False))

    def test_a_frame_that_cannot_be_held_is_a_note(self):
        keeper = self.keeper(setup() + '[ "$1" = take ] && { echo "ffv1restore: out of memory" >&2; exit 1; }')
        keeper.hold(self.held())
        keeper.hold(self.held("frame-4"))
        self.assertEqual(keeper.notes, ["frame-3 is not kept: frame-3 can't be held: out of memory", "frame-4 is not kept: frame-4 can't be held: out of memory"])

    def test_a_copy_that_is_unordered_is_held_with_a_note(self):
        keeper = self.keeper(setup() + TAKE.replace("exit; fi", "exit 3; fi"), False)
        keeper.hold(self.held())
        self.assertEqual(keeper.notes, ["frame-3: a copy has its slices in another order than the tiles, in which restore puts them"])
        self.assertIn("frame-3.hold", self.kept())

    def test_a_report_that_cannot_be_made_is_a_note(self):
        keeper = self.keeper(setup() + TAKE + '[ "$1" = report ] && { echo "ffv1restore: out of memory" >&2; exit 1; }')
        keeper.hold(self.held())
        self.assertEqual((keeper.notes, self.kept()), (["frame-3 is not kept: its report can't be made: out of memory"], ["frame-3.hold"]))

    def test_a_frame_that_cannot_be_shown_is_kept(self):
        keeper = self.keeper(setup() + TAKE + '[ "$1" = picture ] && { echo "ffv1restore: out of memory" >&2; exit 1; }\nexit 0')
        keeper.hold(self.held())
        self.assertEqual((keeper.notes, self.kept(), self.kept("pictures")), (["frame-3 is not shown: out of memory"], ["frame-3.hold", "frame-3.report"], []))

    def test_a_name_in_a_report_stands_in_one_line(self):
        origin = f"tile 0 origin {hashlib.sha256(b'one').hexdigest()}"
        keeper = self.keeper(f'[ "$1 $2" = "report --any" ] && echo "{origin}" && exit\n{TAKE}', False)
        keeper.hold(self.held())
        self.assertEqual((self.work / "keep/frame-3.report").read_text(), f"{origin} /films/a\\x0ab.mkv\n")

    def test_pictures_of_a_frame(self):
        """An image of full size of what is to be shown, and a small one for the report, in which lost tiles are hatched."""
        samples = bytes(number % 4 for number in range(48 * 40 * 3 * 2))
        keeper = self.keeper(setup(10, 3) + TAKE + self.pictured(samples, "tile 1 missing"))
        keeper.keep = None
        keeper.hold(self.held(is_drawn=True))
        shape, (drawn,) = Shape(48, 40, 10, False, (0, 0), (2, 1)), keeper.drawn
        self.assertEqual((drawn.result, drawn.tiles, drawn.count, keeper.notes), (RESULT, Tiles(frozenset({1})), 2, []))
        self.assertEqual(drawn.image, picture(shape, samples, [1], LONGEST))
        self.assertEqual((self.kept(), self.kept("pictures")), ([], ["frame-3.png"]))
        self.assertEqual((self.work / "pictures/frame-3.png").read_bytes(), picture(shape, samples))

    def test_a_restored_frame_is_not_shown(self):
        keeper = self.keeper(setup() + TAKE + self.pictured(bytes(48 * 40)))
        keeper.hold(self.held(result=dataclasses.replace(RESULT, state=FrameState.WOVEN)))
        self.assertEqual((self.kept(), self.kept("pictures"), keeper.drawn), (["frame-3.hold", "frame-3.report"], [], []))

    def test_a_frame_that_the_report_does_not_show(self):
        """It has an image, and what is said of its tiles, and no small picture."""
        keeper = self.keeper(setup() + TAKE + self.pictured(bytes(48 * 40), "tile 1 missing"))
        keeper.hold(self.held())
        (drawn,) = keeper.drawn
        self.assertEqual((drawn, self.kept("pictures")), ((RESULT, Tiles(frozenset({1})), 2, None), ["frame-3.png"]))

    def test_a_frame_that_is_no_keyframe_by_its_container_alone(self):
        """Without tile 0 the slices do not say it, and what is decoded of them is not shown."""
        shape = Shape(48, 40, 8, False, None, (2, 1))
        for lines, is_key, tiles in ((["tile 0 missing", "tile 1 fault plane 0 y 1 x 1"], False, Tiles(frozenset({0}), is_key=False)),
                                     (["tile 0 missing"], True, Tiles(frozenset({0}))), (["tile 1 disputed 2"], False, Tiles(frozenset({1})))):
            keeper = self.keeper(setup() + TAKE + self.pictured(bytes(48 * 40), *lines))
            keeper.hold(self.held(is_drawn=True, result=dataclasses.replace(RESULT, frame=dataclasses.replace(RESULT.frame, key=is_key))))
            (drawn,), samples = keeper.drawn, bytes(48 * 40) if tiles.is_key else blank(shape, 48 * 40)
            self.assertEqual((drawn.tiles, keeper.notes), (tiles, []))
            self.assertEqual(drawn.image, picture(shape, samples, tiles.lost, LONGEST))
            self.assertEqual((self.work / "pictures/frame-3.png").read_bytes(), picture(shape, samples))
            for name in ("keep", "pictures"):
                shutil.rmtree(self.work / name)

    def test_lost_tiles_are_those_without_a_settled_slice(self):
        keeper = self.keeper(setup())
        slices = tuple(SliceReport(number, number + 1, state) for number, state in enumerate(("settled", "missing")))
        for result, lost in ((RESULT, 2), (dataclasses.replace(RESULT, slices=slices), 1), (dataclasses.replace(RESULT, slices=slices[1:]), 2)):
            self.assertEqual(keeper.lost_tiles(VIDEO, result), lost)

    def test_holdings_of_real_recordings(self):
        """Two copies of a frame that is out of the profile, held, reported and shown by the second reading."""
        program, folder = stand_in.make(self.folder), REAL / "yuv420p10-48x40-6-slices"
        keeper = Keeper(program, self.work, str(self.folder / "kept"), str(self.folder / "pictures"))
        track = dataclasses.replace(VIDEO, record=(folder / "record").read_bytes())
        self.assertTrue(keeper.is_asked_for(track))
        pieces = [(f"/films/{name}", (folder / name).read_bytes()) for name in ("copy-a", "copy-b")]
        for name, given in (("frame-3", pieces), ("frame-4", pieces[:1])):
            keeper.hold(Held(name, track, given, RESULT))
            wanted, _ = any_holdings.took(track.record, (48, 40), [piece for _, piece in given])
            self.assertEqual((self.work / f"keep/{name}.hold").read_bytes(), wanted)
            report = (self.work / f"keep/{name}.report").read_text()
            self.assertEqual(re.sub(r" /films/copy-[ab]$", "", report, flags=re.M), any_holdings.reported(wanted).decode())
            samples, lines, _ = any_holdings.pictured(wanted)
            self.assertEqual((self.work / f"pictures/{name}.png").read_bytes(), picture(keeper.shapes[1], samples))
            self.assertIn(b"missing", lines)
        self.assertEqual(keeper.notes, [])
        self.assertEqual((self.work / "keep/frame-3.hold").read_bytes()[:8], b"FFV1ANY\1")

    def test_frames_between_keyframes_of_a_record_in_the_profile(self):
        """By FFmpeg's own settings most frames are such: all of their slices are kept, and none is shown."""
        program, folder = stand_in.make(self.folder), REAL / "yuv420p-32x24-4-slices"
        keeper = Keeper(program, self.work, str(self.folder / "kept"), str(self.folder / "pictures"))
        track = dataclasses.replace(VIDEO, width=32, height=24, record=(folder / "record").read_bytes())
        self.assertTrue(keeper.is_asked_for(track))
        for name, magic, shown in (("frame-12", readings.MAGIC + b"\2", 0), ("frame-13", any_holdings.MAGIC + b"\1", 4)):
            frame = (folder / name).read_bytes()
            keeper.hold(Held(name, track, [(f"/films/{number}", half) for number, half in enumerate(held_frames.halves(frame))], RESULT))
            hold = (self.work / f"keep/{name}.hold").read_bytes()
            self.assertEqual((hold[:8], any_holdings.restored(hold)), (magic, (frame, None)))
            samples, lines, _ = any_holdings.pictured(hold)
            self.assertEqual((lines.count(b"no keyframe"), (self.work / f"pictures/{name}.png").read_bytes()), (shown, picture(keeper.shapes[1], samples)))
            self.assertEqual(keeper.drawn[-1].tiles, Tiles(is_key=not shown))
        self.assertEqual(keeper.notes, [])

    def test_a_list_that_cannot_be_kept_is_a_note(self):
        keeper = self.keeper("exit 0")
        keeper.keep_list(self.work / "none", [Copy("/films/a.mkv", 0, 1)])
        self.assertEqual(keeper.notes, ["the list is not kept: No such file or directory"])

    def test_copies_over_no_other_file_of_the_call(self):
        one, other = self.folder / "one", self.folder / "other"
        one.write_bytes(b"kept")
        other.write_bytes(b"a copy")
        self.assertEqual(copy_over(one, str(other), [str(other)]), f"{other} is not kept: it is another file of this call")
        self.assertEqual((other.read_bytes(), copy_over(one, str(other), []), other.read_bytes()), (b"a copy", None, b"kept"))
        self.assertEqual(copy_over(one, str(self.folder / "none/x"), []), f"{self.folder}/none/x is not kept: No such file or directory")

    def test_what_an_earlier_call_kept_is_refused(self):
        kept = self.folder / "kept"
        kept.mkdir()
        (kept / "notes.txt").write_bytes(b"mine")
        refuse_kept([str(kept), str(self.folder / "none")], [], False)
        for name in ("list", "copies", "frame-3.hold", "track-2-frame-17.report", "frame-0.png", "frames-of-copy-2"):
            (kept / name).write_bytes(b"")
            with self.assertRaisesRegex(Fault, f"{name} is there"):
                refuse_kept([str(kept)], [], False)
            refuse_kept([str(kept)], [], True)
            with self.assertRaisesRegex(Fault, f"{name} is one of the copies"):
                refuse_kept([str(kept)], [str(kept / name)], True)
            (kept / name).unlink()


if __name__ == "__main__":
    unittest.main()
