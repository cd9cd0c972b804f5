"""How the parts of one file hang together."""
import contextlib
import pathlib
import unittest

from mend_reel.containers import ffprobe, matroska, matroska_checks, mxf, nut
from mend_reel.containers.known import KNOWN, structure_of
from mend_reel.containers.own_checks import passes_as_record
from mend_reel.containers.structure import Flaw, Found
from . import made
from .framed import frame, matroska as reel, parity

REEL = reel([(0.04 * number, frame(number, 200, 150 + number)) for number in range(5)])


def chunk(name, content, size=None):
    return name + (len(content) if size is None else size).to_bytes(4, "little") + content + bytes(len(content) % 2)


def avi(frames=4, length=4, entries=None, more=b"", base=4):
    """An AVI file with one video stream, whose index has so many entries, which count from the list's name or from a place."""
    strh = chunk(b"strh", b"vids" + bytes(28) + length.to_bytes(4, "little") + bytes(20))
    avih = bytes(16) + length.to_bytes(4, "little") + bytes(4) + (1).to_bytes(4, "little") + bytes(28)
    hdrl = chunk(b"LIST", b"hdrl" + chunk(b"avih", avih) + chunk(b"LIST", b"strl" + strh))
    movi = chunk(b"LIST", b"movi" + b"".join(chunk(b"00dc", made.noise(number, 99)) for number in range(frames)))
    index = b"".join(b"00dc" + (16).to_bytes(4, "little") + (base + 108 * number).to_bytes(4, "little") + (99).to_bytes(4, "little")
                     for number in range(frames if entries is None else entries))
    return chunk(b"RIFF", b"AVI " + hdrl + chunk(b"JUNK", bytes(40)) + movi + chunk(b"idx1", index)) + more


def atom(name, content):
    return (8 + len(content)).to_bytes(4, "big") + name + content


def number(value):
    return value.to_bytes(4, "big")


def trak(track, count, place=None, size=4):
    """A track of so many samples, which lie in one chunk at a place, if one is given."""
    tables = atom(b"stsz", bytes(8) + number(count) + number(size) * count)
    if place is not None:
        tables += atom(b"stts", bytes(4) + number(1) + number(count) + number(3))
        tables += atom(b"stsc", bytes(4) + number(1) + number(1) + number(count) + number(1)) + atom(b"stco", bytes(4) + number(1) + number(place))
    media = atom(b"mdhd", bytes(16) + number(3 * count if place is not None else 0) + bytes(4)) + atom(b"minf", atom(b"stbl", tables))
    return atom(b"trak", atom(b"tkhd", bytes(12) + number(track) + bytes(68)) + atom(b"mdia", media))


def fragment(number, count):
    run = atom(b"trun", bytes(4) + count.to_bytes(4, "big") + bytes(8 * count))
    return atom(b"moof", atom(b"traf", atom(b"tfhd", bytes(4) + number.to_bytes(4, "big")) + run)) + atom(b"mdat", made.noise(number, 300))


MOV = atom(b"ftyp", b"qt  ") + atom(b"mdat", made.noise(1, 900)) + atom(b"moov", trak(1, 4, 20) + trak(2, 50, 36))


def variable(value):
    """A number as NUT has it."""
    parts = [value & 0x7F]
    while value := value >> 7:
        parts.append(0x80 | value & 0x7F)
    return bytes(reversed(parts))


def packet(start, *parts):
    """A packet of a NUT file, which ends with its checksum."""
    content = b"".join(parts)
    return start + variable(len(content) + 4) + content + parity(content).to_bytes(4, "big")


def nut_file(frames=4):
    """A NUT file of a stream, with a syncpoint before each frame."""
    flags = nut.KEY | nut.CODED_TIME | nut.OF_STREAM | nut.LARGE
    codes = b"".join(map(variable, (flags, 6, 0, 1, 0, 0, 0, 255)))
    made_ = nut.ID + packet(nut.MAIN, *map(variable, (3, 1, 2000, 1, 1, 25)), codes, variable(0)) + packet(nut.STREAM, made.noise(1, 30))
    places = []
    for at in range(frames):
        places.append(len(made_) >> 4)
        made_ += packet(nut.SYNCPOINT, variable(at), variable(0)) + b"\0" + variable(0) + variable(at) + variable(300) + made.noise(at, 300)
    steps = [after - before for before, after in zip([0, *places], places)]
    return made_ + packet(nut.INDEX, variable(frames), variable(frames), *map(variable, steps))


NUT = nut_file()


class StructureTest(unittest.TestCase):
    def read(self, content):
        with made.opened(content) as (copy,):
            return structure_of(copy)

    def flaws(self, content):
        return [(found.flaw, found.start, found.end) for found in self.read(content).flaws]

    def test_files_that_hang_together(self):
        for content in (avi(), avi(more=chunk(b"RIFF", b"AVIX" + chunk(b"JUNK", bytes(8)))), MOV, NUT):
            found = self.read(content)
            self.assertEqual((found.flaws, found.end), ([], len(content)))
        self.assertEqual(self.read(b"none of these").flaws, [Found(Flaw.NOT_WALKED, 0, 13)])

    def test_what_an_mxf_file_is_made_of(self):
        content = b"".join(mxf.KEY + made.noise(number, 12) + size + bytes(4) for number, size in enumerate(
            (b"\x04", b"\x81\x04", b"\x83\0\0\x04", b"\x88" + bytes(7) + b"\x04")))
        self.assertEqual((self.read(content).flaws, self.read(content).end), ([], len(content)))
        self.assertEqual(self.flaws(content[:-2]), [(Flaw.CUT, len(content) - 2, len(content))])
        for end in (1, 5, 12):
            self.assertEqual(self.flaws(content[:-29] + content[-29:][:end]), [(Flaw.BROKEN, len(content) - 29, len(content) - 29 + end)])
        self.assertEqual(self.flaws(content + bytes(30)), [(Flaw.BROKEN, len(content), len(content) + 30)])
        for place, byte in ((21, 5), (22, 0), (37, 0x80), (37, 0x89)):
            self.assertEqual([each[0] for each in self.flaws(made.damaged(content, (place, bytes([byte]))))], [Flaw.BROKEN], (place, byte))

    def test_bytes_after_the_end(self):
        for content in (avi(), MOV, NUT):
            self.assertEqual(self.flaws(content + bytes(512)), [(Flaw.AFTER_END, len(content), len(content) + 512)])

    def test_files_that_are_cut(self):
        self.assertIn((Flaw.CUT, 500, len(avi())), self.flaws(avi()[:500]))
        self.assertIn((Flaw.CUT, len(MOV) - 9, len(MOV)), self.flaws(MOV[:-9]))
        self.assertEqual(self.flaws(MOV[:500]), [(Flaw.CUT, 500, 920), (Flaw.NO_TABLE, 0, 500)])
        self.assertEqual(self.flaws(NUT[:600])[-1], (Flaw.NO_TABLE, 0, 600))
        self.assertEqual(self.flaws(NUT[:-5]), [(Flaw.CUT, len(NUT) - 5, len(NUT))])

    def test_parts_that_lead_nowhere(self):
        place = avi().index(b"00dc", avi().index(b"00dc") + 1)
        self.assertIn((Flaw.BROKEN, place), [each[:2] for each in self.flaws(made.damaged(avi(), (place + 5, b"\xff")))])
        self.assertIn((Flaw.BROKEN, place), [each[:2] for each in self.flaws(made.damaged(avi(), (place, bytes(4))))])
        place = MOV.index(b"mdat") - 4
        self.assertIn((Flaw.BROKEN, place + 512), [each[:2] for each in self.flaws(made.damaged(MOV, (place, (512).to_bytes(4, "big"))))])

    def test_more_parts_than_are_walked(self):
        content = MOV + atom(b"free", b"") * 40000
        with made.opened(content, MOV) as (copy, good):
            stop = structure_of(copy).stop
            self.assertTrue(len(MOV) < stop < len(content))
            self.assertEqual([each[:3] for each in structure_of(copy).flaws], [(Flaw.BROKEN, stop, len(content))])
            self.assertEqual(tuple(contextlib.ExitStack().enter_context(ffprobe.address(each)) for each in (copy, good)), (f"subfile,,start,0,end,{stop},,:{copy.path}", f"file:{good.path}"))

    def test_tables_to_which_no_part_leads(self):
        """As where bytes of the media before them were lost, or come twice."""
        table, place = MOV[MOV.index(b"moov") - 4 :], MOV.index(b"moov") - 4
        for content in (MOV[:200] + MOV[300:], MOV[:200] + MOV[100:], MOV[:200] + MOV[600:]):
            with made.opened(content) as (copy,), ffprobe.address(copy) as name:
                found = structure_of(copy)
                self.assertEqual(found.table, (place, len(content) - len(table), len(table)))
                self.assertTrue({each.flaw for each in found.flaws} < {Flaw.BROKEN, Flaw.CUT} and found.flaws)
                seen = pathlib.Path(name.removeprefix("file:")).read_bytes()
                self.assertEqual((seen[:60], seen[place:]), (MOV[:60], table))
        with made.opened(MOV, MOV[:500]) as copies:
            self.assertEqual([structure_of(copy).table for copy in copies], [None, None])

    def test_two_files_that_were_joined(self):
        """The first one ends where it says so itself."""
        for content in (avi(), MOV, NUT):
            self.assertEqual(self.flaws(content + content), [(Flaw.AFTER_END, len(content), 2 * len(content))])

    def test_what_an_avi_file_counts(self):
        self.assertEqual(self.read(avi(entries=5)).flaws[0][0::3], (Flaw.COUNT, 4))
        self.assertEqual({(found.has, found.count) for found in self.read(avi(frames=3)).flaws}, {(3, 4), (0, 4)})

    def test_where_the_index_of_an_avi_file_leads(self):
        movie = avi().index(b"movi")
        self.assertEqual(self.flaws(avi(base=movie + 4)), [])
        for base in (5, movie, 4 + 108):
            self.assertEqual([each[0] for each in self.flaws(avi(base=base))], [Flaw.INDEX])
        place = avi().index(b"idx1") + 8
        for at in (0, 9, 13, 16 * 3 + 8):
            self.assertEqual([each[0] for each in self.flaws(made.damaged(avi(), place + at))], [Flaw.INDEX])

    def test_each_byte_of_a_nut_file_but_those_of_frames(self):
        frames = {place for at in range(4) for place in range(NUT.index(made.noise(at, 300)), NUT.index(made.noise(at, 300)) + 300)}
        # The first byte of a frame, its stream and its time have no check of their own.
        heads = {place for at in range(4) for place in range(NUT.index(made.noise(at, 300)) - 5, NUT.index(made.noise(at, 300)))}
        for place in (place for place in range(len(NUT)) if place not in frames | heads):
            self.assertTrue(self.flaws(made.damaged(NUT, place)), place)

    def test_where_the_tables_of_a_mov_file_lead(self):
        for place, count, size in ((19, 4, 4), (918, 4, 4), (24, 4, 4), (20, 4, 900)):
            content = atom(b"ftyp", b"qt  ") + atom(b"mdat", made.noise(1, 900)) + atom(b"moov", trak(1, count, place, size) + trak(2, 50, 36))
            self.assertEqual({each[0] for each in self.flaws(content)}, {Flaw.INDEX}, (place, size))
        for name, at in ((b"stts", 15), (b"stsc", 19), (b"stsz", 15), (b"mdhd", 23)):
            place = MOV.index(name) + at
            self.assertTrue(self.flaws(made.damaged(MOV, place)), name)

    def test_each_container_has_one_row(self):
        self.assertEqual(sorted(each.name for each in KNOWN), ["avi", "matroska", "mov", "mxf", "nut"])
        for content, name in ((avi(), "avi"), (MOV, "mov"), (NUT, "nut"), (REEL, "matroska")):
            self.assertEqual([each.name for each in KNOWN if each.begins(content[:64])], [name])

    def test_what_the_tables_of_a_mov_file_count(self):
        self.assertEqual(self.read(MOV).counts, {0: 4, 1: 50})
        fragmented = atom(b"ftyp", b"qt  ") + atom(b"moov", trak(7, 0) + trak(9, 2)) + fragment(7, 3) + fragment(9, 1) + fragment(7, 2)
        self.assertEqual((self.read(fragmented).counts, self.read(fragmented).flaws), ({0: 5, 1: 3}, []))

    def test_heads_alone_cost_no_more_than_a_file_of_their_size_may(self):
        inner = chunk(b"RIFF", b"AVI " + chunk(b"LIST", b"movi" + b"00dc\0\0\0\0" * 50000))
        for content in (inner, avi() + b"RIFF\x04\0\0\0AVIX" * 50000, MOV + b"\0\0\0\x08free" * 50000, MOV + b"\0\0\0\x08moof" * 50000):
            with self.subTest(size=len(content)), made.opened(content) as (copy,):
                read = []
                copy.watch = read.append
                self.assertTrue(structure_of(copy).flaws)
                self.assertLess(len(read), 30000)

    def test_lists_in_lists_without_end(self):
        deep = b""
        for _ in range(40):
            deep = chunk(b"LIST", b"deep" + deep)
        self.assertIn(Flaw.BROKEN, [each[0] for each in self.flaws(chunk(b"RIFF", b"AVI " + deep))])


class MatroskaTest(unittest.TestCase):
    def flaws(self, content):
        with made.opened(content) as copies:
            return [(each.flaw, each.start) for each in matroska_checks.flaws(copies[0], matroska.layout(copies))]

    def test_an_undamaged_file(self):
        self.assertEqual(self.flaws(REEL), [])
        self.assertEqual(self.flaws(reel([(0.0, frame(1))], crc=False)), [])

    def test_elements_that_lead_nowhere_inside(self):
        chapters = made.element(0x1043A770, made.element(0x45B9, made.element(0xB6, made.number(0x91, 3), made.element(0x80, made.element(0x85, b"name")))))
        content = made.ebml_header() + made.element(made.SEGMENT, made.information(80, False), made.tracks(crc=False), chapters)
        self.assertEqual(self.flaws(content), [])
        place = content.index(chapters) + 5
        self.assertEqual(self.flaws(made.damaged(content, (content.index(b"\x85\x84name"), bytes(6)))), [(Flaw.BROKEN, place)])

    def test_a_lost_last_sector_within_a_text(self):
        def file(text, crc=False, after=b""):
            tags = made.element(made.TAGS, made.element(0x7373, made.element(0x67C8, made.element(0x45A3, b"NAME"), made.element(0x4487, text))), crc=crc)
            return made.ebml_header() + made.element(made.SEGMENT, made.information(80, False), made.tracks(crc=False), tags, after)

        whole = file(b"some text")
        place = whole.index(made.TAGS.to_bytes(4, "big")) + 5
        self.assertEqual(self.flaws(whole), [])
        for text in (b"some tex\0", b"some\0\0\0\0\0", b"so\0e text"):
            self.assertEqual(self.flaws(file(text)), [(Flaw.ZEROS, place)])
            self.assertNotIn(Flaw.ZEROS, [each[0] for each in self.flaws(file(text, crc=True))])
            self.assertEqual(self.flaws(file(text, after=made.element(made.VOID, bytes(20)))), [])

    def test_bytes_after_the_end(self):
        self.assertEqual(self.flaws(REEL + bytes(100)), [(Flaw.AFTER_END, len(REEL))])

    def test_an_element_without_a_checksum_where_others_have_one(self):
        place = REEL.index(made.CLUSTER.to_bytes(4, "big"), REEL.index(frame(0, 200, 150)))
        crc = REEL.index(b"\xbf\x84", place)
        self.assertEqual(self.flaws(made.damaged(REEL, (crc, b"\xaf"))), [(Flaw.BARE, place)])
        tracks = REEL.index(made.TRACKS.to_bytes(4, "big"))
        self.assertEqual(self.flaws(made.damaged(REEL, (REEL.index(b"\xbf\x84", tracks), b"\xec"))), [(Flaw.BARE, tracks)])
        self.assertIn((Flaw.BARE, tracks), self.flaws(made.damaged(REEL, (REEL.index(b"\xbf\x84", tracks) + 1, b"\x85"))))

    def test_what_an_editor_added_without_a_checksum(self):
        attachments = made.element(0x1941A469, made.element(0x61A7, made.element(0x466E, b"notes.txt"), made.element(0x465C, b"notes")))
        clusters = [made.cluster(40 * at, made.block(1, 0, frame(at))) for at in range(3)]
        added = made.ebml_header() + made.element(made.SEGMENT, made.information(120), made.tracks(), *clusters, attachments)
        self.assertEqual(self.flaws(added), [])

    def test_where_tables_lead(self):
        """The table of contents leads to elements of its IDs, and the index to blocks of its tracks and times."""
        def file(seek=made.CLUSTER, place=0, time=40, track=1, block=0):
            def seek_head(at):
                return made.element(made.SEEK_HEAD, made.element(0x4DBB, made.element(0x53AB, seek.to_bytes(4, "big")), made.element(0x53AC, at.to_bytes(4, "big"))))
            clusters = made.cluster(40, made.block(1, 0, frame(1)), made.block(2, 0, made.noise(2, 40)), crc=False)
            front = len(seek_head(0)) + len(made.information(80, False) + made.tracks(crc=False))
            point = made.element(0xBB, made.number(0xB3, time), made.element(0xB7, made.number(0xF7, track), made.number(0xF1, front + place),
                                                                            made.number(0xF0, 3 + block)))
            return made.ebml_header() + made.element(made.SEGMENT, seek_head(front), made.information(80, False), made.tracks(crc=False), clusters,
                                                     made.element(made.CUES, point))

        self.assertEqual(self.flaws(file()), [])
        for wrong in (dict(seek=made.TAGS), dict(place=1), dict(time=41), dict(track=2), dict(block=1)):
            self.assertEqual([each[0] for each in self.flaws(file(**wrong))], [Flaw.INDEX], wrong)


class RecordTest(unittest.TestCase):
    def test_the_parity_of_a_record(self):
        self.assertTrue(passes_as_record(made.RECORD))
        for record in (made.damaged(made.RECORD, 3), b"", made.RECORD[:5], bytes(6), bytes(40)):
            self.assertFalse(passes_as_record(record))


if __name__ == "__main__":
    unittest.main()
