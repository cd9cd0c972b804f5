"""Damage within 32 consecutive bits of slices and elements, which may never pass."""
import random
import sys

import readings
from stored import OFTEN_BELOW, TESTS
from runs import keep, run


def with_bursts(numbers, payload, tiles):
    """A copy with one burst in each of some slices, and the places of these slices, counted from the last."""
    found = readings.links(payload)[0]
    changed, places = int.from_bytes(payload, "big"), []
    for place in sorted(numbers.sample(range(tiles), numbers.randint(1, tiles))):
        start, piece = found[place]
        first, end = 8 * start, 8 * (start + len(piece))
        window = numbers.randrange(first - 31, end)
        spread = range(max(window, first), min(window + 32, end))
        bits = [bit for bit in spread if numbers.random() < 0.5 and not end - 64 <= bit < end - 40]
        if bits:
            places.append(place)
        for bit in bits:
            changed ^= 1 << 8 * len(payload) - 1 - bit
    return changed.to_bytes(len(payload), "big"), places


def wanted_of_bursts(frame, copies, lost):
    """The status and lines of `splice`: every slice in its place, and settled exactly where some copy has it as it was."""
    _, lines, status = readings.spliced([copy for copy, _ in copies])
    reported = [line.split() for line in lines.decode().splitlines()]
    for place, (start, piece) in enumerate(readings.links(frame)[0]):
        settled = place not in lost
        assert reported[place][0] == f"{start}..{start + len(piece)}" and (reported[place][1] == "settled") == settled
    return status, lines


def burst_complaint(program, recording, frame, copies, folder):
    """What is wrong with what is reported of copies that are damaged, each with the places of its damaged slices, or None."""
    tiles, names = readings.tiles_of(recording.setup), []
    for number, (copy, places) in enumerate(copies):
        names.append(f"frame-{number}")
        (folder / names[-1]).write_bytes(copy)
        reported = run(program, ["chain", names[-1]], folder)[1].decode().splitlines()
        judged = [line.split()[-1] for line in reported]
        if judged != ["fail" if place in places else "pass" for place in range(tiles)] + ["whole"]:
            return "chain took damage for a slice"
    (folder / "out").unlink(missing_ok=True)
    size = map(str, recording.size)
    if run(program, ["take", "record", *size, "hold", *names], folder)[0] != 0:
        return "the copies were not taken"
    lost = [place for place in range(tiles) if all(place in places for _, places in copies)]
    if run(program, ["splice", "out", *names], folder)[:2] != wanted_of_bursts(frame, copies, lost):
        return "not spliced"
    spliced = (folder / "out").read_bytes()
    if any(spliced[start:][: len(piece)] != piece for place, (start, piece) in enumerate(readings.links(frame)[0]) if place not in lost):
        return "spliced to another slice"
    (folder / "out").unlink()
    ran = run(program, ["restore", "hold", "out"], folder)
    made = (folder / "out").read_bytes() if (folder / "out").exists() else None
    if lost:
        wanted = f"ffv1restore: missing tile {tiles - 1 - lost[-1]}\n".encode()
        return None if (ran, made) == ((1, b"", wanted), None) else "not reported as lost"
    return None if ran[0] == 0 and made == frame else "not restored"


def run_bursts(program, known, seed, count, folder):
    """Runs bursts until there were so many. Returns how many, and how many frames came back."""
    real = [recording for recording in known if (TESTS / "real" / recording.name).is_dir()]
    done = restored = number = 0
    while done < count:
        numbers = random.Random(f"{seed} burst {number}")
        recording = numbers.choice(real if numbers.random() < 0.1 else [one for one in real if one.width < OFTEN_BELOW])
        frame = numbers.choice([frame for name, frame in recording.frames.items() if name.startswith("frame")])
        copies = [with_bursts(numbers, frame, readings.tiles_of(recording.setup)) for _ in range(numbers.randint(1, 3))]
        (folder / "record").write_bytes(recording.record)
        wrong = burst_complaint(program, recording, frame, copies, folder)
        if wrong:
            keep(folder, f"bursts {number} of seed {seed}: {wrong}")
            sys.exit(1)
        done += sum(len(places) for _, places in copies)
        restored += (folder / "out").exists()
        number += 1
    return done, number, restored


def damaged_element(numbers, content):
    """An element with one burst, in the order in which CRC-32 runs over its bits: the bytes after the CRC, then the CRC, of each byte the
    lowest bit first."""
    run = bytearray(content[6:] + content[2:6])
    window = numbers.randrange(8 * len(run) - 31)
    for bit in [window, *(bit for bit in range(window + 1, window + 32) if numbers.random() < 0.5)]:
        run[bit // 8] ^= 1 << bit % 8
    return content[:2] + bytes(run[-4:]) + bytes(run[:-4])


def run_element_bursts(program, files, seed, count, folder):
    """Damages an element in each of two copies, beside the element or not, until there were so many bursts. Returns how many."""
    elements = [content for stretches in files.values() for kind, content, _ in stretches if kind == "crc32"]
    for number in range(count // 2):
        numbers = random.Random(f"{seed} element {number}")
        content = numbers.choice(elements)
        copies = [damaged_element(numbers, content) for _ in range(2)] + [content] * numbers.randint(0, 1)
        for place, copy in enumerate(copies):
            (folder / f"copy-{place}").write_bytes(copy)
        (folder / "list").write_text(f"crc32 {len(content)} 1 {' '.join('0' for _ in copies)}\n")
        status, printed, _ = run(program, ["mend", "list", "out", *(f"copy-{place}" for place in range(len(copies)))], folder)
        state, made = printed.split()[3:4], (folder / "out").read_bytes()
        passed = state not in ([b"woven"], [b"missing"]) if len(copies) == 2 else state != [b"whole"]
        if passed or status == 0 and made != content:
            keep(folder, f"element {number} of seed {seed}: taken for another")
            sys.exit(1)
    return count // 2 * 2
