"""What a person looks at: a page, a table of comma-separated values (RFC 4180), and one document in JSON, from which the page is made."""
from __future__ import annotations

import collections
import csv
import datetime
import json
import pkgutil
import sys
from collections.abc import Sequence

from mend_reel.reports.json_document import Made, name_of, text_of

from .collection import Collection, Counts, Result, Verdict

PAGE = (pkgutil.get_data(__package__, "page.html") or b"").decode()
COLUMNS = ("path", "verdict", "good", *Counts._fields, "reason")


def write(collection: Collection, results: Sequence[Result], notes: Sequence[str]) -> list[str]:
    """Writes the table, and with the worst reel first the document and the page. Returns lines: reels with something to say, notes, the counts."""
    with collection.aside(f"{collection.out}/collection.csv") as file:
        table = csv.writer(file)
        table.writerow(COLUMNS)
        table.writerows([result.path, result.verdict.value, ";".join(collection.names[number] for number in result.good()), *result.counts,
                         result.reason] for result in results)
    counts, order = collections.Counter(result.verdict for result in results), list(Verdict)
    sentence = f"{len(results):,} reels: " + ", ".join(f"{counts[verdict]:,} {verdict.value}" for verdict in reversed(order))
    head = {"format": "mend-collection", "format_version": 1, "date": datetime.datetime.now(datetime.timezone.utc).isoformat(timespec="seconds"),
            "command": ["mend-collection", *map(text_of, sys.argv[1:])], "sentence": sentence,
            "counts": {verdict.value: counts[verdict] for verdict in order}, "folders": list(map(name_of, collection.names)),
            "notes": list(map(text_of, notes))}
    rows = ",\n".join(json.dumps(row(result)) for result in sorted(results, key=lambda result: order.index(result.verdict)))
    document = json.dumps(head, indent=1)[:-2] + f',\n "reels": [\n{rows}\n ]\n}}\n'
    for name, text in (("collection.json", document), ("index.html", PAGE.replace("{document}", document.replace("<", "\\u003c")))):
        with collection.aside(f"{collection.out}/{name}") as file:
            file.write(text)
    said = (result for result in results if result.reason or result.verdict is not Verdict.UNDAMAGED)
    return [*(": ".join(filter(None, (result.path, result.verdict.value, result.reason))) for result in said), *notes, sentence]


def row(result: Result) -> Made:
    """What the document has of a reel: folders count from 1."""
    copies = [{"folder": number, "state": copy.state.value, "is_original": copy.is_original, "frames": copy.counts.frames,
               "damaged": copy.counts.damaged, "why": text_of(copy.why)} for number, copy in enumerate(result.copies, 1)]
    return {**name_of(result.path), "verdict": result.verdict.value, "good": [number + 1 for number in result.good()], **result.counts._asdict(),
            "reason": text_of(result.reason), "is_made": result.is_made, "copies": copies}
