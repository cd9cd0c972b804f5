"""Whether a document is as a schema in docs/ says, by python3-jsonschema, which Debian's Python has."""
import functools
import json
import pathlib
import subprocess
import sys

DOCS = pathlib.Path(__file__).resolve().parent.parent / "docs"
SCHEMA, COLLECTION = DOCS / "mend-reel.schema.json", DOCS / "mend-collection.schema.json"
INTERPRETERS = [sys.executable, "/usr/bin/python3"]
VALIDATE = """import json, sys
import jsonschema
schema, document = json.load(sys.stdin)
kind = jsonschema.validators.validator_for(schema)
kind.check_schema(schema)
for error in kind(schema).iter_errors(document):
    print("/".join(map(str, error.absolute_path)) + ": " + error.message[:300])
"""


@functools.lru_cache(maxsize=None)
def interpreter():
    """The Python that has jsonschema."""
    for path in INTERPRETERS:
        if pathlib.Path(path).exists() and not subprocess.run([path, "-c", "import jsonschema"], capture_output=True).returncode:
            return path
    raise RuntimeError("no Python here has jsonschema: apt-get install python3-jsonschema")


def faults(document, path=SCHEMA):
    """What of a document is not as a schema says, a line each; nothing where it is."""
    both = json.dumps([json.loads(path.read_text()), document])
    done = subprocess.run([interpreter(), "-W", "ignore", "-c", VALIDATE], input=both.encode(), capture_output=True, check=False)
    if done.returncode:
        raise RuntimeError(f"the schema could not be asked: {done.stderr.decode()}")
    return done.stdout.decode()
