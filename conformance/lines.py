"""Files of JSON objects, one per line, which scripts write and check."""

import json
import pathlib
import sys

TOP = pathlib.Path(__file__).resolve().parent.parent


def text(document):
    """The document on one line."""
    return json.dumps(document, ensure_ascii=False, separators=(",", ":"))


def write(path, documents):
    """Writes a file of documents, each on a line; with `--check`, fails if it differs."""
    content = "".join(text(one) + "\n" for one in documents)
    if sys.argv[1:] != ["--check"]:
        path.write_text(content, encoding="utf-8")
    elif path.read_text(encoding="utf-8") != content:
        sys.exit(f"{path.name} is not what its script writes")
