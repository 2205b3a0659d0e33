"""Makes a wheel of the Python package with the shared library in it, by Python's own modules alone.

Two wheels that are made of the same sources and of the same library have the same bytes.
"""

import base64
import hashlib
import json
import sysconfig
import time
import zipfile

import linking
import tree

METADATA = """\
Metadata-Version: 2.1
Name: {program}
Version: {version}
Summary: {summary}
Requires-Python: >=3.9
Description-Content-Type: text/markdown

{description}
"""
WHEEL = """\
Wheel-Version: 1.0
Generator: itv
Root-Is-Purelib: false
Tag: {tag}
"""


def tag():
    """The tag of the wheel: any Python 3, on this machine's system."""
    return f"py3-none-{sysconfig.get_platform().replace('-', '_').replace('.', '_')}"


def files(listed):
    """The paths and the bytes of what is in the wheel, but for the list of it."""
    package = tree.TOP / "python" / "itv"
    for path in sorted([*package.glob("*.py"), package / "py.typed"]):
        yield f"itv/{path.name}", path.read_bytes()
    yield f"itv/{linking.SONAME}", (linking.MADE / linking.SONAME).read_bytes()
    about = f"itv-{listed['version']}.dist-info"
    description = (tree.TOP / "python" / "README.md").read_text()
    yield f"{about}/METADATA", METADATA.format(**{**listed, "description": description}).encode()
    yield f"{about}/WHEEL", WHEEL.format(tag=tag()).encode()


def record(path, content):
    """The line of a file in the list: its path, its digest and its length."""
    digest = base64.urlsafe_b64encode(hashlib.sha256(content).digest()).rstrip(b"=").decode()
    return f"{path},sha256={digest},{len(content)}\n"


def make(folder, moment):
    """Makes the wheel in a folder, with a moment in seconds for its files, and returns its path."""
    listed = json.loads((tree.TOP / "docs" / "commands.json").read_text())
    given, name = list(files(listed)), f"itv-{listed['version']}.dist-info/RECORD"
    given.append((name, ("".join(record(*one) for one in given) + f"{name},,\n").encode()))
    made = folder / f"itv-{listed['version']}-{tag()}.whl"
    with zipfile.ZipFile(made, "w", zipfile.ZIP_DEFLATED) as archive:
        for path, content in given:
            about = zipfile.ZipInfo(path, time.gmtime(moment)[:6])
            about.external_attr, about.compress_type = 0o100644 << 16, zipfile.ZIP_DEFLATED
            archive.writestr(about, content)
    return made
