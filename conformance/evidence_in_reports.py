"""Whether the evidence in a report fits the documents of a case and the rest of the report.

This does not say what counts: it looks up, in the documents alone, what the evidence names.
"""

import base64
import hashlib
import json

from digest_lists import LISTS, agree, listed
from on_disk import bytes_of


def payload_of(envelope):
    """The document in an envelope."""
    return json.loads(base64.b64decode(json.loads(envelope)["payload"]))


def is_rising(texts):
    """Whether texts are in the order of their bytes, each once."""
    return texts == sorted(set(texts), key=str.encode)


def faults_of_documents(case, evidence):
    """What is told of the moment and of the policy and the layout, and does not fit them."""
    layout = bytes_of(case["layout"])
    wanted = {"moment": case["at"], "policy": hashlib.sha256(bytes_of(case["policy"])).hexdigest(),
              "layout": hashlib.sha256(layout).hexdigest(),
              "expires": payload_of(layout)["expires"]}
    return [name for name, one in wanted.items() if evidence[name] != one]


def is_admitted(envelope, place, key):
    """Whether a signature stands at a place of an envelope, from 1, and is admitted for a key id."""
    signatures = json.loads(envelope)["signatures"]
    return 1 <= place <= len(signatures) and signatures[place - 1].get("keyid") in (None, "", key)


def faults_of_key(key, files):
    """What is told of the files and the signatures of a key id, and does not fit these files."""
    if not key["files"] or not is_rising(key["files"]) or not set(key["files"]) <= set(files):
        yield f"files of {key['keyid']}"
    elif not all(any(is_admitted(envelope, place, key["keyid"]) for envelope in files[name])
                 for name, place in zip(key["files"], key["signatures"], strict=True)):
        yield f"signatures of {key['keyid']}"


def files_of(case):
    """The contents of the files of the links, under their names."""
    files = {}
    for name, content in case["links"]["files"]:
        files.setdefault(bytes_of(name).decode(errors="replace"), []).append(bytes_of(content))
    return files


def faults_of_step(step, told, shown, files):
    """What is told of a step of the layout, and does not fit it and the links."""
    ids = [key["keyid"] for key in told["keys"]]
    if told["name"] != step["name"] or told["name"] != shown["name"]:
        yield "name of a step"
    if len(ids) < shown["keys"] or not is_rising(ids) or not set(ids) <= set(step["pubkeys"]):
        yield f"keys of {step['name']}"
    for key in told["keys"]:
        yield from faults_of_key(key, files)


def faults_of_file(case, told, digests):
    """What is told of a delivered file, and does not fit its digests and its provenance."""
    line = bytes_of(case["provenance"]).split(b"\n")[told["line"] - 1]
    statement = payload_of(line)
    named = [subject["digest"] for subject in statement["subject"] if subject.get("digest")]
    wanted = digests[told["path"]]
    if told["digests"] != wanted or not any(agree(wanted, one) for one in named):
        yield f"digests of {told['path']}"
    if statement["predicate"]["runDetails"]["builder"]["id"] != told["builder"]:
        yield f"builder of {told['path']}"


def faults(case, report):
    """What is told in the evidence of the report of an accepted case, and does not fit."""
    evidence, steps = report["evidence"], payload_of(bytes_of(case["layout"]))["steps"]
    found = faults_of_documents(case, evidence)
    files = files_of(case)
    for told in zip(steps, evidence["steps"], report["steps"], strict=True):
        found += faults_of_step(*told, files)
    digests = listed({name: bytes_of(case[name]) for name in LISTS if case.get(name) is not None})
    for told, path in zip(evidence["files"], report["files"], strict=True):
        found += [] if told["path"] == path else ["path of a file"]
        found += faults_of_file(case, told, digests)
    return found
