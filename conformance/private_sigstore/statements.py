"""Statements with provenance of SLSA at random, as a workflow of GitHub makes them."""

import hashlib
import json

ARTIFACT = b"an artifact\n"
# What all of them say.
BUILDER = "https://github.com/actions/runner/github-hosted"
BUILD_TYPE = "https://slsa-framework.github.io/github-actions-buildtypes/workflow/v1"
WORKFLOW = {"ref": "refs/heads/main", "repository": "https://github.com/acme/tool",
            "path": ".github/workflows/release.yml"}


def subjects(dice, artifact):
    """The subjects of a Statement about an artifact: that one, and now and then another."""
    digest = {"sha256": hashlib.sha256(artifact).hexdigest()}
    if dice.random() < 0.5:
        digest["sha512"] = hashlib.sha512(artifact).hexdigest()
    name = f"pkg:npm/tool@{dice.randrange(9)}.{dice.randrange(9)}.0"
    found = [{"name": name, "digest": digest}]
    if dice.random() < 0.3:
        found.append({"name": "other", "digest": {"sha256": dice.randbytes(32).hex()}})
    return found


def definition(dice):
    """What says how the artifact was built."""
    repository = WORKFLOW["repository"]
    run = str(dice.randrange(10**9))
    commit = {"gitCommit": dice.randbytes(20).hex()}
    return {"buildType": BUILD_TYPE, "externalParameters": {"workflow": WORKFLOW},
            "internalParameters": {"github": {"event_name": "push", "run": run}},
            "resolvedDependencies": [{"uri": f"git+{repository}@{WORKFLOW['ref']}",
                                      "digest": commit}]}


def details(dice):
    """What says by whom it was built, and in which run."""
    run = f"{WORKFLOW['repository']}/actions/runs/{dice.randrange(10**10)}/attempts/1"
    return {"builder": {"id": BUILDER}, "metadata": {"invocationId": run}}


def statement(dice, artifact=ARTIFACT):
    """The bytes of a Statement about an artifact."""
    document = {"_type": "https://in-toto.io/Statement/v1", "subject": subjects(dice, artifact),
                "predicateType": "https://slsa.dev/provenance/v1",
                "predicate": {"buildDefinition": definition(dice), "runDetails": details(dice)}}
    return json.dumps(document, separators=(",", ":")).encode()
