#!/bin/sh
# verify-release.sh [OPTION..]: verifies the files in dist/ by the policy in release/, as the release
# of REF (on GitHub refs/tags/v1.2, on GitLab v1.2), with further options of itv verify. Its status is
# that of itv: 0 where the release is accepted. Needs itv and jq.
set -eu
jq --arg ref "${REF:?}" '.expectations[].parameters.ref = $ref' release/policy.json > policy.json
itv digest --recursive dist > sums
exec itv verify --policy policy.json --layout release/layout.envelope.json --links links \
    --provenance provenance.jsonl --sums sums --at "$(date -u +%FT%TZ)" --public-keys --strict "$@"
