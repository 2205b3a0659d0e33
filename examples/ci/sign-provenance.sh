#!/bin/sh
# sign-provenance.sh ID: signs a Statement with the provenance of the files in dist/, and adds it to
# provenance.jsonl. REPOSITORY and REF say what was built. Needs jq, and what sign.sh needs.
set -eu
itv digest --recursive dist > sums
jq -n --arg repository "$REPOSITORY" --arg ref "$REF" '{repository: $repository, ref: $ref}' \
    > parameters.json
itv statement --sums sums --builder https://ci.example/attest \
    --build-type https://ci.example/archive --parameters parameters.json > statement.json
"$(dirname "$0")/sign.sh" statement.json "$1" >> provenance.jsonl
