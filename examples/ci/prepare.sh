#!/bin/sh
# prepare.sh REPOSITORY: what the owner does once, on a machine of their own: makes a key pair for the
# owner and for each job in keys/, and the public keys, the signed layout and the policy in release/.
# Needs itv, jq and openssl 3.
set -eu
here=$(cd "$(dirname "$0")" && pwd)
mkdir keys release
echo '*' > keys/.gitignore
for id in owner build-job attest-job; do
    openssl genpkey -algorithm ed25519 -out "keys/$id.pem"
    openssl pkey -in "keys/$id.pem" -pubout -out "keys/$id.pub"
    itv key "keys/$id.pub" --name "$id" > "keys/$id.json"
done
jq -s add keys/owner.json keys/build-job.json keys/attest-job.json > release/keys.json

# The key objects of some ids; stops at an id that has none.
only='def only($ids): . as $keys
  | reduce $ids[] as $id ({}; .[$id] = ($keys[$id] // error("no key has the id \($id)")));'

jq "$only"'{
  _type: "layout",
  expires: (now + 365 * 86400 | floor | todate),
  readme: "", keys: only(["build-job"]),
  steps: [
    {
      _type: "step", expected_command: [],
      name: "build", threshold: 1, pubkeys: ["build-job"],
      expected_materials: [["ALLOW", "src/*"], ["DISALLOW", "*"]],
      expected_products: [["CREATE", "dist/*"], ["DISALLOW", "*"]]
    }
  ],
  inspect: []
}' release/keys.json > release/layout.json
SIGNING_KEY=$(sed -n 2p keys/owner.pem) "$here/sign.sh" release/layout.json owner \
    > release/layout.envelope.json

# The release's own ref is not in this policy: verify-release.sh adds it, and without it no provenance
# passes.
jq --arg repository "$1" "$only"'{
  owners: only(["owner"]),
  deliver: [["MATCH", "dist/*", "WITH", "PRODUCTS", "FROM", "build"], ["DISALLOW", "*"]],
  expectations: [
    {
      files: "dist/*",
      builders: [{id: "https://ci.example/attest", keys: only(["attest-job"]), level: 2}],
      level: 2,
      buildType: "https://ci.example/archive",
      parameters: {repository: $repository}
    }
  ]
}' release/keys.json > release/policy.json
