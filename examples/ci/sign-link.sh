#!/bin/sh
# sign-link.sh STEP ID: signs the link of a step, made from the lists `before` and `after`, and puts
# it into links/. Needs what sign.sh needs, including SIGNING_KEY.
set -eu
mkdir -p links
itv link --name "$1" --materials before --products after > body
"$(dirname "$0")/sign.sh" body "$2" > "links/$1.$2.link"
