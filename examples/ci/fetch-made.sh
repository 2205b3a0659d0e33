#!/bin/sh
# fetch-made.sh URL: unpacks into made/ what hand-over.sh put at URL. Needs what hand-over.sh needs.
set -eu
mkdir made
curl --fail --silent --show-error --location --header "JOB-TOKEN: $CI_JOB_TOKEN" \
    --output made.tar "$1"
tar -xf made.tar -C made
