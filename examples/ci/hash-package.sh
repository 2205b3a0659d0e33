#!/bin/sh
# hash-package.sh: writes the SHA-256 of the package in package/ to standard output, as a line for
# GitHub's GITHUB_OUTPUT.
set -eu
echo "sha256=$(sha256sum package/itv_*.deb | cut -c 1-64)"
