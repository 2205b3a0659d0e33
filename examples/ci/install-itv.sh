#!/bin/sh
# install-itv.sh [SHA256]: installs itv from the package in package/, and what the workflows and the
# other scripts need. If a SHA-256 is given, the package must have it and be the only one there.
# Needs Debian or Ubuntu, and root or sudo.
set -eu
if [ $# -gt 0 ] && [ "$(sha256sum package/itv_*.deb | cut -c 1-64)" != "$1" ]; then
    echo "install-itv.sh: the package does not have the SHA-256 that was given" >&2
    exit 1
fi
as_root=
[ "$(id -u)" -eq 0 ] || as_root=sudo
$as_root apt-get update -q
$as_root apt-get install -q -y --no-install-recommends \
    ca-certificates curl jq openssl ./package/itv_*.deb
