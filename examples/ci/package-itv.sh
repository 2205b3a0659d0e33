#!/bin/sh
# package-itv.sh TREE: builds itv in its source tree, and puts its Debian package into package/.
# Needs the Rattle toolchain, Python and dpkg-dev.
set -eu
mkdir -p package
"$1/build"
cp "$("$1/package")" package/
