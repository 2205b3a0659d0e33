#!/bin/sh
# build.sh: lists the sources in `before`, builds the release in dist/, and lists it in `after`. The
# build here is an archive of src/. Needs itv and GNU tar.
set -eu
itv digest --recursive src > before
mkdir -p dist
tar --sort=name --owner=0 --group=0 --numeric-owner --mtime=@0 -cf dist/hello.tar src
itv digest --recursive dist > after
