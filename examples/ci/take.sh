#!/bin/sh
# take.sh FOLDER NAME..: copies these files and folders, and nothing else, out of the folder that
# holds what another job handed over. Takes none if one of them is here already, or if one is or
# contains anything but regular files and folders, such as a symbolic link.
set -eu
from=$1
shift
for name in "$@"; do
    if [ -e "$name" ] || [ -L "$name" ]; then
        echo "take.sh: there is $name already" >&2
        exit 1
    fi
    other=$(find "$from/$name" ! -type f ! -type d)
    if [ -n "$other" ]; then
        echo "take.sh: $from/$name has something that is no regular file and no folder" >&2
        exit 1
    fi
done
for name in "$@"; do
    cp -R "$from/$name" "$name"
done
