#!/bin/sh
# hand-over.sh URL: hands dist/ and links/ over to the jobs after the build, as one archive at URL
# in GitLab's package registry. Needs curl, GNU tar, and GitLab's CI_JOB_TOKEN.
set -eu
tar -cf made.tar dist links
curl --fail --silent --show-error --header "JOB-TOKEN: $CI_JOB_TOKEN" --upload-file made.tar "$1"
