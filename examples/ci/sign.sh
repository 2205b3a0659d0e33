#!/bin/sh
# sign.sh BODY ID: writes the envelope of a body to standard output, signed with the private key in the
# variable SIGNING_KEY: the middle line of an Ed25519 key in PEM. Its public key must be the one under
# ID in release/keys.json. Needs itv and openssl 3.
set -eu
umask 077
type=application/vnd.in-toto+json
work=$(mktemp -d)
trap 'rm -rf "$work"' EXIT
printf '%s' "$SIGNING_KEY" | base64 -d > "$work/key"
itv pae "$1" --type "$type" > "$work/pae"
openssl pkeyutl -sign -rawin -in "$work/pae" -keyform DER -inkey "$work/key" -out "$work/signature"
itv sign "$1" --signature "$work/signature" --keys release/keys.json --key "$2" --type "$type"
