#!/usr/bin/env bash
# How long sealing and opening take beside libtomcrypt's portable AES-CCM in the same run (Debian's libtomcrypt-dev). Prints a table and judges no time; it fails where
# the two answer differently.
set -eu
cd "$(dirname "$0")/.."
work=$(mktemp -d)
trap 'rm -rf "$work"' EXIT

[ -f target/staticlib/libbench.a ] || tools/build bench >&2
cc -O2 -o "$work/cipher" bench/cipher.c target/staticlib/libbench.a -ltomcrypt
"$work/cipher"
