#!/bin/sh
# Makes the expected output of test_cbor from the last column of items.txt: one answer for each item, in the file's order.
cd "$(dirname "$0")" || exit 1
awk '!/^#/ && NF { print $NF }' data/items.txt > stdout
