#!/bin/bash
# Times the reading of a large configuration: 16 sets of 64 blocks each, filled up to 65,536 bytes with a comment.
set -eu
cd "$(dirname "${BASH_SOURCE[0]}")/.."
scratch=$(mktemp -d)
trap 'rm -rf "$scratch"' EXIT
{
    printf 'version=1\nwidth=8\nram=65536\n'
    for set in $(seq 0 15); do
        printf '[[set]]\nalgorithm="march"\natomic=1\ncells=1\n'
        for block in $(seq 0 63); do
            at=$((set * 64 + block))
            printf '[[set.block]]\nfirst=%d\nlast=%d\npolicy="destructive"\n' "$at" "$at"
        done
    done
} >"$scratch/job"
size=$(wc -c <"$scratch/job")
if [ "$size" -lt 65535 ]; then
    printf '#%*s\n' $((65534 - size)) '' | tr ' ' x >>"$scratch/job"
fi
echo "configuration: $(wc -c <"$scratch/job") bytes"
printf '=====\n' >>"$scratch/job"
./mt run <"$scratch/job"
time ./mt run <"$scratch/job" >/dev/null
