#!/bin/bash
# Times `check` and `fmt` on a job of a million short lines, a replay of 61,440,000 test accesses: 20,000 ticks of
# March C- over 4,096 words of 32 bits, and `cut` over a pass of 65,536 slices, into one tick and into as many as there
# are slices. Each is run five times, and the least time is printed. With the word `small` there are a thousandth as many
# lines and ticks, each run once: that the script works, and no more.
set -eu
lines=1000000 ticks=20000 runs='1 2 3 4 5'
if [ "${1:-}" = small ]; then lines=1000 ticks=20 runs=1; fi
cd "$(dirname "${BASH_SOURCE[0]}")/.."
scratch=$(mktemp -d)
trap 'rm -rf "$scratch"' EXIT

configuration() {
    printf 'version = 1\nwidth = %d\nram = %d\n[[set]]\nalgorithm = "march"\natomic = 16\ncells = 256\n' "$1" "$2"
    printf '[[set.block]]\nfirst = 0\nlast = %d\npolicy = "non-destructive"\n=====\n' $(($2 - 1))
}

{
    configuration 8 64
    for line in 'ram Init' 'app r 3' 'app w 3 C4' '# note' 'tick ram @5 [ w 3 c4;r 3 ]'; do printf '%s\n' "$line"; done |
        awk -v lines="$lines" '{ line[NR] = $0 } END { for (i = 0; i < lines; i++) print line[i % NR + 1] }'
} >"$scratch/lines"

{
    configuration 32 4096
    printf 'ram Init\nram Allow\n'
    yes 'tick ram' | head -n "$ticks" || true
} >"$scratch/ticks"

configuration 8 65536 | sed 's/atomic = 16/atomic = 1/' >"$scratch/slices"

# The least of five times of a command over an input, in milliseconds.
least() {
    local input=$1 best= began ended
    shift
    for _ in $runs; do
        began=$(date +%s%N)
        ./mt "$@" <"$input" >"$scratch/out"
        ended=$((($(date +%s%N) - began) / 1000000))
        if [ -z "$best" ] || [ "$ended" -lt "$best" ]; then best=$ended; fi
    done
    echo "$best"
}

./mt check <"$scratch/lines" >/dev/null
echo "check, $lines lines: $(least "$scratch/lines" check) ms"
echo "fmt, $lines lines: $(least "$scratch/lines" fmt) ms"
ms=$(least "$scratch/ticks" run)
accesses=$((ticks * 3072))
grep -c 'ran 3072$' "$scratch/out" | sed 's/$/ ticks of 3072 accesses/'
echo "run: $ms ms, $((ms * 1000000 / accesses)).$((ms * 10000000 / accesses % 10)) ns per access"
echo "cut, 65,536 slices into one tick: $(least "$scratch/slices" cut 0 4294967295 11) ms"
echo "cut, 65,536 slices into 65,536 ticks: $(least "$scratch/slices" cut 0 12 11) ms"
