#!/bin/bash
# Counts the instructions of replays and of fault locations, by `valgrind --tool=callgrind`: per test access of March C-, transparent Galpat and
# checkerboard over 4,096 words of 32 bits, with about a million accesses each, and per tick that tests nothing. What the
# program takes before its first tick is taken off. Beside them stands the least time of five runs without valgrind. Then the
# instructions of `locate` on 16 words of 8 bits, the list included, with no miss and with one.
set -eu
cd "$(dirname "${BASH_SOURCE[0]}")/.."
scratch=$(mktemp -d)
trap 'rm -rf "$scratch"' EXIT

# A job: an algorithm, lines before the ticks, and how many ticks.
job() {
    printf 'version = 1\nwidth = 32\nram = 4096\n[[set]]\nalgorithm = "%s"\natomic = 16\ncells = 256\n' "$1"
    printf '[[set.block]]\nfirst = 0\nlast = 4095\npolicy = "non-destructive"\n=====\n%s\n' "$2"
    yes 'tick ram' | head -n "$3" || true
}

# The instructions of a form over an input, `run` if none is named.
count() {
    valgrind --tool=callgrind --callgrind-out-file="$scratch/profile" ./crates/mt_cli/out/mt_cli "${2:-run}" <"$1" >"$scratch/trace" 2>"$scratch/log"
    sed -n 's/^==[0-9]*== Collected : //p' "$scratch/log"
}

# The least of five times of a run over an input, in milliseconds.
least() {
    local best= began ended
    for _ in 1 2 3 4 5; do
        began=$(date +%s%N)
        ./mt run <"$1" >"$scratch/out"
        ended=$((($(date +%s%N) - began) / 1000000))
        if [ -z "$best" ] || [ "$ended" -lt "$best" ]; then best=$ended; fi
    done
    echo "$best"
}

# A quotient with one digit behind the point.
quotient() {
    echo "$(($1 / $2)).$(($1 * 10 / $2 % 10))"
}

begin='ram Init
ram Allow'

measure() {
    local before whole accesses
    job "$1" "$begin" 0 >"$scratch/before"
    job "$1" "$begin" "$2" >"$scratch/job"
    before=$(count "$scratch/before")
    whole=$(count "$scratch/job")
    accesses=$(awk '$2 == "ran" { sum += $3 } END { print sum }' "$scratch/trace")
    echo "$1: $(quotient $((whole - before)) "$accesses") instructions per access, $accesses accesses in $2 ticks, $(least "$scratch/job") ms"
}

./mt run <jobs/first.job >/dev/null
measure march 326
measure transparent-galpat 20
measure checkerboard 652
job march 'ram Init' 0 >"$scratch/before"
job march 'ram Init' 20000 >"$scratch/job"
before=$(count "$scratch/before")
echo "a tick that tests nothing: $(quotient $(($(count "$scratch/job") - before)) 20000) instructions"

# The input of a location: algorithm, march, background, initial words, and lines of misses.
location() {
    printf 'version = 1\nwidth = 8\nram = 16\ninitial = "%s"\n[[set]]\nalgorithm = "%s"\n%sbackground = "%s"\natomic = 16\ncells = 16\n' "$4" "$1" "${2:+march = \"$2\"
}" "$3"
    printf '[[set.block]]\nfirst = 0\nlast = 15\npolicy = "non-destructive"\n=====\nslice 0 0 0\n%s' "$5"
}

# A name, algorithm, march, background and initial words, and one miss.
locate() {
    location "$2" "$3" "$4" "$5" '' >"$scratch/none"
    location "$2" "$3" "$4" "$5" "miss $6
" >"$scratch/one"
    echo "locate, $1: $(count "$scratch/none" locate) instructions with no miss, $(count "$scratch/one" locate) with one"
}

# 14 elements that only write, and then two that read first.
late='*(r0,w1,w1,w1,w1,w1,w1,w1); *(r1,w1,w1,w1,w1,w1,w1,w1)'
for _ in 1 2 3 4 5 6 7 8 9 10 11 12 13 14; do late="*(w0,w0,w0,w0,w0,w0,w0,w0); $late"; done

locate 'MATS+' march '{*(w0); u(r0,w1); d(r1,w0)}' 00 00 '16 01'
locate 'March C-' march '' 00 00 '16 01'
locate 'a late march' march "{$late}" 00 00 '1792 01'
locate 'a late march, other words' march "{$late}" 0f 33 '1792 01'
locate 'Galpat' galpat '' 00 00 '17 01'
locate 'walk path' walk-path '' 00 00 '17 01'
