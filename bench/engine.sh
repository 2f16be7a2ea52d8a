#!/bin/bash
# Measures the test engine for C: bytes of code and of a test, the deepest stack, and instructions per access.
#
# Code and stack are read out of the static library; the stack is the sum of the frames along the longest chain of calls.
# Instructions are counted by `valgrind --tool=callgrind`; those of one word's accesses are taken off those of 64 words.
set -eu
cd "$(dirname "${BASH_SOURCE[0]}")/.."
scratch=$(mktemp -d)
trap 'rm -rf "$scratch"' EXIT

(cd crates/mt_c && rt lib) >"$scratch/log" 2>&1 || {
    cat "$scratch/log" >&2
    exit 1
}
archive=crates/mt_c/out/libmt_c.a
"${CC:-cc}" -std=c11 -Wall -Wextra -Werror -O2 bench/engine.c "$archive" -o "$scratch/engine"

echo "code: $(size "$archive" | awk 'NR > 1 { sum += $1 } END { print sum }') bytes"
echo "a test: $(sed -n 's/^#define MT_TEST_SIZE //p' include/mt.h) bytes"

objdump -dr --no-show-raw-insn "$archive" | python3 -c '
import re, sys
frames, calls, name = {}, {}, None
for line in sys.stdin:
    head = re.match(r"[0-9a-f]+ <(.+)>:", line)
    if head:
        name = head[1]
        frames[name], calls[name] = 8, set()
    elif name:
        if re.search(r"\spush\s", line):
            frames[name] += 8
        room = re.search(r"\ssub\s+\$0x([0-9a-f]+),%rsp", line)
        if room:
            frames[name] += int(room[1], 16)
        called = re.search(r"R_X86_64_(?:PLT32|PC32)\s+(?:\.text\.)?([^-+\s]+)", line) or re.search(r"\s(?:call|jmp)\s+[0-9a-f]+ <([^+>]+)>", line)
        if called:
            calls[name].add(called[1])

def depth(it):
    return frames.get(it, 0) + max((depth(other) for other in calls.get(it, ()) if other != it), default=0)

for it in sorted(frames):
    if it.startswith("mt_") and "::" not in it:
        print(f"stack of {it}: {depth(it)} bytes")
'

# The instructions of a test, and how many accesses it has.
count() {
    valgrind --tool=callgrind --callgrind-out-file="$scratch/profile" "$scratch/engine" "$1" "$2" >"$scratch/accesses" 2>"$scratch/log"
    echo "$(sed -n 's/^==[0-9]*== Collected : //p' "$scratch/log") $(<"$scratch/accesses")"
}

measure() {
    local few many
    read -r -a few < <(count "$1" 1)
    read -r -a many < <(count "$1" 64)
    echo "$1: $(((many[0] - few[0]) / (many[1] - few[1]))) instructions per access"
}

measure march-c-minus
measure '{*(w0); u(r0,w1); u(r1,w0); d(r0,w1); d(r1,w0); *(r0)}'
measure checkerboard
measure galpat
