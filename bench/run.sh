#!/usr/bin/env bash
# The benchmarks: bench/run.sh [ROUNDS]. With BUILT=1 the library is taken as it stands.
#
# With PLACE=16, 32 or 48 the library is linked so many bytes further on: where its loops lie alters their time.
#
# It times the proved machine and engine beside the same rules in C, and the machine beside Lua 5.4, LuaJIT without its
# compiler and wasm-interp, where they are installed. Then it measures the stack of each call and how its cost grows.
# It fails if the proved side and the C side differ, or if a call takes more stack than it may.
set -euo pipefail
cd "$(dirname "$0")/.."
[ -n "${BUILT:-}" ] || tools/build-library > /dev/null
made=target/bench
mkdir -p $made
# Fixed addresses (no PIE): at random ones the C peers' jumps are at times predicted badly, four times slower and more.
for peer in machine engine; do gcc -O2 -fno-pie -Wall -Wextra -c bench/$peer.c -o $made/$peer.o; done
printf '.text\n%s\n.section .note.GNU-stack\n' "${PLACE:+.zero $PLACE}" | gcc -c -x assembler - -o $made/place.o
gcc -O2 -no-pie -Wall -Wextra -Iinclude bench/main.c $made/machine.o $made/place.o target/staticlib/libcapi.a -o $made/bench
gcc -O2 -no-pie -Wall -Wextra -Iinclude bench/engines.c $made/engine.o $made/place.o target/staticlib/libcapi.a -o $made/engines
for m in stack growth; do gcc -O2 -Wall -Wextra -Wl,-z,now -Iinclude bench/$m.c target/staticlib/libcapi.a -o $made/$m; done

# The least ns that a command takes in nine rounds.
least() {
    local i t best=
    for ((i = 0; i < 9; i++)); do
        t=$(date +%s%N)
        "$@" > /dev/null
        t=$(($(date +%s%N) - t))
        [ -n "$best" ] && [ "$best" -le "$t" ] || best=$t
    done
    echo "$best"
}
# ns a turn in wasm-interp, without its start.
turns_in_wasm() {
    local module=$made/turn.wasm turns=100000 started
    wat2wasm bench/turn.wat -o $module
    started=$(least wasm-interp $module)
    echo "wasm     $((($(least wasm-interp $module --run-all-exports) - started) / turns)) ns a turn in wasm-interp, the least of 9 rounds"
}
installed() { command -v "$1" > /dev/null || { echo "$1 is not installed: skipped" && false; }; }

$made/bench "$@"
$made/engines "$@"
if installed lua5.4; then lua5.4 bench/turn.lua $made/bench; fi
if installed luajit; then luajit -joff bench/turn.lua $made/bench; fi
if installed wat2wasm && installed wasm-interp; then turns_in_wasm; fi
$made/stack
$made/growth
