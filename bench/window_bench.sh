#!/bin/sh
# Tells what the windows of the good first run cost: bench/window_bench.sh [NUMBER SIZE END], the design of `soak NUMBER SIZE` up to a time (without any: 5 250 6400).
# The program is built without proofs, of the module that `rt try` makes, by the toolchain's clang with -O3; checks of indexes and sums stay in it, so shares count here, not
# sums. Instructions are counted by valgrind; those of reading the texts and of the first 65 slots, up to time 320, are left out. Memory is what is resident in the end, in MB,
# and `kept` is a run that keeps its windows. RT_TOP=FOLDER takes the crates of another checkout.
set -eu
number=${1:-5} size=${2:-250} end=${3:-6400}
bench=$(cd "$(dirname "$0")" && pwd)
top=${RT_TOP:-$bench/..}
kit=$(dirname "$(dirname "$(readlink -f "$(command -v rt)")")")
work=$(mktemp -d)
trap 'rm -rf "$work"' EXIT
mkdir -p "$work/crates/window_bench/src" "$work/tmp"
cp "$top/crates.txt" "$top/HANDLES" "$work"
(cd "$top/crates" && tar cf - --exclude=out .) | (cd "$work/crates" && tar xf -)
cp "$bench/window_bench.txt" "$work/crates/window_bench/src/main.rt"
echo "window_bench: soak_text plan_read elaborate good_windows run_trace machine good_trace causal_monitor net_graph v_elab v_design four_value vf_base" >> "$work/crates.txt"

# `rt try` removes the module once it has built its own program, so it is copied as soon as that begins.
(cd "$work/crates/window_bench" && TMPDIR=$work/tmp exec rt try --steps 1 -- machine 1 1 1) > "$work/said" 2>&1 &
trial=$!
while kill -0 "$trial" 2> /dev/null && [ ! -e "$work/module.bc" ]; do
    sleep 0.2
    for object in $(find "$work/tmp" -name 'module-*.o.tmp'); do
        cp "${object%/*}/module.bc" "$work/module.bc" && kill "$trial"
    done
done
wait "$trial" || [ -e "$work/module.bc" ] || { cat "$work/said" >&2; exit 1; }
"$kit/toolchain/bin/clang" -O3 -c "$work/module.bc" -o "$work/module.o"
cc "$work/module.o" "$kit/c/libos_c.a" "$kit/c/liblibc_c.a" -o "$work/program" -lm -lpthread

# instructions WHAT END
instructions() {
    valgrind --tool=callgrind --callgrind-out-file=/dev/null "$work/program" "$1" "$number" "$size" "$2" 2>&1 | awk '/Collected/ { print $4 }'
}

# resident WHAT END
resident() {
    python3 -c 'import resource, subprocess, sys
subprocess.run(sys.argv[1:], stdout=subprocess.DEVNULL, check=True)
print(round(resource.getrusage(resource.RUSAGE_CHILDREN).ru_maxrss / 1024, 1))' "$work/program" "$1" "$number" "$size" "$2"
}

for what in machine noted windows; do
    echo "$what: $((($(instructions $what "$end") - $(instructions $what 320)) / 1000000)) million instructions, $(resident $what "$end") MB"
done
echo "kept: $(resident kept "$end") MB, up to half the time $(resident kept $((end / 2))) MB"
