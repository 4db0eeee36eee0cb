#!/bin/sh
# Runs each test of nm_limbo, and set_bench with 5,000 items and no round, under valgrind. Fails if valgrind
# reports a wrong read or write, or a block that was not given back.
set -eu
cd "$(dirname "$0")/../crates"
told=$(mktemp)
trap 'rm -f "$told"' EXIT

# Proves and builds in a crate's folder, and says what was wrong if that fails.
build() {
    (cd "$1" && shift && rt "$@") >"$told" 2>&1 || { cat "$told"; exit 1; }
}

# Runs a program under valgrind.
watch() {
    valgrind --quiet --error-exitcode=1 --leak-check=full --errors-for-leak-kinds=all "$@" \
        >"$told" 2>&1 || { cat "$told"; echo "under valgrind: $*"; exit 1; }
}

build nm_limbo test
build set_bench run -- 5000 0 1 16 1 1
runs=1
watch set_bench/out/set_bench 5000 0 1 16 1 1
for name in $(nm_limbo/out/nm_limbo_tests --list | sed -n 's/: test$//p'); do
    watch nm_limbo/out/nm_limbo_tests "$name"
    runs=$((runs + 1))
done
[ "$runs" -gt 1 ] || { echo "no test was run"; exit 1; }
echo "limbo memory: $runs runs under valgrind, and no report"
