#!/bin/sh
# Prints the times of the same runs through the published Rust and through the static library, of the library's calls as the table of styles
# grows, of the drawing order as more layers are in use, of what a touch driver reads, and of a preview's calls: six tables.
#
#     bench/run.sh [ROUNDS, 101 unless said]
#
# Needs what diff/runs/run.sh needs, and a machine with little else to do.
set -eu
here=$(cd "$(dirname "$0")" && pwd)
part=bench
. "$here/../diff/taffy.sh"
OOF_LIB=$(cd "${OOF_LIB:-$root/target/staticlib}" 2> /dev/null && pwd) || OOF_LIB=$root/target/staticlib
export OOF_LIB
archive=$OOF_LIB/liboof_c.a
if [ ! -f "$archive" ]; then
    echo "bench: $archive is not there (tools/staticlib puts it into target/staticlib)"
    exit 1
fi
log=$(mktemp)
trap 'rm -f "$log"' EXIT
cd "$here"
# functions and loops start on lines of code of their own, so that where the linker puts them has no say
RUSTFLAGS="${RUSTFLAGS:-} -C llvm-args=-align-all-functions=6 -C llvm-args=-align-loops=64" \
    cargo build --offline --locked --release > "$log" 2>&1 || { cat "$log"; exit 1; }
"$CARGO_TARGET_DIR/release/bench" "$@"
