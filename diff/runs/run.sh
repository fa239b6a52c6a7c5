#!/bin/sh
# Runs the oracle's own tests (rows of document 01 and of where size keywords are compared, sweeps); then the published Rust, a second
# implementation and the static library side by side, damages calls, and tests that a wrong answer would be noticed. Prints one line
# of figures; exits with 1 at the first difference.
#
#     diff/runs/run.sh [CASES of each profile, 17,000 unless said] [SEED, the time unless said] [OPTIONS of the program]
#
# Needs cargo; liboof_c.a in target/staticlib (`tools/staticlib` puts it there) or in the folder OOF_LIB; and the published
# Rust files (diff/oracle/find-taffy.sh). Without the latter it says so and does nothing.
set -eu
here=$(cd "$(dirname "$0")" && pwd)
part=diff/runs
. "$here/../taffy.sh"
OOF_LIB=$(cd "${OOF_LIB:-$root/target/staticlib}" 2> /dev/null && pwd) || OOF_LIB=$root/target/staticlib
export OOF_LIB
archive=$OOF_LIB/liboof_c.a
if [ ! -f "$archive" ]; then
    echo "diff/runs: $archive is not there (tools/staticlib puts it into target/staticlib)"
    exit 1
fi
cases=${1:-17000}
seed=${2:-$(date +%s)}
[ $# -lt 2 ] || shift
[ $# -lt 1 ] || shift
log=$(mktemp)
trap 'rm -f "$log"' EXIT
cd "$root/diff/oracle"
cargo test --offline --locked --release > "$log" 2>&1 || { cat "$log"; exit 1; }
cd "$here"
cargo build --offline --locked --release > "$log" 2>&1 || { cat "$log"; exit 1; }
"$CARGO_TARGET_DIR/release/runs" "$cases" "$seed" "$@"
