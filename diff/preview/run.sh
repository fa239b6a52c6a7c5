#!/bin/sh
# Holds previews, request #109, to runs over a copy of the table with the replacement written in, call by call, through the entries of the
# static library; tries wrong entries first. Prints one line of figures; exits with 1 at the first difference.
#
#     diff/preview/run.sh [PREVIEWS, 20,000 unless said] [SEED, the time unless said] [--figures]
#
# Needs cargo; liboof_c.a in target/staticlib (`tools/staticlib` puts it there) or in the folder OOF_LIB; and, for the random cases of
# diff/oracle, the published Rust files (diff/oracle/find-taffy.sh). Without the latter it says so and does nothing.
set -eu
here=$(cd "$(dirname "$0")" && pwd)
part=diff/preview
. "$here/../taffy.sh"
OOF_LIB=$(cd "${OOF_LIB:-$root/target/staticlib}" 2> /dev/null && pwd) || OOF_LIB=$root/target/staticlib
export OOF_LIB
archive=$OOF_LIB/liboof_c.a
if [ ! -f "$archive" ]; then
    echo "diff/preview: $archive is not there (tools/staticlib puts it into target/staticlib)"
    exit 1
fi
previews=${1:-20000}
seed=${2:-$(date +%s)}
[ $# -lt 2 ] || shift
[ $# -lt 1 ] || shift
log=$(mktemp)
trap 'rm -f "$log"' EXIT
cd "$here"
cargo build --offline --locked --release > "$log" 2>&1 || { cat "$log"; exit 1; }
"$CARGO_TARGET_DIR/release/preview" "$previews" "$seed" "$@"
