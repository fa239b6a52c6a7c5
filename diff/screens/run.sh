#!/bin/sh
# Holds target/bin/boxlist to the published Rust, or to the second implementation (diff/oracle/README.md), and target/bin/boxreach to a
# model over that list: random screens, large ones, boxes around panels, screens with other layers, with other second values, and any
# bytes. Prints one line of figures for each; exits with 1 at the first difference, crash, or output that is neither a list nor a
# refusal.
#
#     diff/screens/run.sh [RANDOM SCREENS, 400 unless said] [SEED, the time unless said] [LARGE SCREENS, 100] [SECONDS of any bytes, 5]
#                         [PANELS, 200] [SCREENS whose layers are changed, 15] [SCREENS whose sums are, 15]
#
# Needs Python 3, cargo, both programs (`tools/programs` makes them) and the published Rust files (diff/oracle/find-taffy.sh).
# Without the latter it says so and does nothing.
set -eu
here=$(cd "$(dirname "$0")" && pwd)
part=diff/screens
. "$here/../taffy.sh"
(cd "$here/../oracle" && cargo build --release --quiet)
seed=${2:-$(date +%s)}
for part in "random ${1:-400}" "large ${3:-100}" "around ${5:-200}" "layers ${6:-15}" "sums ${7:-15}" "bytes ${4:-5}"; do
    # shellcheck disable=SC2086
    set -- $part
    printf 'diff/screens %s, seed %s: ' "$1" "$seed"
    "$here/compare.py" "$CARGO_TARGET_DIR/release/oracle" "$1" "$seed" "$2"
done
