#!/bin/sh
# Holds oof_drawing_order to a model: a stable sort of the places by layer, and the tests 2, 6, 4 by the customer's words. Prints one line of
# figures; exits with 1 at the first difference.
#
#     diff/drawing/run.sh [THOUSANDS OF RANDOM CALLS, 400 unless said] [SEED, the time unless said]
#
# Needs rustc; liboof_c.a in target/staticlib (`tools/staticlib` puts it there) or in the folder OOF_LIB.
set -eu
here=$(cd "$(dirname "$0")" && pwd)
part=drawing
. "$here/../model.sh"
"$work/drawing" "${1:-400}" "${2:-$(date +%s)}"
