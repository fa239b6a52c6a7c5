#!/bin/sh
# Holds oof_reach to a model in exact integers that tries the offsets. Prints one line of figures; exits with 1 at the first difference.
#
#     diff/reach/run.sh [THOUSANDS OF RANDOM CALLS, 400 unless said] [SEED, the time unless said]
#
# Needs rustc; liboof_c.a in target/staticlib (`tools/staticlib` puts it there) or in the folder OOF_LIB.
set -eu
here=$(cd "$(dirname "$0")" && pwd)
part=reach
. "$here/../model.sh"
"$work/reach" "${1:-400}" "${2:-$(date +%s)}"
