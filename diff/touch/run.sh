#!/bin/sh
# Holds oof_touch to a model in exact integers: pixel edges as the nearest ones, and the tests 2, 6, 4, 9 by the customer's words; and pairs
# of runs that are to give the driver identical words. Prints one line of figures; exits with 1 at the first difference.
#
#     diff/touch/run.sh [THOUSANDS OF RANDOM CALLS, 400 unless said] [SEED, the time unless said]
#
# Needs rustc; liboof_c.a in target/staticlib (`tools/staticlib` puts it there) or in the folder OOF_LIB.
set -eu
here=$(cd "$(dirname "$0")" && pwd)
part=touch
. "$here/../model.sh"
"$work/touch" "${1:-400}" "${2:-$(date +%s)}"
