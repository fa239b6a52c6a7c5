#!/bin/sh
# Holds oof_first_bad_word to a model that has for each word of a style the values it may take, and tools/explain-screen to
# oof_first_bad_word. Prints one line of figures for each; exits with 1 at the first difference.
#
#     diff/words/run.sh [THOUSANDS OF RANDOM TABLES, 200 unless said] [SEED, the time unless said] [DAMAGED SCREENS, 1000 unless said]
#
# Needs rustc, Python 3; liboof_c.a in target/staticlib (`tools/staticlib` puts it there) or in the folder OOF_LIB.
set -eu
here=$(cd "$(dirname "$0")" && pwd)
part=words
. "$here/../model.sh"
set -- "${1:-200}" "${2:-$(date +%s)}" "${3:-1000}"
"$work/words" "$1" "$2"
"$here/screens.py" "$work/words" "$2" "$3"
