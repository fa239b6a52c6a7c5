#!/bin/sh
# Holds oof_pixels to a model in exact integers, and its pixels to taffy's rounding. Prints one line of figures; exits with 1 at the first
# difference.
#
#     diff/pixels/run.sh [MILLIONS OF RANDOM CASES, 2 unless said] [SEED, the time unless said]
#
# Needs rustc; liboof_c.a in target/staticlib (`tools/staticlib` puts it there) or in the folder OOF_LIB. taffy's rounding is compared
# where its published files are to be found (diff/oracle/find-taffy.sh).
set -eu
here=$(cd "$(dirname "$0")" && pwd)
library=${OOF_LIB:-$here/../../target/staticlib}
if [ ! -f "$library/liboof_c.a" ]; then
    echo "diff/pixels: $library/liboof_c.a is not there (tools/staticlib puts it into target/staticlib)"
    exit 1
fi
work=$(mktemp -d)
trap 'rm -rf "$work"' EXIT
set -- "${1:-2}" "${2:-$(date +%s)}"
rust() { # OUTPUT FILE OPTIONS
    out=$1 file=$2
    shift 2
    rustc -O --edition 2021 "$@" -o "$work/$out" "$file" 2> "$work/log" || { cat "$work/log"; exit 1; }
}
source=$("$here/../oracle/find-taffy.sh")
taffy=
if [ -n "$source" ]; then
    cp "$source/util/sys.rs" "$work"
    printf '#![allow(dead_code, unused_imports)]\nmod sys;\npub fn round(value: f32) -> f32 {\n    sys::round(value)\n}\n' > "$work/round.rs"
    for form in std core; do
        feature=
        [ "$form" = core ] || feature='--cfg=feature="std"'
        rust "libround_$form.rlib" "$work/round.rs" --crate-type rlib --crate-name "round_$form" $feature
        taffy="$taffy --extern round_$form=$work/libround_$form.rlib --cfg taffy"
    done
fi
# shellcheck disable=SC2086
rust pixels "$here/pixels.rs" -L "$library" -l static=oof_c $taffy
"$work/pixels" "$@"
