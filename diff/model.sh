# Sourced by the scripts that hold an entry to a model, with `here` their folder and `part` their name: builds $part.rs over liboof_c.a, as
# the program $work/$part. The library is in target/staticlib (`tools/staticlib` puts it there) or in the folder OOF_LIB.
library=${OOF_LIB:-$here/../../target/staticlib}
if [ ! -f "$library/liboof_c.a" ]; then
    echo "diff/$part: $library/liboof_c.a is not there (tools/staticlib puts it into target/staticlib)"
    exit 1
fi
work=$(mktemp -d)
trap 'rm -rf "$work"' EXIT
# level 1: the calls are cheap, and at level 2 the compilation takes longer than they do
rustc -C opt-level=1 --edition 2021 -L "$library" -l static=oof_c -o "$work/$part" "$here/$part.rs" 2> "$work/log" ||
    { cat "$work/log"; exit 1; }
