#!/bin/sh
# Builds the C programs against an installed copy of the proved library, outside the repository, and runs them: the tests, the
# stored runs, live and each once more as a preview, whose output is held to replay.stdout, the measurement of the stack, and the
# examples, whose output is held to example.stdout, touch.stdout and preview.stdout. Before that, the header's numbers are held to
# the definitions, and the library to what README.md says that it needs. README.md must have the size of the code as measured, that
# of the stack as measured by the compiler that it names, and the maps that touch.c and preview.c print.
#
#     tools/staticlib && hosts/c/run.sh
#
# Needs a C compiler on x86-64 Linux (CC names another than cc), Python 3, nm and size of binutils; pkg-config if it is there.
set -eu
here=$(cd "$(dirname "$0")" && pwd)
work=$(mktemp -d)
trap 'rm -rf "$work"' EXIT

"$here/../words.py"
"$here/install.sh" "$work/prefix" > "$work/log" || { cat "$work/log" >&2; exit 2; }
undefined=$(nm -u "$work/prefix/lib/liboof_c.a" | awk '$1 == "U" { print $2 }' | sort -u | tr '\n' ' ')
[ "$undefined" = "memset " ] || { echo "hosts/c: the library needs: $undefined" >&2; exit 1; }

thousands() { # 27317 as 27,317
    echo "$1" | sed -e :again -e 's/^\([0-9]\{1,\}\)\([0-9]\{3\}\)/\1,\2/' -e 't again'
}
must_say() { # what is measured, in README.md's words
    grep -qF "$1" "$here/README.md" || { echo "hosts/c: README.md doesn't say what is measured: $1" >&2; exit 1; }
}
size "$work/prefix/lib/liboof_c.a" > "$work/sizes"
text=$(awk 'NR > 1 { sum += $1 } END { print sum }' "$work/sizes")
data=$(awk 'NR > 1 { sum += $2 + $3 } END { print sum }' "$work/sizes")
[ "$data" = 0 ] || { echo "hosts/c: the library has $data bytes of data and bss" >&2; exit 1; }

if command -v pkg-config > /dev/null; then
    export PKG_CONFIG_PATH="$work/prefix/lib/pkgconfig"
    flags=$(pkg-config --cflags oof) libs=$(pkg-config --libs oof)
else
    flags=-I$work/prefix/include libs="-L$work/prefix/lib -loof_c"
fi
build() { # NAME, then options
    name=$1
    shift
    # shellcheck disable=SC2086
    "${CC:-cc}" -std=c11 -Wall -Wextra -Werror -O2 $flags "$@" -o "$work/$name" "$work/$name.c" $libs
}
cp "$here/test.c" "$here/replay.c" "$here/example.c" "$here/touch.c" "$here/preview.c" "$here/stack.c" "$work"
cd "$work"
build test
./test
build replay
./replay < "$here/replay.stdin" > stdout
diff "$here/replay.stdout" stdout > differences || { head -n 20 differences; exit 1; }
./replay preview < "$here/replay.stdin" > previews
diff "$here/replay.stdout" previews > differences || { head -n 20 differences; exit 1; }
# what an opening answered is the first line, or follows the last line of the opening before
awk '!inside { inside = 1; if ($1 == "refused") refused++; else runs++ }
    $1 == "counts" { calls++ }
    $1 == "touch" { inside = 0 }
    END { printf "hosts/c: %d stored runs, %d refused openings, %d calls", runs, refused, calls
          print ", as the Rust or the second implementation answered or document 01 refuses, and so as previews" }' stdout
build stack -D_POSIX_C_SOURCE=200809L -pthread
./stack > stdout || { cat stdout; exit 1; }
cat stdout
echo "hosts/c: bytes of text and constants: $text; of data and bss: $data"
must_say "| $(thousands "$text") bytes of text and constants"
open=$(sed -n 's/.*: open \([0-9]*\), .*/\1/p' stdout)
reply=$(sed -n 's/.*, both \([^;]*\);.*/\1/p' stdout | grep -o '[0-9]\{1,\}' | sort -n | tail -n 1)
preview_open=$(sed -n 's/.*; preview open \([0-9]*\), .*/\1/p' stdout)
preview_reply=$(sed -n 's/.*, preview both \([^;]*\);.*/\1/p' stdout | grep -o '[0-9]\{1,\}' | sort -n | tail -n 1)
reach=$(sed -n 's/.*; reach \([0-9]*\);.*/\1/p' stdout)
drawing=$(sed -n 's/.*; drawing order \([0-9]*\);.*/\1/p' stdout)
touch=$(sed -n 's/.*; touch \([0-9]*\);.*/\1/p' stdout)
pixels=$(sed -n 's/.*; pixels \([0-9]*\);.*/\1/p' stdout)
first=$(sed -n 's/.*; first bad word //p' stdout)
case $("${CC:-cc}" -dumpversion) in
12 | 12.*) must_say "| $(thousands "$open") bytes for \`oof_open\`, $(thousands "$reply") for a reply, $(thousands "$preview_open") for \`oof_preview_open\`, $(thousands "$preview_reply") for a preview's reply, $(thousands "$reach") for \`oof_reach\`, $(thousands "$drawing") for \`oof_drawing_order\`, $(thousands "$touch") for \`oof_touch\`, $(thousands "$pixels") for \`oof_pixels\`, $(thousands "$first") for \`oof_first_bad_word\`" ;;
esac
for example in example touch preview; do
    build "$example"
    "./$example" > stdout
    diff "$here/$example.stdout" stdout
done
# README shows the maps
{ head -n 13 "$here/touch.stdout"; head -n 11 "$here/preview.stdout"; } | while IFS= read -r line; do must_say "    $line"; done
echo "hosts/c: the examples' output is as it must be"
