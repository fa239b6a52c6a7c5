#!/bin/sh
# Builds the Rust host, tests it and holds its examples to examples/*.stdout; then checks and documents it without the library,
# and builds one in another workspace, outside the repository, against an installed copy. Prints one line; exits with 1 at a failure.
#
#     hosts/rust/run.sh
#
# Links liboof_c.a from target/staticlib (`tools/staticlib` puts it there) or from the folder OOF_LIB.
set -eu
here=$(cd "$(dirname "$0")" && pwd)
root=$(cd "$here/../.." && pwd)
export CARGO_TARGET_DIR="$root/target/cargo"
OOF_LIB=$(cd "${OOF_LIB:-$root/target/staticlib}" 2> /dev/null && pwd) || OOF_LIB=$root/target/staticlib
export OOF_LIB
archive=$OOF_LIB/liboof_c.a
if [ ! -f "$archive" ]; then
    echo "hosts/rust: $archive is not there (tools/staticlib puts it into target/staticlib)"
    exit 1
fi
work=$(mktemp -d)
log=$work/log
trap 'rm -rf "$work"' EXIT
fail() { cat "$log"; echo "hosts/rust: $1"; exit 1; }

cd "$here"
cargo test --offline --locked --release > "$log" 2>&1 || fail "it does not build, or a test failed"
tests=$(sed -n 's/^test result: ok\. \([0-9]*\) passed.*/\1/p' "$log" | awk '{ n += $1 } END { print n }')
for example in panel incident editor costliest preview; do
    cargo run --offline --locked --release --quiet --example "$example" 2> "$log" > "$work/out" || fail "the example $example failed"
    diff "$here/examples/$example.stdout" "$work/out" > "$log" || fail "the example $example prints something else"
done

OOF_LIB=$work/none cargo check --offline --locked > "$log" 2>&1 || fail "it can't be checked without the library"
OOF_LIB=$work/none RUSTDOCFLAGS=-Dwarnings cargo doc --offline --locked --no-deps > "$log" 2>&1 || fail "it can't be documented"

mkdir -p "$work/ws/panel/src"
cp -r "$here" "$work/ws/oof"
cp "$here/examples/panel.rs" "$work/ws/panel/src/main.rs"
printf '[workspace]\nresolver = "2"\nmembers = ["panel"]\n' > "$work/ws/Cargo.toml"
printf '[package]\nname = "panel"\nversion = "0.1.0"\nedition = "2021"\n\n[dependencies]\noof = { path = "../oof" }\n' > "$work/ws/panel/Cargo.toml"
OOF_LIB=$OOF_LIB "$here/../c/install.sh" "$work/prefix" > "$log"
cd "$work/ws"
OOF_LIB=$work/prefix/lib CARGO_TARGET_DIR=$work/target cargo run --offline --quiet 2> "$log" > "$work/out" || fail "it does not build in another workspace"
diff "$here/examples/panel.stdout" "$work/out" > "$log" || fail "in another workspace the example prints something else"
echo "hosts/rust: $tests tests passed, the examples print what they should, also in another workspace"
