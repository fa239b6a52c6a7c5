# Sourced by the scripts that run the published Rust, with `here` their folder and `part` their name. Sets root, CARGO_TARGET_DIR and
# TAFFY_SRC; where the Rust's files are not to be found, says so and ends the script with 0.
root=$here
while [ ! -f "$root/crates.txt" ]; do root=$(dirname "$root"); done
export CARGO_TARGET_DIR="$root/target/cargo"
TAFFY_SRC=$("$root/diff/oracle/find-taffy.sh")
export TAFFY_SRC
if [ -z "$TAFFY_SRC" ]; then
    echo "$part: not run, the published Rust files are not here (set TAFFY_SRC to the folder src of taffy 0.15.1)"
    exit 0
fi
