#!/bin/sh
# Prints the folder of taffy 0.15.1's published Rust files (the `src` with compute/oof.rs), or nothing if there is none:
# TAFFY_SRC if it is set, else shared/docs/src/src beside the repository.
here=$(cd "$(dirname "$0")" && pwd)
folder=${TAFFY_SRC:-$here/../../../shared/docs/src/src}
[ ! -f "$folder/compute/oof.rs" ] || (cd "$folder" && pwd)
