//! Copies the published taffy files byte for byte to OUT_DIR/taffy under their module paths, and puts the shim files beside
//! them. They are read from TAFFY_SRC; if it isn't set, from `shared/docs/src/src` beside the repository.
use std::path::{Path, PathBuf};
use std::{env, fs};

const FILES: [&str; 15] = [
    "geometry.rs",
    "style/alignment.rs",
    "style/available_space.rs",
    "style/compact_length.rs",
    "style/mod.rs",
    "tree/layout.rs",
    "tree/node.rs",
    "tree/traits.rs",
    "util/sys.rs",
    "util/math.rs",
    "util/resolve.rs",
    "compute/oof.rs",
    "compute/common/alignment.rs",
    "compute/common/scrollable_overflow.rs",
    "compute/common/sizing_keyword.rs",
];
/// In the folder `shim`, and where it goes
const SHIMS: [(&str, &str); 3] =
    [("root.rs", "root.rs"), ("style_helpers.rs", "style_helpers.rs"), ("dimension.rs", "style/dimension.rs")];

fn main() {
    println!("cargo:rerun-if-env-changed=TAFFY_SRC");
    let here = PathBuf::from(env::var_os("CARGO_MANIFEST_DIR").unwrap());
    let source = env::var_os("TAFFY_SRC").map_or_else(|| here.join("../../../shared/docs/src/src"), PathBuf::from);
    if !source.join("compute/oof.rs").is_file() {
        panic!("set TAFFY_SRC to the folder `src` of taffy 0.15.1; there is no compute/oof.rs in {}", source.display());
    }
    let out = PathBuf::from(env::var_os("OUT_DIR").unwrap()).join("taffy");
    for file in FILES {
        put(&source.join(file), &out.join(file));
    }
    for (from, to) in SHIMS {
        put(&here.join("shim").join(from), &out.join(to));
    }
}

fn put(from: &Path, to: &Path) {
    println!("cargo:rerun-if-changed={}", from.display());
    fs::create_dir_all(to.parent().unwrap()).unwrap();
    let bytes = fs::read(from).unwrap_or_else(|e| panic!("{}: {e}", from.display()));
    fs::write(to, bytes).unwrap();
}
