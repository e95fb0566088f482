//! Links the program, and nothing else of this package, with the archives of proved
//! calls: the library's tests bring calls of their own.

use std::path::Path;

fn main() {
    let archives = Path::new(env!("CARGO_MANIFEST_DIR")).join("../target/staticlib");
    for name in ["libprobe.a", "libhost.a", "libchecker.a"] {
        let archive = archives.join(name);
        println!("cargo:rerun-if-changed={}", archive.display());
        println!("cargo:rustc-link-arg-bins={}", archive.display());
    }
}
