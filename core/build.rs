//! Links target/libgrouping.a, which tools/library makes; says so where it is missing or older than
//! what it is made of.

use std::fs;
use std::io;
use std::path::{Path, PathBuf};
use std::process;
use std::time::SystemTime;

fn main() {
    let root =
        Path::new(env!("CARGO_MANIFEST_DIR")).parent().expect("the crate stands in the repository");
    let folder = root.join("target");
    let library = folder.join("libgrouping.a");
    println!("cargo:rerun-if-changed={}", library.display());
    let Ok(made) = changed(&library) else {
        refuse(root, &format!("{} is missing", library.display()));
    };
    let sources = sources(&root.join("crates")).expect("crates/ can be read");
    for source in sources {
        // Not crates/ as a whole: rt keeps its work in crates/NAME/out.
        println!("cargo:rerun-if-changed={}", source.display());
        if changed(&source).is_ok_and(|time| time > made) {
            refuse(root, &format!("{} is older than {}", library.display(), source.display()));
        }
    }
    println!("cargo:rustc-link-search=native={}", folder.display());
    println!("cargo:rustc-link-lib=static=grouping");
}

fn refuse(root: &Path, why: &str) -> ! {
    eprintln!(
        "{why}\nrun {}/tools/library first: it proves the core and makes the library",
        root.display()
    );
    process::exit(1);
}

fn changed(path: &Path) -> io::Result<SystemTime> {
    fs::metadata(path)?.modified()
}

/// What is compiled: crates/NAME/src/*.rt.
fn sources(crates: &Path) -> io::Result<Vec<PathBuf>> {
    let mut sources = Vec::new();
    for folder in fs::read_dir(crates)? {
        let folder = folder?.path().join("src");
        if folder.is_dir() {
            for file in fs::read_dir(folder)? {
                sources.push(file?.path());
            }
        }
    }
    Ok(sources)
}
