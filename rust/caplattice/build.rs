//! Links the proved static library: from the folder that CAPLATTICE_LIB names, or from target/staticlib of the
//! repository. There `rust/library` sees that it is made from the sources as they are; making it proves it, and takes its time.
use std::env;
use std::path::{Path, PathBuf};
use std::process::{exit, Command};

const ARCHIVE: &str = "libcaplattice.a";

fn stop(reason: &str) -> ! {
    eprintln!("caplattice: {reason}");
    exit(1)
}

fn made_from_the_sources(repository: &Path) {
    println!("cargo:rerun-if-changed={}", repository.join("crates").display());
    println!("cargo:rerun-if-changed={}", repository.join("crates.txt").display());
    match Command::new(repository.join("rust/library")).status() {
        Ok(status) if status.success() => {}
        _ => stop("the proved library could not be made. Run `rust/library` in the repository to see why."),
    }
}

fn main() {
    println!("cargo:rerun-if-env-changed=CAPLATTICE_LIB");
    let folder = match env::var_os("CAPLATTICE_LIB") {
        Some(named) => {
            let folder = PathBuf::from(named);
            if !folder.join(ARCHIVE).is_file() {
                stop(&format!(
                    "CAPLATTICE_LIB names {}, which holds no {ARCHIVE}.",
                    folder.display()
                ));
            }
            folder
        }
        None => {
            let here = PathBuf::from(env::var_os("CARGO_MANIFEST_DIR").unwrap());
            let repository = here.join("../..");
            let folder = repository.join("target/staticlib");
            made_from_the_sources(&repository);
            folder
        }
    };
    // cargo hands the path on to a linker that runs in another folder.
    let folder = folder.canonicalize().unwrap_or(folder);
    println!("cargo:rerun-if-changed={}", folder.join(ARCHIVE).display());
    println!("cargo:rustc-link-search=native={}", folder.display());
    println!("cargo:rustc-link-lib=static=caplattice");
}
