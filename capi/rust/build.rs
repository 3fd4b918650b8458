//! Links the archive: of the folder NEKCHHAUL_LIB, else of capi/build beside this crate, else of the installation that this crate is a
//! part of, else of one below /usr/local.
use std::path::Path;

fn main() {
    let here = env!("CARGO_MANIFEST_DIR");
    let is_in = |folder: &String| Path::new(folder).join("libnekchhaul.a").exists();
    let found = || [format!("{here}/../build"), format!("{here}/../../../lib")].into_iter().find(is_in);
    let folder = std::env::var("NEKCHHAUL_LIB").ok().or_else(found).unwrap_or_else(|| "/usr/local/lib".into());
    if !is_in(&folder) {
        println!("cargo:warning=there is no libnekchhaul.a in {folder}: run capi/build.sh, or set NEKCHHAUL_LIB");
    }
    println!("cargo:rustc-link-search=native={folder}");
    println!("cargo:rustc-link-lib=static=nekchhaul");
    println!("cargo:rerun-if-changed={folder}/libnekchhaul.a");
    println!("cargo:rerun-if-env-changed=NEKCHHAUL_LIB");
}
