//! Links libquotafs.a, from the folder that QUOTAFS_LIB names.
use std::env;
use std::path::Path;

fn main() {
    println!("cargo::rerun-if-env-changed=QUOTAFS_LIB");
    match env::var("QUOTAFS_LIB") {
        Ok(folder) => link(Path::new(&folder)),
        Err(_) => println!(
            "cargo::error=QUOTAFS_LIB is to name the folder of libquotafs.a, as `tools/library FOLDER` fills it"
        ),
    }
}

/// Links the archive that is to stand in the folder.
fn link(folder: &Path) {
    let archive = folder.join("libquotafs.a");
    if !archive.is_file() {
        println!("cargo::error={} is not there: `tools/library FOLDER` makes it", archive.display());
        return;
    }
    println!("cargo::rerun-if-changed={}", archive.display());
    println!("cargo::rustc-link-search=native={}", folder.display());
    println!("cargo::rustc-link-lib=static=quotafs");
}
