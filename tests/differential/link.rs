// Included by build scripts: links an archive of `./build` from where it is left.

/// Tells cargo where an archive is and to link again when it changes. The variable
/// `PLUGIN_ARCHIVES` names another directory, for archives that were made elsewhere.
fn link(directory: &str, name: &str) {
    println!("cargo:rerun-if-env-changed=PLUGIN_ARCHIVES");
    let directory = std::env::var_os("PLUGIN_ARCHIVES")
        .map_or_else(|| std::path::PathBuf::from(directory), std::path::PathBuf::from);
    let directory = directory.canonicalize().expect("the directory of the archive is there");
    println!("cargo:rerun-if-changed={}", directory.join(format!("lib{name}.a")).display());
    println!("cargo:rustc-link-search=native={}", directory.display());
    println!("cargo:rustc-link-lib=static={name}");
}
