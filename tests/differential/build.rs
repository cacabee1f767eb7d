//! Links `libplugin.a`, the archive of `./build plugin`.

include!("link.rs");

/// Links the product's library.
fn main() {
    link("../../target/staticlib", "plugin");
}
