//! Links `libpace.a`, the archive of `./build pace`.

include!("../tests/differential/link.rs");

/// Links the library that judges once and steps many times.
fn main() {
    link("../target/staticlib", "pace");
}
