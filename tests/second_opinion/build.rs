//! Links the archive named by SN_ARCHIVE, a full path.
fn main() {
    let archive = std::env::var("SN_ARCHIVE").expect("SN_ARCHIVE names no archive");
    println!("cargo:rerun-if-env-changed=SN_ARCHIVE");
    println!("cargo:rerun-if-changed={archive}");
    println!("cargo:rustc-link-arg={archive}");
}
