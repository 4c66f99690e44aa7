//! Where libcxlplan is: in the folder that CXLPLAN_LIB_DIR names, or below the prefix that this crate was installed under.
fn main() {
    println!("cargo:rerun-if-env-changed=CXLPLAN_LIB_DIR");
    // of PREFIX/share/cxlplan/rust the library is in PREFIX/lib, or in a folder there for the processor, as Debian has it
    let installed = concat!(env!("CARGO_MANIFEST_DIR"), "/../../../lib");
    let processor = std::env::var("CARGO_CFG_TARGET_ARCH").unwrap_or_default();
    let of_debian = format!("{installed}/{processor}-linux-gnu");
    let folders = match std::env::var("CXLPLAN_LIB_DIR") {
        Ok(named) => vec![named],
        Err(_) => vec![of_debian, installed.to_string()],
    };
    let has_library = |it: &&String| std::path::Path::new(it).join("libcxlplan.a").exists();
    if let Some(folder) = folders.iter().find(has_library) {
        println!("cargo:rustc-link-search=native={folder}");
    }
    println!("cargo:rustc-link-lib=static=cxlplan");
}
