//! Links the archive that `./archive` of the repository writes to its target/staticlib; TICKBUTTON_ARCHIVE names another folder.
//! Says so where the archive is missing, or was not written for the machine that is built for.

use std::env;
use std::fs;
use std::path::Path;

/// The machine whose code an archive holds, by the number that the header of its first object file has for it.
fn machine_of(archive: &[u8]) -> &'static str {
    let header = archive.windows(20).find(|bytes| bytes.starts_with(b"\x7fELF"));
    match header.map(|bytes| u16::from_le_bytes([bytes[18], bytes[19]])) {
        Some(62) => "x86_64",
        Some(183) => "aarch64",
        _ => "another machine",
    }
}

fn main() {
    let home = env::var("CARGO_MANIFEST_DIR").unwrap_or_default();
    let folder = env::var("TICKBUTTON_ARCHIVE").unwrap_or(format!("{home}/../../target/staticlib"));
    let archive = Path::new(&folder).join("libexports.a");
    let target = env::var("CARGO_CFG_TARGET_ARCH").unwrap_or_default();
    let path = archive.display();
    match fs::read(&archive) {
        Err(_) => println!("cargo:warning={path} is missing: ./archive writes it"),
        Ok(bytes) if machine_of(&bytes) != target => {
            println!("cargo:warning={path} is for {}, not for {target}", machine_of(&bytes));
        }
        Ok(_) => {}
    }
    println!("cargo:rustc-link-search=native={folder}");
    println!("cargo:rustc-link-lib=static=exports");
    println!("cargo:rerun-if-changed={path}");
    println!("cargo:rerun-if-env-changed=TICKBUTTON_ARCHIVE");
}
