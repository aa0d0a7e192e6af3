//! Links the proved library (`libarachne_exec_c.a`, with the kit's `liblibc_c.a`) from the folder that `ARACHNE_LIBS`
//! names or, by default, from the folder above the crate, where `scripts/release` puts it.
use std::path::{Path, PathBuf};

fn main() {
    println!("cargo:rerun-if-env-changed=ARACHNE_LIBS");
    if std::env::var_os("CARGO_FEATURE_MODEL").is_some() {
        return;
    }
    let above = Path::new(env!("CARGO_MANIFEST_DIR")).join("..");
    let folder = match std::env::var_os("ARACHNE_LIBS") {
        Some(folder) => PathBuf::from(folder),
        None if above.join("libarachne_exec_c.a").exists() => above,
        None => fail(
            "ARACHNE_LIBS has to name the folder of libarachne_exec_c.a and liblibc_c.a; \
             or use the feature `model`, which isn't proved",
        ),
    };
    println!("cargo:rustc-link-search=native={}", folder.display());
    for library in ["arachne_exec_c", "libc_c"] {
        let file = folder.join(format!("lib{library}.a"));
        if !file.exists() {
            fail(&format!("there is no {}", file.display()));
        }
        println!("cargo:rustc-link-lib=static={library}");
        println!("cargo:rerun-if-changed={}", file.display());
    }
}

fn fail(message: &str) -> ! {
    eprintln!("arachne: {message}");
    std::process::exit(1)
}
