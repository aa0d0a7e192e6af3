//! Links the proved library. ARACHNE_LIBS names the folder of libarachne_grants_c.a and of the kit's liblibc_c.a.
use std::path::Path;

fn main() {
    println!("cargo:rerun-if-env-changed=ARACHNE_LIBS");
    let folder = std::env::var("ARACHNE_LIBS")
        .unwrap_or_else(|_| panic!("ARACHNE_LIBS has to name the folder of libarachne_grants_c.a and liblibc_c.a"));
    println!("cargo:rustc-link-search=native={}", folder);
    for library in ["arachne_grants_c", "libc_c"] {
        let file = format!("{}/lib{}.a", folder, library);
        assert!(Path::new(&file).exists(), "there is no {}", file);
        println!("cargo:rustc-link-lib=static={}", library);
        println!("cargo:rerun-if-changed={}", file);
    }
}
