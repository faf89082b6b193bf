//! Where libhoma is: the folder that HOMA_LIB_DIR names, or what pkg-config says. It is linked as an archive unless HOMA_SHARED is set.
use std::{
    env,
    process::{Command, exit},
};

fn main() {
    for name in ["HOMA_LIB_DIR", "HOMA_SHARED", "PKG_CONFIG_PATH"] {
        println!("cargo:rerun-if-env-changed={name}");
    }
    let folder = env::var("HOMA_LIB_DIR").unwrap_or_else(|_| {
        let said = Command::new("pkg-config").args(["--variable=libdir", "homa"]).output();
        match said {
            Ok(it) if it.status.success() => String::from_utf8_lossy(&it.stdout).trim().to_string(),
            _ => {
                eprintln!("libhoma isn't found: set HOMA_LIB_DIR, or PKG_CONFIG_PATH to the folder of homa.pc");
                exit(1)
            }
        }
    });
    let kind = if env::var_os("HOMA_SHARED").is_some() { "dylib" } else { "static" };
    println!("cargo:rustc-link-search=native={folder}");
    println!("cargo:rustc-link-lib={kind}=homa");
}
