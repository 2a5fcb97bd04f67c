//! Tells the linker where the other implementation's library lies. Only the
//! feature `compare` needs it; everything else builds without it.

fn main() {
    println!("cargo:rerun-if-changed=build.rs");
    println!("cargo:rerun-if-env-changed=LANE_LIB_DIR");
    if std::env::var_os("CARGO_FEATURE_COMPARE").is_none() {
        return;
    }
    let Ok(folder) = std::env::var("LANE_LIB_DIR") else {
        eprintln!("set LANE_LIB_DIR to the folder that has libhost.a");
        std::process::exit(1);
    };
    println!("cargo:rerun-if-changed={folder}/libhost.a");
    // The library itself is named at its declarations, in src/bin/compare.rs.
    println!("cargo:rustc-link-search=native={folder}");
}
