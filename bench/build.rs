//! Links the archive that PARLOUR_LIB names, so that `bench` can measure `parlour_run` too.

fn main() {
    println!("cargo:rustc-check-cfg=cfg(parlour_lib)");
    println!("cargo:rerun-if-env-changed=PARLOUR_LIB");
    let Some(path) = std::env::var("PARLOUR_LIB").ok().filter(|p| !p.is_empty()) else {
        return;
    };
    println!("cargo:rerun-if-changed={path}");
    println!("cargo:rustc-cfg=parlour_lib");
    println!("cargo:rustc-link-arg-bin=bench={path}");
}
