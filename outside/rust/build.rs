//! With the feature `portal`, tells the linker where libportal.a is.

fn main() {
    println!("cargo:rerun-if-env-changed=PORTAL_LIB_DIR");
    if std::env::var_os("CARGO_FEATURE_PORTAL").is_none() {
        return;
    }
    match std::env::var("PORTAL_LIB_DIR") {
        Ok(folder) => {
            println!("cargo:rustc-link-search=native={folder}");
            println!("cargo:rustc-link-lib=static=portal");
            println!("cargo:rerun-if-changed={folder}/libportal.a");
        }
        Err(_) => panic!("feature `portal`: set PORTAL_LIB_DIR to the folder of libportal.a"),
    }
}
