//! The library is linked by way of tests/brute. Without its folder this test has nothing to test.

fn main() {
    println!("cargo:rerun-if-env-changed=ZIMORGAL_LIB_DIR");
    println!("cargo:rerun-if-changed=build.rs");
    assert!(
        std::env::var_os("ZIMORGAL_LIB_DIR").is_some(),
        "set ZIMORGAL_LIB_DIR to the folder of libzimorgal.a"
    );
}
