//! Links the static libraries of crates/lp_checks and crates/lp_c, the rows of the latter, and the C code for memory that they use.

fn main() {
    for name in ["LP_CHECKS_ROWS", "LP_CHECKS_LIBRARY", "LP_C_LIBRARY", "LP_CHECKS_HEAP"] {
        let path = std::env::var(name).expect("checks/differential.sh sets the libraries' paths");
        println!("cargo:rerun-if-env-changed={name}");
        println!("cargo:rerun-if-changed={path}");
        println!("cargo:rustc-link-arg-bins={path}");
    }
}
