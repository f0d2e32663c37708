//! Links the proved host: BORESACU_METER is the folder of `libmeter.a`, which `oracle/bench` makes.

fn main() {
    println!("cargo:rerun-if-env-changed=BORESACU_METER");
    let folder =
        std::env::var("BORESACU_METER").expect("BORESACU_METER names the folder of libmeter.a: run oracle/bench");
    println!("cargo:rerun-if-changed={folder}/libmeter.a");
    println!("cargo:rustc-link-search=native={folder}");
    println!("cargo:rustc-link-lib=static=meter");
}
