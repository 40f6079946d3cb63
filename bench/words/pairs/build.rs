//! Links the proved static library and the kit's heap, whose folders the environment names.

fn main() {
    for name in ["WORD_POOL_LIB", "RATTLE_C"] {
        println!("cargo:rerun-if-env-changed={name}");
        let Ok(folder) = std::env::var(name) else {
            panic!("{name} is not set: `bench/words/run` sets it");
        };
        println!("cargo:rustc-link-search=native={folder}");
    }
    println!("cargo:rustc-link-lib=static=words_c");
    println!("cargo:rustc-link-lib=static=libc_c");
}
