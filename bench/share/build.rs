fn main() {
    // where bench/share/run builds the crate share_speed
    let dir = std::env::var("RATTLE_STATICLIB").expect("RATTLE_STATICLIB: the folder of libshare_speed.a");
    println!("cargo:rustc-link-search=native={dir}");
    println!("cargo:rustc-link-lib=static=share_speed");
    println!("cargo:rerun-if-changed={dir}/libshare_speed.a");
    println!("cargo:rerun-if-env-changed=RATTLE_STATICLIB");
}
