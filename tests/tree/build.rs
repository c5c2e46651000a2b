fn main() {
    let folder = std::env::var("STATICLIB").expect("STATICLIB names the folder of libhost.a and libtest_trees.a");
    println!("cargo:rustc-link-search=native={folder}");
    println!("cargo:rerun-if-env-changed=STATICLIB");
    for library in ["host", "test_trees"] {
        println!("cargo:rustc-link-lib=static={library}");
        println!("cargo:rerun-if-changed={folder}/lib{library}.a");
    }
}
