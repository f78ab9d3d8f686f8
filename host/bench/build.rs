//! Links the proved archives, whose folders `host/bench/run` gives.

fn main() {
    println!("cargo:rerun-if-env-changed=SINKERPOST_ARCHIVES");
    let folders = std::env::var("SINKERPOST_ARCHIVES").expect(
        "SINKERPOST_ARCHIVES: the folders of the proved archives; `sh host/bench/run` sets it",
    );
    for (folder, name) in folders.split(':').zip(["sinkerpost", "group_face"]) {
        println!("cargo:rerun-if-changed={folder}/lib{name}.a");
        println!("cargo:rustc-link-search=native={folder}");
        println!("cargo:rustc-link-lib=static={name}");
    }
}
