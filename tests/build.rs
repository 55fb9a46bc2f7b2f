//! Links the library under test into one object in which only its C exports can be seen, so
//! that nothing else in it, a panic handler for instance, meets the tests' own code.

use std::env;
use std::path::{Path, PathBuf};
use std::process::Command;

const EXPORTS: [&str; 18] = [
    "kernel_start",
    "kernel_sound",
    "kernel_enter",
    "kernel_exit",
    "kernel_wait",
    "kernel_notify",
    "kernel_broadcast",
    "kernel_naked",
    "kernel_abort",
    "kernel_set_abortable",
    "kernel_reenter",
    "kernel_requeue",
    "kernel_set_priority",
    "kernel_tick",
    "kernel_list",
    "kernel_due",
    "kernel_nearest",
    "kernel_sheet",
];

fn main() {
    println!("cargo:rerun-if-changed=build.rs");
    println!("cargo:rerun-if-env-changed=KERNEL_LIB_DIR");
    let library = library();
    println!("cargo:rerun-if-changed={}", library.display());
    assert!(library.exists(), "no library at {}", library.display());
    let out = folder("OUT_DIR");
    isolate(&library, &out.join("kernel.o"));
    println!("cargo:rustc-link-arg={}", out.join("kernel.o").display());
}

fn folder(name: &str) -> PathBuf {
    PathBuf::from(env::var_os(name).expect("cargo names the folder"))
}

fn library() -> PathBuf {
    let given = env::var_os("KERNEL_LIB_DIR").unwrap_or_else(|| "../target/staticlib".into());
    folder("CARGO_MANIFEST_DIR").join(given).join("libkernel.a")
}

fn isolate(library: &Path, object: &Path) {
    let mut link = Command::new("ld");
    link.args(["-r", "--force-group-allocation", "-o"])
        .arg(object);
    let mut hide = Command::new("objcopy");
    for name in EXPORTS {
        link.arg(format!("--require-defined={name}"));
        hide.arg(format!("--keep-global-symbol={name}"));
    }
    run(link.arg(library));
    run(hide.arg(object));
}

fn run(command: &mut Command) {
    let status = command.status().expect("the program is there");
    assert!(status.success(), "{command:?} failed");
}
