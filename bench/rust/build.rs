//! Compiles the baseline in C.
use std::env;
use std::path::{Path, PathBuf};
use std::process::Command;

const FLAGS: [&str; 6] = ["-std=gnu11", "-O3", "-Wall", "-Wextra", "-Wconversion", "-Werror"];
const SANITIZE: [&str; 3] = ["-fsanitize=address,undefined", "-fno-sanitize-recover=all", "-g"];

fn main() {
    let folder = PathBuf::from(env::var("OUT_DIR").expect("OUT_DIR"));
    for name in ["BENCH_CC", "BENCH_SANITIZE"] {
        println!("cargo:rerun-if-env-changed={name}");
    }
    println!("cargo:rerun-if-changed=../c");
    compile_c(&folder);
}

/// The C compiler, clang unless another is named.
fn compiler() -> String {
    env::var("BENCH_CC").unwrap_or_else(|_| "clang".into())
}

/// The baseline in C twice: with labels as values, and with one switch, whose calls have names of their own.
fn compile_c(folder: &Path) {
    let labels = object(folder, "kernel_baseline.o", &[]);
    let renamed: Vec<String> =
        ["check", "size", "build", "event", "run"].iter().map(|call| format!("-Dc_{call}=switch_{call}")).collect();
    let mut form = vec!["-DSWITCH_FORM"];
    form.extend(renamed.iter().map(String::as_str));
    let switch = object(folder, "kernel_baseline_switch.o", &form);
    run(Command::new("ar").arg("crs").arg(folder.join("libkernel_baseline.a")).arg(labels).arg(switch));
    println!("cargo:rustc-link-search=native={}", folder.display());
    println!("cargo:rustc-link-lib=static=kernel_baseline");
}

fn object(folder: &Path, name: &str, more: &[&str]) -> PathBuf {
    let object = folder.join(name);
    let mut compile = Command::new(compiler());
    compile.args(FLAGS).args(more);
    if env::var("BENCH_SANITIZE").is_ok() {
        compile.args(SANITIZE);
        println!("cargo:rustc-link-arg={}", SANITIZE[0]);
    }
    compile.args(["-c", "../c/kernel_baseline.c", "-o"]).arg(&object);
    run(&mut compile);
    object
}

fn run(command: &mut Command) {
    let status = command.status().expect("a tool that starts");
    assert!(status.success(), "{command:?} failed");
}
