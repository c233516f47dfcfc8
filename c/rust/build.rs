//! Finds or builds the C library, and links it.
//!
//! - If the variable `RS_LIB_DIR` is set, it names the folder of the library.
//! - Otherwise, if the variable `RS_PKG_CONFIG` is set, pkg-config names this folder.
//! - Otherwise, the script ../link builds a static library from the assembly in ../code. It needs a C compiler and
//!   binutils.
//!
//! In the first two cases, the static library is linked, or the shared object if the variable `RS_SHARED` is set.
use std::env;
use std::path::{Path, PathBuf};
use std::process::Command;

const NAME: &str = "reed_solomon_simd";

fn main() {
    println!("cargo:rustc-check-cfg=cfg(rs_shared)");
    check_target();
    let installed = match (variable("RS_LIB_DIR"), variable("RS_PKG_CONFIG")) {
        (Some(folder), _) => Some(PathBuf::from(folder)),
        (None, Some(_)) => Some(installed_folder()),
        (None, None) => None,
    };
    let Some(folder) = installed else {
        println!("cargo:rustc-link-search=native={}", built_folder().display());
        println!("cargo:rustc-link-lib=static={NAME}");
        return;
    };
    println!("cargo:rustc-link-search=native={}", folder.display());
    if variable("RS_SHARED").is_some() {
        println!("cargo:rustc-cfg=rs_shared");
        println!("cargo:rustc-link-lib=dylib={NAME}");
        println!("cargo:rerun-if-changed={}", folder.join(format!("lib{NAME}.so")).display());
    } else {
        println!("cargo:rustc-link-lib=static={NAME}");
        println!("cargo:rerun-if-changed={}", folder.join(format!("lib{NAME}.a")).display());
    }
}

/// Returns a variable of the environment, if it is set and not empty. A change of it runs this script again.
fn variable(name: &str) -> Option<String> {
    println!("cargo:rerun-if-env-changed={name}");
    env::var(name).ok().filter(|value| !value.is_empty())
}

/// Returns a variable that cargo sets for build scripts.
fn of_cargo(name: &str) -> String {
    env::var(name).unwrap_or_default()
}

/// Stops with a message that says what to do.
fn stop(why: &str) -> ! {
    eprintln!("reed-solomon-simd: {why}");
    std::process::exit(1)
}

fn check_target() {
    let is_known =
        of_cargo("CARGO_CFG_TARGET_POINTER_WIDTH") == "64" && of_cargo("CARGO_CFG_TARGET_ENDIAN") == "little";
    if !is_known {
        stop(&format!("the library is for little-endian targets with 64 bits, and {} is none", of_cargo("TARGET")));
    }
}

fn installed_folder() -> PathBuf {
    for name in ["PKG_CONFIG_PATH", "PKG_CONFIG_LIBDIR", "PKG_CONFIG_SYSROOT_DIR"] {
        variable(name);
    }
    let program = variable("PKG_CONFIG").unwrap_or_else(|| "pkg-config".into());
    let asked = Command::new(&program).args(["--variable=libdir", NAME]).output();
    match asked {
        Ok(asked) if asked.status.success() => PathBuf::from(String::from_utf8_lossy(&asked.stdout).trim()),
        Ok(_) => stop(&format!("`{program}` does not find {NAME}: set PKG_CONFIG_PATH to the folder of {NAME}.pc")),
        Err(error) => stop(&format!("RS_PKG_CONFIG is set, but `{program}` cannot be run: {error}")),
    }
}

/// Builds the static library in the folder that cargo gives this script, and returns this folder.
fn built_folder() -> PathBuf {
    let c = Path::new(&of_cargo("CARGO_MANIFEST_DIR")).join("..");
    let (system, processor) = (of_cargo("CARGO_CFG_TARGET_OS"), of_cargo("CARGO_CFG_TARGET_ARCH"));
    let instead =
        "Set RS_LIB_DIR to the folder of a library that was built before, or RS_PKG_CONFIG to find an installed one";
    if system != "linux" || !["x86_64", "aarch64"].contains(&processor.as_str()) {
        stop(&format!(
            "there is assembly for Linux on x86-64 and on arm64, and none for {}. {instead}",
            of_cargo("TARGET")
        ));
    }
    if let Some(missing) = [c.join("link"), c.join("code").join(&processor)].iter().find(|needed| !needed.exists()) {
        let why =
            "is missing. This crate is built inside its repository, beside the script c/link and the folder c/code";
        stop(&format!("{} {why}. {instead}", missing.display()));
    }
    for input in inputs(&c) {
        println!("cargo:rerun-if-changed={}", input.display());
    }
    let out = PathBuf::from(of_cargo("OUT_DIR"));
    let mut link = Command::new("sh");
    link.arg(c.join("link")).arg(&out).arg(&processor).envs(tools());
    match link.status() {
        Ok(status) if status.success() && out.join(format!("lib{NAME}.a")).exists() => out,
        Ok(status) => stop(&format!("c/link failed ({status}). It needs a C compiler and binutils. {instead}")),
        Err(error) => stop(&format!("sh cannot be run: {error}. {instead}")),
    }
}

/// What c/link reads: itself, the code, the C layer, and the header.
fn inputs(c: &Path) -> Vec<PathBuf> {
    let mut inputs = ["link", "code", "exports.map", "../include"].map(|name| c.join(name)).to_vec();
    let is_source = |path: &PathBuf| path.extension().is_some_and(|end| end == "c" || end == "h");
    let entries = std::fs::read_dir(c).into_iter().flatten().flatten();
    inputs.extend(entries.map(|entry| entry.path()).filter(is_source));
    inputs
}

/// The variables by which c/link finds the tools for the target. Those of the crate `cc` are honoured. When the
/// processor of the target is another one than the host's, the default is the cross compiler of the usual name.
fn tools() -> Vec<(&'static str, String)> {
    let (prefix, compiler) = default_tools();
    let compiler = for_target("CC").unwrap_or(compiler);
    let (compiler, more_flags) = without_wrapper(&compiler);
    let flags = [more_flags, for_target("CFLAGS").unwrap_or_default()].join(" ");
    let mut tools = vec![("CC", compiler), ("CFLAGS", flags.trim().to_string())];
    for (name, program) in [("AR", "ar"), ("LD", "ld"), ("OBJCOPY", "objcopy")] {
        tools.push((name, for_target(name).unwrap_or_else(|| format!("{prefix}{program}"))));
    }
    tools
}

/// Returns the variable of a tool for the target, as the crate `cc` looks for it.
fn for_target(name: &str) -> Option<String> {
    let target = of_cargo("TARGET");
    let kind = if of_cargo("HOST") == target { "HOST" } else { "TARGET" };
    let names = [
        format!("{name}_{target}"),
        format!("{name}_{}", target.replace(['-', '.'], "_")),
        format!("{kind}_{name}"),
        name.to_string(),
    ];
    names.iter().find_map(|name| variable(name))
}

/// Returns the prefix of binutils and the C compiler for the target.
fn default_tools() -> (String, String) {
    let (host, processor) = (of_cargo("HOST"), of_cargo("CARGO_CFG_TARGET_ARCH"));
    let library = of_cargo("CARGO_CFG_TARGET_ENV");
    if !host.starts_with(&processor) {
        let prefix = format!("{processor}-linux-{}-", if library.is_empty() { "gnu" } else { &library });
        let compiler = format!("{prefix}gcc");
        (prefix, compiler)
    } else if library == "musl" && !host.ends_with("musl") {
        (String::new(), "musl-gcc".into())
    } else {
        (String::new(), "cc".into())
    }
}

/// Splits a compiler into its program and its flags, and leaves out a compiler cache in front of them.
fn without_wrapper(compiler: &str) -> (String, String) {
    if Path::new(compiler).exists() {
        return (compiler.to_string(), String::new());
    }
    let mut words = compiler.split_whitespace();
    let first = words.next().unwrap_or("cc");
    let is_cache = ["ccache", "sccache", "distcc", "icecc", "cachepot", "buildcache"].contains(&first);
    let program = if is_cache { words.next().unwrap_or("cc") } else { first };
    (program.to_string(), words.collect::<Vec<_>>().join(" "))
}
