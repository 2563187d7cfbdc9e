//! Compiles what rpcgen makes of `xdr/flexfiles.x`, with libtirpc. Where a tool or the library is missing, the build goes on without them, and the benchmark
//! says so.

use std::env;
use std::fs;
use std::io::Write;
use std::path::{Path, PathBuf};
use std::process::{Command, Stdio};

const HEADER: &str = "tirpc/netconfig.h";

fn main() {
    println!("cargo:rustc-check-cfg=cfg(rpcgen)");
    println!("cargo:rerun-if-changed=build.rs");
    println!("cargo:rerun-if-changed=xdr");
    match generate() {
        Ok(()) => println!("cargo:rustc-cfg=rpcgen"),
        Err(missing) => {
            println!("cargo:rustc-env=RPCGEN_MISSING={missing}");
            // A file that is never there: the next build tries again.
            println!("cargo:rerun-if-changed=xdr/missing");
        }
    }
}

/// All files are written to cargo's own folder.
fn generate() -> Result<(), String> {
    let out = PathBuf::from(env::var("OUT_DIR").map_err(|error| error.to_string())?);
    let headers = header_folder()?;
    fs::copy("xdr/flexfiles.x", out.join("flexfiles.x")).map_err(|error| format!("xdr/flexfiles.x: {error}"))?;
    fs::copy("xdr/calls.c", out.join("calls.c")).map_err(|error| format!("xdr/calls.c: {error}"))?;
    for (kind, file) in [("-h", "flexfiles.h"), ("-c", "flexfiles_xdr.c")] {
        // rpcgen does not write over a file.
        let _ = fs::remove_file(out.join(file));
        run(&out, "rpcgen", &[kind, "-o", file, "flexfiles.x"], "rpcgen of the package rpcsvc-proto")?;
    }
    let include = format!("-I{}", headers.display());
    for file in ["flexfiles_xdr", "calls"] {
        let (source, object) = (format!("{file}.c"), format!("{file}.o"));
        run(&out, "gcc", &["-O2", "-w", &include, "-c", &source, "-o", &object], "gcc")?;
    }
    run(&out, "ar", &["crs", "libflexfiles.a", "flexfiles_xdr.o", "calls.o"], "ar")?;
    println!("cargo:rustc-link-search=native={}", out.display());
    println!("cargo:rustc-link-lib=static=flexfiles");
    println!("cargo:rustc-link-lib=tirpc");
    Ok(())
}

/// The folder of libtirpc's headers, by where the compiler finds one of them.
fn header_folder() -> Result<PathBuf, String> {
    let missing = || "libtirpc of the package libtirpc-dev".to_string();
    let mut compiler = Command::new("gcc");
    compiler.args(["-M", "-x", "c", "-"]).stdin(Stdio::piped()).stdout(Stdio::piped()).stderr(Stdio::null());
    let mut asked = compiler.spawn().map_err(|_| "gcc".to_string())?;
    let mut program = asked.stdin.take().ok_or_else(missing)?;
    writeln!(program, "#include <{HEADER}>").map_err(|_| missing())?;
    drop(program);
    let answer = asked.wait_with_output().map_err(|_| missing())?;
    let files = String::from_utf8_lossy(&answer.stdout).into_owned();
    let header = files.split_whitespace().find(|file| file.ends_with(HEADER));
    header.and_then(|file| Path::new(file).parent()).map(Path::to_path_buf).ok_or_else(missing)
}

fn run(folder: &Path, program: &str, words: &[&str], name: &str) -> Result<(), String> {
    match Command::new(program).args(words).current_dir(folder).output() {
        Ok(ended) if ended.status.success() => Ok(()),
        Ok(ended) => {
            Err(format!("{name}, which failed: {}", String::from_utf8_lossy(&ended.stderr).replace('\n', " ")))
        }
        Err(_) => Err(name.to_string()),
    }
}
