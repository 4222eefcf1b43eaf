//! Compiles the benchmark's few lines of C against LittleCMS, where its header and library are found.
//! Nothing else needs them: without them the benchmark leaves that table out.

use std::path::Path;
use std::process::{Command, Stdio};

/// Whether a command is there and succeeds, in silence.
fn succeeds(command: &mut Command) -> bool {
    let quiet = command.stdout(Stdio::null()).stderr(Stdio::null());
    quiet.status().is_ok_and(|status| status.success())
}

/// What `pkg-config` says of LittleCMS; none where it does not know.
fn flags(which: &str) -> Option<Vec<String>> {
    let output = Command::new("pkg-config")
        .args([which, "lcms2"])
        .output()
        .ok()
        .filter(|output| output.status.success())?;
    let text = String::from_utf8(output.stdout).ok()?;
    Some(text.split_whitespace().map(str::to_string).collect())
}

fn main() {
    println!("cargo:rerun-if-changed=build.rs");
    println!("cargo:rerun-if-changed=lcms/lcms.c");
    println!("cargo:rustc-check-cfg=cfg(lcms2)");
    let made = std::env::var("OUT_DIR").expect("cargo gives a folder for what is made");
    let object = Path::new(&made).join("lcms.o");
    let libraries = flags("--libs").unwrap_or_else(|| vec!["-llcms2".to_string()]);
    let compiled = succeeds(
        Command::new("cc")
            .args(["-O2", "-fPIC", "-c", "lcms/lcms.c", "-o"])
            .arg(&object)
            .args(flags("--cflags").unwrap_or_default()),
    );
    let linked = succeeds(
        Command::new("cc")
            .args(["-shared", "-o"])
            .arg(Path::new(&made).join("probe"))
            .arg(&object)
            .args(&libraries),
    );
    if compiled && linked {
        println!("cargo:rustc-cfg=lcms2");
        println!("cargo:rustc-link-arg-bin=bench={}", object.display());
        for library in libraries {
            println!("cargo:rustc-link-arg-bin=bench={library}");
        }
    }
}
