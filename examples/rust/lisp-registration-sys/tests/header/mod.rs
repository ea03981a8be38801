//! Asking a C compiler about the header.

use std::path::Path;
use std::process::Command;

/// Whether the header makes each of these true, as a C compiler finds it, where there is one. The name is that of a file.
pub fn agrees(name: &str, claims: &[String]) {
    let source = Path::new(env!("CARGO_TARGET_TMPDIR")).join(name);
    let lines =
        claims.iter().map(|claim| format!("_Static_assert({claim}, \"\");\n")).collect::<String>();
    std::fs::write(&source, format!("#include <lisp_registration.h>\n{lines}")).unwrap();
    let include = concat!(env!("CARGO_MANIFEST_DIR"), "/../../../include");
    match Command::new("cc")
        .args(["-std=c11", "-fsyntax-only", "-I", include])
        .arg(&source)
        .status()
    {
        Ok(status) => assert!(status.success()),
        Err(_) => println!("no cc: the header was not read"),
    }
}
