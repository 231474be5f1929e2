//! The example in C compiles without a warning and prints what it should, as bindings/c/run sees it.
use std::io::{ErrorKind, Write};
use std::path::Path;
use std::process::Command;

#[test]
fn the_example_in_c() {
    let folder = Path::new(env!("CARGO_MANIFEST_DIR")).join("../c");
    let program = Path::new(env!("CARGO_TARGET_TMPDIR")).join("c_example");
    let compiler = std::env::var_os("CC").unwrap_or("cc".into());
    // NDEBUG: the checks of the example don't go by assert
    let compiled = Command::new(&compiler)
        .args(["-std=c11", "-Wall", "-Wextra", "-Werror", "-DNDEBUG", "-I"])
        .args([&folder, &folder.join("example.c"), Path::new(env!("BASINPANTRY_ARCHIVE"))])
        .arg("-o")
        .arg(&program)
        .output();
    let compiled = match compiled {
        Err(why) if why.kind() == ErrorKind::NotFound => {
            // past the harness, which keeps what a passing test prints
            let _ = writeln!(std::io::stderr(), "skipped: there is no C compiler {}", compiler.to_string_lossy());
            return;
        }
        compiled => compiled.expect("the compiler runs"),
    };
    assert!(compiled.status.success(), "{}", String::from_utf8_lossy(&compiled.stderr));
    let run = |file: &Path| Command::new(&program).arg(file).output().expect("the example runs");

    let ran = run(&folder.join("../../examples/cases/first.case"));
    assert!(ran.status.success(), "{}", String::from_utf8_lossy(&ran.stderr));
    let expected = std::fs::read_to_string(folder.join("example.out")).expect("example.out");
    assert_eq!(String::from_utf8_lossy(&ran.stdout), expected);

    // a file that can't be opened, and one that is no such case
    let missing = run(&folder.join("no such file"));
    assert_eq!((missing.status.code(), missing.stdout.len()), (Some(2), 0));
    assert_eq!(run(&folder.join("example.out")).status.code(), Some(1));
}

/// It calls every function of the header.
#[test]
fn every_function_is_called() {
    let text = |name: &str| std::fs::read_to_string(Path::new(env!("CARGO_MANIFEST_DIR")).join("../c").join(name)).expect(name);
    let (header, example) = (text("basinpantry.h"), text("example.c"));
    let functions: Vec<&str> =
        header.split(" basinpantry_").skip(1).filter_map(|rest| rest.split_once('(')).map(|(name, _)| name).collect();
    let functions: Vec<&str> = functions.into_iter().filter(|name| name.chars().all(|c| c == '_' || c.is_ascii_lowercase())).collect();
    assert!(functions.len() >= 27, "{functions:?}");
    for name in functions {
        assert!(example.contains(&format!("basinpantry_{name}(")), "{name}");
    }
}
