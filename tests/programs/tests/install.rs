//! The tool is installed by one command and runs from any folder.

use std::path::Path;
use std::process::Command;

#[test]
fn one_command_installs_it() {
    let root = std::env::temp_dir().join(format!("mqasm-install-{}", std::process::id()));
    let found = Command::new(env!("CARGO"))
        .args([
            "install",
            "--offline",
            "--locked",
            "--path",
            "tests/programs",
        ])
        .args(["--root".as_ref(), root.as_os_str()])
        .current_dir(Path::new(env!("CARGO_MANIFEST_DIR")).join("../.."))
        .output()
        .unwrap();
    let message = String::from_utf8_lossy(&found.stderr).into_owned();
    let version = Command::new(root.join("bin/mqasm"))
        .arg("--version")
        .current_dir(std::env::temp_dir())
        .output();
    let _ = std::fs::remove_dir_all(&root);
    assert!(found.status.success(), "{message}");
    let line = format!("mqasm {}\n", programs::version());
    assert_eq!(String::from_utf8_lossy(&version.unwrap().stdout), line);
}
