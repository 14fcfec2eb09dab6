//! Each example writes the output in the `.out` file next to it.
use std::path::Path;
use std::process::{Command, Output};

/// Runs an example with arguments.
fn run(example: &str, arguments: &[&str]) -> Output {
    // cargo builds the examples before it runs the tests, in a folder next to the folder of the tests
    let test_path = std::env::current_exe().expect("a test has a path");
    let folder = test_path
        .parent()
        .and_then(Path::parent)
        .expect("the folder of the tests is in the folder of the profile");
    let output = Command::new(folder.join("examples").join(example))
        .args(arguments)
        .output()
        .expect("the example is built");
    assert!(output.status.success(), "{example} ended with {}", output.status);
    output
}

fn assert_output(example: &str) {
    let top = Path::new(env!("CARGO_MANIFEST_DIR"));
    let output = run(example, &[]);
    let expected =
        std::fs::read_to_string(top.join(format!("examples/{example}.out"))).expect("the expected output exists");
    assert_eq!(String::from_utf8_lossy(&output.stdout), expected, "{example}");
}

#[test]
fn guide() {
    assert_output("guide");
}

#[test]
fn authorizer() {
    assert_output("authorizer");
}

#[test]
fn administration() {
    assert_output("administration");
}

#[test]
fn custom_nodes() {
    assert_output("custom_nodes");
}

#[test]
fn threads() {
    assert_output("threads");
}

#[test]
fn graphviz() {
    assert_output("graphviz");
}

#[test]
fn templates() {
    assert_output("templates");
}

#[test]
fn merge() {
    assert_output("merge");
}

#[test]
fn live_store() {
    let output = run("live_store", &["1", "2000"]);
    let text = String::from_utf8_lossy(&output.stdout);
    assert!(
        text.starts_with("2000 users, 4 readers and one writer for 1 seconds\n"),
        "{text}"
    );
    assert!(
        text.contains(" questions and ") && !text.contains(" 0 edits "),
        "{text}"
    );
}
