//! Inputs of the program with their expected outputs and exit statuses.
use cedar_store_proved::{run, run_with_key, Key};

// Asserts the output and the exit status for lines, in which `~` stands for a tab.
fn check_run(lines: &[&str], expected: &[&str], status: u32) {
    let text = |lines: &[&str]| {
        lines
            .iter()
            .map(|line| line.replace('~', "\t") + "\n")
            .collect::<String>()
    };
    let (out, actual_status) = run(text(lines).as_bytes()).unwrap();
    assert_eq!(
        (String::from_utf8(out).unwrap(), actual_status),
        (text(expected), status),
        "{lines:?}"
    );
}

#[test]
fn stores_are_built_and_queried() {
    let two_entities = [
        "ent~A::\"a\"~A::\"b\"",
        "ent~A::\"b\"~A::\"c\"",
        "build",
        "anc~A::\"a\"",
        "anc~A::\"c\"",
    ];
    check_run(
        &two_entities,
        &["ok 2", "anc~A::\"b\"~A::\"c\"", "no entity"],
        0,
    );
    check_run(
        &["build", "ent~A::\"a\"", "build", "anc~A::\"a\""],
        &["ok 0", "ok 1", "anc"],
        0,
    );
    let same = "ent~A::\"a\"~A::\"b\"";
    check_run(
        &[same, same, "build", "anc~A::\"a\""],
        &["ok 1", "anc~A::\"b\""],
        0,
    );
    check_run(&[], &[], 0);
}

#[test]
fn errors_of_stores_are_reported() {
    let differing = [
        "ent~A::\"a\"~A::\"b\"",
        "ent~A::\"a\"~A::\"c\"",
        "build",
        "anc~A::\"a\"",
    ];
    check_run(&differing, &["refused: duplicate A::\"a\"", "no entity"], 0);
    check_run(&["ent~A::\"a\"~A::\"a\"", "build"], &["refused: cycle"], 0);
    let cyclic = [
        "ent~A::\"a\"~A::\"b\"",
        "build",
        "ent~A::\"b\"~A::\"a\"",
        "add",
        "anc~A::\"a\"",
        "ent~A::a",
    ];
    check_run(
        &cyclic,
        &[
            "ok 1",
            "refused: cycle",
            "no entity",
            "line 6: not a command",
        ],
        2,
    );
}

#[test]
fn stores_are_sliced() {
    let lines = [
        "ent~A::\"a\"~A::\"b\"",
        "ent~A::\"b\"~A::\"c\"",
        "ent~A::\"d\"~A::\"b\"",
        "build",
        "slice~A::\"a\"~A::\"z\"~A::\"a\"",
        "anc~A::\"a\"",
        "anc~A::\"d\"",
        "slice~A::\"z\"",
    ];
    check_run(
        &lines,
        &["ok 3", "ok 2", "anc~A::\"b\"~A::\"c\"", "no entity", "ok 0"],
        0,
    );
}

#[test]
fn sets_are_merged() {
    let lines = [
        "static~policy0~permit",
        "static~policy1~permit",
        "other",
        "static~policy1~forbid",
        "static~policy2~permit",
        "other",
        "merge~keep",
        "merge~rename",
        "ids",
    ];
    let expected = [
        "ok",
        "ok",
        "ok",
        "ok",
        "ok",
        "ok",
        "refused: occupied policy1",
        "ok~policy1~policy3",
        "bodies~policy0~policy1~policy3~policy2",
        "policies~policy0~policy1~policy3~policy2",
    ];
    check_run(&lines, &expected, 0);
}

#[test]
fn templates_are_linked() {
    let lines = [
        "template~t~both",
        "link~t~l~principal=A::\"x\"",
        "link~t~l~resource=A::\"y\"~principal=A::\"x\"",
        "unlink~t",
        "unlink~l",
        "unlink~l",
        "ids",
    ];
    let expected = [
        "ok",
        "refused: arity",
        "ok",
        "refused: not a link t",
        "ok",
        "refused: no link l",
        "bodies~t",
        "policies",
    ];
    check_run(&lines, &expected, 0);
    let lines = [
        "template~t~all",
        "link~t~l~action=A::\"x\"",
        "template~u~action",
        "link~u~l~action=A::\"x\"",
        "link~u~l~action=N::Action::\"v\"",
        "ids",
    ];
    let expected = [
        "ok",
        "refused: arity",
        "ok",
        "refused: not an action A::\"x\"",
        "ok",
        "bodies~t~u",
        "policies~l",
    ];
    check_run(&lines, &expected, 0);
}

#[test]
fn conflicting_ids_are_renamed_by_kind() {
    let lines = [
        "static~a~permit",
        "template~t~principal",
        "link~t~b~principal=A::\"x\"",
        "link~t~c~principal=A::\"x\"",
        "other",
        "template~u~principal",
        "link~u~t~principal=A::\"x\"",
        "template~b~resource",
        "static~c~permit",
        "static~a~forbid",
        "other",
        "merge~keep",
        "merge~rename",
        "ids",
    ];
    let mut expected = vec!["ok"; 11];
    expected.push("refused: occupied a");
    expected.push("ok~a~policy0~c~policy1~b~policy2~t~policy3");
    expected.push("bodies~a~t~u~policy2~policy1~policy0");
    expected.push("policies~a~b~c~policy3~policy1~policy0");
    check_run(&lines, &expected, 0);
}

#[test]
fn an_invalid_line_ends_the_run() {
    let link = "link~t~l~principal=A::\"x\"~principal=A::\"x\"";
    for line in [
        "frob",
        "build\r",
        "build~",
        "remove",
        "anc~A::\"a\"~A::\"b\"",
        "anc~A::\"\\u{80}\"",
        "anc~A::\"\u{80}\"",
        link,
    ] {
        check_run(&[line], &["line 1: not a command"], 2);
    }
    check_run(&["", "frob"], &["line 2: not a command"], 2);
    assert_eq!(
        run(b"frob").unwrap(),
        (b"line 1: not a command\n".to_vec(), 2)
    );
    assert_eq!(
        run(b"build\n\x80").unwrap(),
        (b"ok 0\nline 2: not a command\n".to_vec(), 2)
    );
}

#[test]
fn an_output_longer_than_its_input_is_complete() {
    let mut input = String::from("ent\tA::\"a\"");
    (0..100).for_each(|k| input += &format!("\tA::\"parent{k:03}\""));
    input += "\nbuild\n";
    (0..100).for_each(|_| input += "anc\tA::\"a\"\n");
    for key in [Key::random(), Key { seed: 0, key: 0 }] {
        let (out, status) = run_with_key(input.as_bytes(), key).unwrap();
        let line = out.split(|byte| *byte == b'\n').nth(100).unwrap();
        assert_eq!((out.len(), line.len(), status), (5 + 100 * 1504, 1503, 0));
    }
}
