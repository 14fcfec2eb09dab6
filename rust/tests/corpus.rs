//! The corpus of a fuzzer: the program writes the same as the proved program for each input. Also lines of more types
//! than a run caches, and invalid `ent` lines.
use cedar_store::ast::EntityUID;
use cedar_store::program::run;

/// Decodes the escapes of an input.
fn unescape(text: &str) -> Vec<u8> {
    let (mut bytes, mut rest) = (Vec::new(), text.bytes());
    while let Some(byte) = rest.next() {
        bytes.push(match byte {
            b'\\' => match rest.next().expect("a backslash is not the last") {
                b't' => b'\t',
                b'n' => b'\n',
                b'x' => {
                    let two = [rest.next(), rest.next()].map(|digit| digit.expect("two digits"));
                    u8::from_str_radix(std::str::from_utf8(&two).expect("digits"), 16).expect("digits")
                }
                other => other,
            },
            other => other,
        });
    }
    bytes
}

fn checksum(bytes: &[u8]) -> u64 {
    bytes.iter().fold(0xcbf2_9ce4_8422_2325, |hash, byte| {
        (hash ^ u64::from(*byte)).wrapping_mul(0x0100_0000_01b3)
    })
}

#[test]
fn outputs_for_the_corpus_equal_those_of_the_proved_program() {
    let cases = include_str!("corpus.txt").lines().filter(|case| !case.starts_with('#'));
    let mut count = 0;
    for case in cases {
        let mut parts = case.splitn(3, ' ');
        let mut part = || parts.next().expect("three parts");
        let expected_status: u8 = part().parse().expect("a status");
        let expected_checksum = u64::from_str_radix(part(), 16).expect("a checksum");
        let lines = unescape(part());
        let mut written = Vec::new();
        let status = run(&mut &lines[..], &mut written).expect("reading and writing memory never fails");
        assert_eq!(
            (status, checksum(&written)),
            (expected_status, expected_checksum),
            "{}",
            String::from_utf8_lossy(&lines)
        );
        count += 1;
    }
    assert!(count > 1_000, "{count}");
}

/// Returns lines that build a store of three entities of each type, each with a parent of its type, and ask for their
/// ancestors; and the expected output.
fn input_with_parents(types: &[String], eid: &str) -> (String, String) {
    let (mut input, mut expected) = (String::new(), format!("ok {}\n", types.len() * 3));
    let mut queries = (String::new(), String::new());
    for round in 0..3 {
        for (n, ty) in types.iter().enumerate() {
            let (uid, parent) = (format!("{ty}::\"{n} {round}\""), format!("{ty}::\"{eid}\""));
            input.push_str(&format!("ent\t{uid}\t{parent}\n"));
            queries.0.push_str(&format!("anc\t{uid}\n"));
            queries.1.push_str(&format!("anc\t{parent}\n"));
        }
    }
    input.push_str("build\n");
    input.push_str(&queries.0);
    expected.push_str(&queries.1);
    (input, expected)
}

/// A run caches 16 types and 256 parents. Lines of more types, and of types and parents too long for the cache, are
/// read as any other line.
#[test]
fn lines_with_more_or_longer_types_than_the_cache_are_parsed() {
    let short = |count: usize| (0..count).map(|n| format!("T{n}")).collect::<Vec<_>>();
    let long = |length: usize| {
        (0..20)
            .map(|n| format!("{}{n}", "L".repeat(length)))
            .collect::<Vec<_>>()
    };
    for (types, eid) in [
        (short(15), "e".to_string()),
        (short(16), "e".to_string()),
        (short(17), "e".to_string()),
        (short(100), "e".repeat(4_100)),
        (long(250), "e".to_string()),
        (long(254), "e".to_string()),
        (long(300), "e".repeat(3_790)),
        ([short(30), long(255)].concat(), "e".repeat(3_836)),
    ] {
        let (input, expected) = input_with_parents(&types, &eid);
        let mut written = Vec::new();
        let status = run(&mut input.as_bytes(), &mut written).expect("memory suffices");
        assert_eq!((status, String::from_utf8(written).expect("ASCII")), (0, expected));
    }
}

/// An invalid `ent` line is not a command, whatever part of it was already parsed.
#[test]
fn invalid_ent_line_is_not_a_command() {
    for invalid in [
        "ent",
        "ent\tA::\"a\"\tB::b",
        "ent\tA::a",
        "ent\tA::\"a\"\t",
        "entity\tA::\"a\"",
    ] {
        let input = format!("ent\tA::\"a\"\tB::\"b\"\nbuild\n{invalid}\nbuild\n");
        let mut written = Vec::new();
        let status = run(&mut input.as_bytes(), &mut written).expect("memory suffices");
        assert_eq!(
            (status, written),
            (2, b"ok 1\nline 3: not a command\n".to_vec()),
            "{invalid}"
        );
    }
}

/// An eid with escapes is read alike whether its type is cached or not.
#[test]
fn escapes_are_read_with_and_without_a_cached_type() {
    let output = |lines: &str| {
        let mut written = Vec::new();
        let status = run(&mut lines.as_bytes(), &mut written).expect("memory suffices");
        (status, String::from_utf8(written).expect("ASCII"))
    };
    for (before, count) in [("", 1), ("ent\tA::\"c\"\n", 2)] {
        for byte in 0..128 {
            let eid = format!("{}a{}", char::from(byte), char::from(byte));
            let uid = EntityUID::with_eid_and_type("A", &eid).expect("a type").to_string();
            let lines = format!("{before}ent\tB::\"b\"\t{uid}\nbuild\nanc\tB::\"b\"\n");
            assert_eq!(output(&lines), (0, format!("ok {count}\nanc\t{uid}\n")), "{lines}");
        }
        for letter in ' '..='~' {
            let lines = format!("{before}ent\tA::\"a\\{letter}b\"\n");
            let status = if r#"0trn'"\"#.contains(letter) { 0 } else { 2 };
            assert_eq!(output(&lines).0, status, "{lines}");
        }
        assert_eq!(output(&format!("{before}ent\tA::\"a\\\"\n")).0, 2);
    }
}
