//! Generates random inputs, and compares the output and the exit status of another program with the program of this
//! package: `cargo run --release -F cli --example compare -- PROGRAM [COUNT [SEED]]`.
//!
//! The other program is started once for each input, with the lines as its standard input. An input has up to thirty
//! lines with few uids and ids, so that the lines interact. Some lines are invalid on purpose. The first inputs with a
//! difference are shown, and the last line is `N passed, M failed`.
use cedar_store::program::run;
use std::env::args;
use std::io::Write;
use std::process::{Command, ExitCode, Stdio};
use std::sync::atomic::{AtomicU64, Ordering};
use std::thread;

/// A generator of pseudorandom numbers. The same seed always gives the same numbers.
struct Random(u64);

impl Random {
    fn next_u64(&mut self) -> u64 {
        self.0 ^= self.0 << 13;
        self.0 ^= self.0 >> 7;
        self.0 ^= self.0 << 17;
        self.0.wrapping_mul(0x2545_F491_4F6C_DD1D)
    }

    fn below(&mut self, limit: u64) -> u64 {
        (self.next_u64() >> 33) % limit
    }

    fn choose<'a>(&mut self, items: &[&'a str]) -> &'a str {
        items[usize::try_from(self.below(items.len() as u64)).expect("an index")]
    }
}

const UIDS: [&str; 12] = [
    r#"A::"a""#,
    r#"A::"b""#,
    r#"A::"c""#,
    r#"A::"d""#,
    r#"B::"a""#,
    r#"N::A::"a""#,
    r#"A::"""#,
    r#"A::"it\'s\t""#,
    r#"A::"\u{7f}\0\"\\""#,
    r#"Action::"view""#,
    r#"N::Action::"a""#,
    r#"A::"a longer eid of thirty bytes..""#,
];
const INVALID_UIDS: [&str; 8] = [
    "A::a",
    r#"A::"it's""#,
    r#"if::"a""#,
    r#"A::"\u{0041}""#,
    "",
    r#"A::"a"b""#,
    r#"1::"a""#,
    r#"A:: "a""#,
];
const IDS: [&str; 10] = [
    "",
    "t",
    "l",
    "a",
    "it's",
    "policy0",
    "policy1",
    "policy2",
    "policy10",
    "a longer id of a policy",
];

fn uid(random: &mut Random) -> &'static str {
    if random.below(60) == 0 {
        random.choose(&INVALID_UIDS)
    } else {
        random.choose(&UIDS)
    }
}

fn uids(random: &mut Random, word: &str, max: u64) -> String {
    let mut line = word.to_string();
    for _ in 0..=random.below(max) {
        line += "\t";
        line += uid(random);
    }
    line
}

fn link(random: &mut Random) -> String {
    let mut line = format!("link\t{}\t{}", random.choose(&IDS), random.choose(&IDS));
    let mut prefixes = vec!["principal=", "action=", "resource="];
    for _ in 0..random.below(4) {
        let index = usize::try_from(random.below(prefixes.len() as u64)).expect("an index");
        let prefix = if random.below(20) == 0 {
            prefixes[index]
        } else {
            prefixes.swap_remove(index)
        };
        let bound = if prefix == "action=" && random.below(3) > 0 {
            r#"Action::"view""#
        } else {
            uid(random)
        };
        line += &format!("\t{prefix}{bound}");
        if prefixes.is_empty() {
            break;
        }
    }
    line
}

fn line(random: &mut Random) -> String {
    let id = |random: &mut Random| random.choose(&IDS);
    match random.below(26) {
        0..=5 => uids(random, "ent", 3),
        6 => "build".into(),
        7 => "add".into(),
        8 => "upsert".into(),
        9 => uids(random, "remove", 2),
        10 => uids(random, "slice", 2),
        11..=13 => format!("anc\t{}", uid(random)),
        14 => format!(
            "static\t{}\t{}",
            id(random),
            random.choose(&["permit", "forbid", "permit", "forbid", "none"])
        ),
        15 | 16 => format!(
            "template\t{}\t{}",
            id(random),
            random.choose(&[
                "none",
                "principal",
                "action",
                "resource",
                "both",
                "all",
                "principal",
                "resource"
            ])
        ),
        17..=19 => link(random),
        20 => format!("unlink\t{}", id(random)),
        21 => "other".into(),
        22 => format!("merge\t{}", random.choose(&["keep", "rename", "rename"])),
        23 | 24 => "ids".into(),
        _ => random
            .choose(&[
                "",
                "",
                "",
                "",
                "",
                "frob",
                "build\t",
                " build",
                "ids\tx",
                "anc",
                "é",
                "merge\tall",
            ])
            .into(),
    }
}

fn program(random: &mut Random) -> Vec<u8> {
    let mut text = String::new();
    for _ in 0..random.below(31) {
        text += &line(random);
        text += "\n";
    }
    if random.below(8) == 0 {
        text.pop();
    }
    let mut bytes = text.into_bytes();
    if !bytes.is_empty() && random.below(10) == 0 {
        let index = usize::try_from(random.below(bytes.len() as u64)).expect("an index");
        bytes[index] = u8::try_from(random.below(256)).expect("a byte");
    }
    bytes
}

/// Returns the output and the status of the program of this package.
fn run_this(lines: &[u8]) -> (Vec<u8>, i32) {
    let mut written = Vec::new();
    let status = run(&mut &lines[..], &mut written).expect("reading and writing memory never fails");
    (written, i32::from(status))
}

/// Returns the output and the status of the other program.
fn run_other(program: &str, lines: &[u8]) -> (Vec<u8>, i32) {
    let mut child = Command::new(program)
        .stdin(Stdio::piped())
        .stdout(Stdio::piped())
        .spawn()
        .expect("the other program starts");
    child
        .stdin
        .take()
        .expect("a pipe")
        .write_all(lines)
        .expect("it reads its lines");
    let output = child.wait_with_output().expect("the output is read");
    (output.stdout, output.status.code().expect("the program exits normally"))
}

fn main() -> ExitCode {
    let words: Vec<String> = args().skip(1).collect();
    let Some(other) = words.first() else {
        eprintln!("usage: compare PROGRAM [COUNT [SEED]]");
        return ExitCode::from(64);
    };
    let number_at =
        |index: usize, default: u64| words.get(index).map_or(default, |word| word.parse().expect("a number"));
    let (count, seed) = (number_at(1, 1000), number_at(2, 1));
    let (next, failed) = (AtomicU64::new(0), AtomicU64::new(0));
    thread::scope(|scope| {
        for _ in 0..thread::available_parallelism().map_or(2, usize::from) {
            scope.spawn(|| {
                loop {
                    let index = next.fetch_add(1, Ordering::Relaxed);
                    if index >= count {
                        return;
                    }
                    let lines = program(&mut Random(
                        (seed << 32 ^ index).wrapping_mul(0x9E37_79B9_7F4A_7C15) | 1,
                    ));
                    let (expected, actual) = (run_other(other, &lines), run_this(&lines));
                    if expected != actual && failed.fetch_add(1, Ordering::Relaxed) < 5 {
                        println!("{index}: {:?}", String::from_utf8_lossy(&lines));
                        println!(
                            "  {other} wrote {:?}, status {}",
                            String::from_utf8_lossy(&expected.0),
                            expected.1
                        );
                        println!(
                            "  this wrote {:?}, status {}",
                            String::from_utf8_lossy(&actual.0),
                            actual.1
                        );
                    }
                }
            });
        }
    });
    let failed = failed.into_inner();
    println!("{} passed, {failed} failed", count - failed);
    if failed == 0 {
        ExitCode::SUCCESS
    } else {
        ExitCode::FAILURE
    }
}
