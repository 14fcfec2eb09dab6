//! Runs 10,000 random sessions. Each is run by the program as a whole, and line by line through the crate. Both must
//! write the same for each line.
mod session;
use cedar_store_proved::{run, run_with_key, Key};
use session::{Dice, Line, Session};
use std::collections::BTreeMap;

const SESSIONS: u64 = 10_000;
const THREADS: u64 = 4;

// The number of outputs of each kind.
type Kinds = BTreeMap<String, usize>;

// Returns the words of an output that determine its kind.
fn kind(output: &str) -> &str {
    const ERRORS: [&str; 9] = [
        "refused: duplicate",
        "refused: cycle",
        "refused: occupied",
        "refused: no template",
        "refused: arity",
        "refused: not an action",
        "refused: no link",
        "refused: not a link",
        "no entity",
    ];
    let error = ERRORS.into_iter().find(|prefix| output.starts_with(prefix));
    error.unwrap_or_else(|| output.split([' ', '\t']).next().unwrap_or(""))
}

// Returns the output of the crate for each line, up to the first line that is not a command.
fn run_lines(lines: &[Line]) -> (Vec<String>, u32) {
    let mut session = Session::default();
    let mut outputs = Vec::new();
    for (number, line) in lines.iter().enumerate() {
        match session.run_line(line) {
            Some(text) => outputs.push(text),
            None => {
                outputs.push(format!("line {}: not a command\n", number + 1));
                return (outputs, 2);
            }
        }
    }
    (outputs, 0)
}

// Compares the outputs line by line.
fn compare(input: &str, outputs: &[String], out: &str, kinds: &mut Kinds) {
    let mut rest = out;
    for (number, expected) in outputs.iter().enumerate() {
        let Some(after) = rest.strip_prefix(expected.as_str()) else {
            panic!(
                "line {} of\n{input}: the crate writes {expected:?}, and the program {rest:?}",
                number + 1
            );
        };
        rest = after;
        for line in expected.lines() {
            *kinds.entry(kind(line).into()).or_default() += 1;
        }
    }
    assert_eq!(rest, "", "the program writes further output for\n{input}");
}

fn session(seed: u64, kinds: &mut Kinds) {
    let mut dice = Dice::new(seed);
    let count = 1 + dice.number(60);
    let lines: Vec<Line> = (0..count).map(|_| Line::random(&mut dice)).collect();
    let input: String = lines.iter().map(|line| format!("{line}\n")).collect();
    let (outputs, expected_status) = run_lines(&lines);
    let (out, status) = run(input.as_bytes()).unwrap();
    compare(
        &input,
        &outputs,
        &String::from_utf8(out.clone()).unwrap(),
        kinds,
    );
    assert_eq!(status, expected_status);
    let zeros = Key { seed: 0, key: 0 };
    assert_eq!(
        run_with_key(input.as_bytes(), zeros).unwrap(),
        (out, status)
    );
}

fn sessions(from: u64) -> Kinds {
    let mut kinds = Kinds::new();
    for seed in (from..SESSIONS).step_by(THREADS as usize) {
        session(seed, &mut kinds);
    }
    kinds
}

#[test]
fn program_and_crate_write_the_same_in_random_sessions() {
    let mut kinds = Kinds::new();
    std::thread::scope(|scope| {
        let parts: Vec<_> = (0..THREADS)
            .map(|from| scope.spawn(move || sessions(from)))
            .collect();
        for (kind, count) in parts.into_iter().flat_map(|part| part.join().unwrap()) {
            *kinds.entry(kind).or_default() += count;
        }
    });
    println!("{kinds:#?}");
    assert_eq!(kinds.len(), 14, "{kinds:?}");
    assert!(kinds.values().all(|count| *count >= 300), "{kinds:?}");
}
