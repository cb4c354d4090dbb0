//! Runs the program on the cases of `tests/cases/`, and compares what it says to the letter.
//!
//! A case is a few lines: `= title`, `$ arguments`, `< a line of standard input`, `> a line of standard output`,
//! `! a line of standard error` and `? status`. Of input, `\xNN` is a byte, `\t` a tab, `\\` a backslash, and a line
//! that ends with `\c` goes on without a newline. Where JOBSHEET_WRITE_CASES is set, what the program says is written
//! into the files instead: for a change of its words, whose difference is then read.

use std::{
    env,
    fmt::Write as _,
    fs,
    io::Write as _,
    path::Path,
    process::{Command, Stdio},
};

#[derive(Default)]
struct Case {
    title: String,
    arguments: String,
    input: String,
    /// What it must say, as it stands in the file.
    said: String,
}

fn cases(text: &str) -> Vec<Case> {
    let mut cases: Vec<Case> = Vec::new();
    for line in text.lines().filter(|line| !line.is_empty()) {
        let (mark, rest) = line.split_at(1);
        let rest = rest.strip_prefix(' ').unwrap_or(rest);
        if mark == "=" {
            cases.push(Case { title: rest.into(), ..Case::default() });
        }
        let case = cases.last_mut().expect("a case begins with its title");
        match mark {
            "=" => {}
            "$" => case.arguments = rest.into(),
            "<" => writeln!(case.input, "{rest}").unwrap(),
            ">" | "!" | "?" => writeln!(case.said, "{line}").unwrap(),
            _ => panic!("no line of a case: {line}"),
        }
    }
    cases
}

/// The bytes that the lines of input stand for.
fn bytes(input: &str) -> Vec<u8> {
    let input = input.replace("\\c\n", "");
    let mut bytes = Vec::new();
    let mut letters = input.chars();
    while let Some(letter) = letters.next() {
        match (letter, if letter == '\\' { letters.next() } else { None }) {
            ('\\', Some('t')) => bytes.push(b'\t'),
            ('\\', Some('\\')) => bytes.push(b'\\'),
            ('\\', Some('x')) => {
                let digits: String = letters.by_ref().take(2).collect();
                bytes.push(u8::from_str_radix(&digits, 16).expect("two digits after \\x"));
            }
            ('\\', other) => panic!("what is \\{other:?}?"),
            _ => bytes.extend(letter.to_string().bytes()),
        }
    }
    bytes
}

/// Lines of output as a case has them. Bytes that are no text are shown in hexadecimal.
fn marked(mark: char, output: &[u8]) -> String {
    let text = match std::str::from_utf8(output) {
        Ok(text) if !text.chars().any(|letter| letter.is_control() && letter != '\n') => text,
        _ => return output.iter().fold(format!("{mark} bytes"), |line, byte| line + &format!(" {byte:02x}")) + "\n",
    };
    let mut said: String = text.lines().map(|line| format!("{mark} {line}\n").replace(" \n", "\n")).collect();
    if !text.is_empty() && !text.ends_with('\n') {
        writeln!(said, "{mark}\\c").unwrap();
    }
    said
}

fn run(case: &Case) -> String {
    let mut program = Command::new(env!("CARGO_BIN_EXE_jobsheet"));
    program.args(case.arguments.split_whitespace()).env_remove("NO_COLOR");
    program.stdin(Stdio::piped()).stdout(Stdio::piped()).stderr(Stdio::piped());
    program.current_dir(Path::new(env!("CARGO_MANIFEST_DIR")).join("../examples"));
    let mut child = program.spawn().expect("the program starts");
    // One that does not read its input closes it, which is no fault here.
    drop(child.stdin.take().expect("it has an input").write_all(&bytes(&case.input)));
    let output = child.wait_with_output().expect("the program ends");
    let status = output.status.code().map_or("a signal".into(), |status| status.to_string());
    marked('>', &output.stdout) + &marked('!', &output.stderr) + &format!("? {status}\n")
}

fn check(name: &str) {
    let path = Path::new(env!("CARGO_MANIFEST_DIR")).join("tests/cases").join(name);
    let cases = cases(&fs::read_to_string(&path).expect("the cases can be read"));
    let (mut written, mut wrong) = (String::new(), String::new());
    for case in &cases {
        let said = run(case);
        if said != case.said {
            writeln!(wrong, "{}\nexpected\n{}said\n{said}", case.title, case.said).unwrap();
        }
        let input: String = case.input.lines().map(|line| format!("< {line}\n").replace(" \n", "\n")).collect();
        let arguments = format!("$ {}", case.arguments);
        writeln!(written, "= {}\n{}\n{input}{said}", case.title, arguments.trim_end()).unwrap();
    }
    if env::var_os("JOBSHEET_WRITE_CASES").is_some() {
        fs::write(&path, written.trim_end().to_string() + "\n").expect("the cases can be written");
    } else {
        assert!(wrong.is_empty(), "{name}:\n{wrong}");
    }
    println!("{}: {} cases", name, cases.len());
}

#[test]
fn pack_and_show() {
    check("pack-and-show.txt");
}

#[test]
fn text_faults() {
    check("text-faults.txt");
}

#[test]
fn table_faults() {
    check("table-faults.txt");
}

#[test]
fn bytes_faults() {
    check("bytes-faults.txt");
}

#[test]
fn graph_faults() {
    check("graph-faults.txt");
}

#[test]
fn sums() {
    check("sums.txt");
}

#[test]
fn days() {
    check("days.txt");
}

#[test]
fn usage() {
    check("usage.txt");
}
