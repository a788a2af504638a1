//! Compares the program `runner` with claxon's answers on kept inputs, and writes such inputs as stored cases.
use crate::hex;
use crate::sample::Kept;
use std::io::Write;
use std::path::Path;
use std::process::{Command, Stdio};

/// What the program writes on this input; `None` if it ends with a status other than 0.
fn run(command: &str, input: &[u8]) -> Option<Vec<u8>> {
    let mut child = Command::new("sh")
        .args(["-c", command])
        .stdin(Stdio::piped())
        .stdout(Stdio::piped())
        .spawn()
        .expect("a shell starts");
    // If the program ends before it has read everything, its status or its output will show that.
    let _ = child.stdin.take().expect("it has an input").write_all(input);
    let output = child.wait_with_output().expect("the program ends");
    output.status.success().then_some(output.stdout)
}

/// Ends with status 1 if the program writes something else.
pub fn compare(kept: &[Kept], command: &str) {
    for case in kept {
        let wrote = run(command, &case.bytes);
        if wrote.as_deref() != Some(&case.output) {
            println!("runner parts from claxon, {}", case.name);
            println!("input  {}", hex(&case.bytes));
            println!("runner {}", wrote.map_or("ended badly".into(), |wrote| hex(&wrote)));
            println!("claxon {}", hex(&case.output));
            std::process::exit(1);
        }
    }
    println!("runner: {} inputs, all as claxon has them", kept.len());
}

/// A line for each case: name, input and output, in hex.
pub fn write_list(kept: &[Kept], path: &Path) {
    let or_none = |text: String| if text.is_empty() { "-".into() } else { text };
    let line = |case: &Kept| format!("{} {} {}\n", case.name, or_none(hex(&case.bytes)), or_none(hex(&case.output)));
    let text: String = kept.iter().map(line).collect();
    std::fs::write(path, text).expect("the list is written");
    println!("{} cases in {}", kept.len(), path.display());
}
