//! The program key as it runs: its standard input comes in pieces, as from a pipe, and may go on past the sheet. What it prints is held to the key's text, which is
//! compared with this program's own.
use crate::check::{key_of, page_of, Tally, Wrong};
use crate::faults::Library;
use std::io::{ErrorKind, Read, Write};
use std::process::{Command, Stdio};

/// How many bytes are written at a time; 0 is all of them.
const PIECES: [usize; 4] = [0, 1, 7, 4096];

/// Every *.question of a folder, whole, cut short and with bytes left over.
pub fn compare_program(library: &Library, program: &str, folder: &str, tally: &mut Tally) -> Result<(), Wrong> {
    let told = |what: String| Wrong(format!("{folder}: {what}\n"));
    let mut names: Vec<_> = std::fs::read_dir(folder).map_err(|error| told(error.to_string()))?.filter_map(|entry| Some(entry.ok()?.path())).collect();
    names.retain(|path| path.extension().is_some_and(|extension| extension == "question"));
    names.sort();
    if names.is_empty() {
        return Err(told("no *.question".to_string()));
    }
    for path in names {
        let whole = std::fs::read(&path).map_err(|error| told(error.to_string()))?;
        let mut longer = whole.clone();
        longer.resize(whole.len() + 100_000, 2);
        let cut = whole.len() - 1;
        for input in [&whole[..], &whole[..cut], &whole[..8], &[], &longer, &longer[..whole.len() + 1]] {
            let due = key_of(library, input, tally)?;
            for piece in PIECES.into_iter().filter(|&piece| piece != 1 || input.len() < 2000) {
                let got = run(program, input, piece).map_err(|error| told(format!("{program}: {error}")))?;
                if got != due.as_bytes() {
                    let text = String::from_utf8_lossy(&got);
                    return Err(told(format!("{} with {} bytes, {piece} at a time: the program prints\n{text}and not\n{due}", path.display(), input.len())));
                }
            }
        }
    }
    Ok(())
}

/// Every *.page of a folder: the name of a question whose sheet it is about, and questions with their answers.
pub fn compare_pages(library: &Library, folder: &str, tally: &mut Tally) -> Result<(), Wrong> {
    let told = |what: String| Wrong(format!("{folder}: {what}\n"));
    let entries = std::fs::read_dir(folder).map_err(|error| told(error.to_string()))?;
    for path in entries.filter_map(|entry| Some(entry.ok()?.path())).filter(|path| path.extension().is_some_and(|extension| extension == "page")) {
        let text = std::fs::read_to_string(&path).map_err(|error| told(error.to_string()))?;
        let mut lines = text.lines();
        let name = lines.next().and_then(|line| line.strip_prefix("sheet ")).ok_or_else(|| told(format!("{}: no sheet", path.display())))?;
        let input = std::fs::read(format!("{folder}/{name}.question")).map_err(|error| told(format!("{name}: {error}")))?;
        let lines: Vec<&str> = lines.collect();
        let question = |line: &&str| -> Option<(u16, u16, i32)> {
            let numbers: Vec<&str> = line.strip_prefix("question ")?.split_once(':')?.0.split(' ').collect();
            let [source, sink, value] = numbers[..] else { return None };
            Some((source.parse().ok()?, sink.parse().ok()?, value.parse().ok()?))
        };
        let questions: Vec<_> = lines.iter().map(question).collect::<Option<_>>().ok_or_else(|| told(format!("{}: no question", path.display())))?;
        let answers = page_of(library, &input[9..], &questions, tally)?;
        for ((line, (source, sink, value)), answer) in lines.iter().zip(questions).zip(answers) {
            let due = format!("question {source} {sink} {value}: {answer}");
            if *line != due {
                return Err(told(format!("{}: {line}, but the page says\n{due}", path.display())));
            }
        }
    }
    Ok(())
}

/// What the program prints.
fn run(program: &str, input: &[u8], piece: usize) -> std::io::Result<Vec<u8>> {
    let mut child = Command::new(program).stdin(Stdio::piped()).stdout(Stdio::piped()).spawn()?;
    let mut to = child.stdin.take().expect("a pipe");
    for part in input.chunks(if piece == 0 { input.len().max(1) } else { piece }) {
        match to.write_all(part) {
            Err(error) if error.kind() == ErrorKind::BrokenPipe => break, // it has read enough
            done => done?,
        }
        if piece != 0 {
            std::thread::yield_now();
        }
    }
    drop(to);
    let mut text = vec![];
    child.stdout.take().expect("a pipe").read_to_end(&mut text)?;
    child.wait()?;
    Ok(text)
}
