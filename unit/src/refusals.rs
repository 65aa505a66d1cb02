//! The sentence and the place of each refusal, as the manual's table "Every refusal" has them: the table itself is read, so that nothing can differ from it.
const MANUAL: &str = include_str!("../../docs/MANUAL.md");

#[derive(Debug)]
pub struct Row {
    pub number: u8,
    pub sentence: &'static str,
    pub place: &'static str,
}

/// The rows `| number | condition | place | given by |` below the heading.
pub fn rows() -> Vec<Row> {
    let table = MANUAL.split("### Every refusal").nth(1).unwrap_or("");
    table.split("\n### ").next().unwrap_or("").lines().filter_map(row).collect()
}

fn row(line: &'static str) -> Option<Row> {
    let cells: Vec<&str> = line.split('|').map(str::trim).collect();
    let number = cells.get(1)?.parse().ok()?;
    Some(Row { number, sentence: cells.get(2)?, place: cells.get(3)? })
}

pub fn row_of(number: u8) -> Row {
    let unknown = Row { number, sentence: "the manual has no sentence for this number", place: "0" };
    rows().into_iter().find(|row| row.number == number).unwrap_or(unknown)
}

/// What a refusal says to someone who asked for this: 13 and 16 have conditions of several operations in the manual.
pub fn sentence(number: u8, command: &str) -> &'static str {
    let whole = row_of(number).sentence;
    match (number, command) {
        (16, "mark" | "levels") => "there are fewer settings than the sheet has channels",
        (16, "settings") => "there are fewer levels than the drawing has faces",
        (13, _) => whole.split(';').next().unwrap_or(whole),
        _ => whole,
    }
}

#[cfg(test)]
mod tests {
    use super::*;

    /// The numbers of `enum analyser_result`, and those alone.
    #[test]
    fn every_number_of_the_header_has_a_sentence() {
        let header = include_str!("../../include/analyser.h");
        let results = header.split("enum analyser_result {").nth(1).unwrap().split('}').next().unwrap();
        let number = |line: &str| line.trim().strip_prefix("ANALYSER_")?.split("= ").nth(1)?.split([',', ' ']).next()?.parse::<u8>().ok();
        let mut numbers: Vec<u8> = results.lines().filter_map(number).filter(|&number| number != 0).collect();
        let mut told: Vec<u8> = rows().iter().map(|row| row.number).collect();
        numbers.sort_unstable();
        told.sort_unstable();
        assert_eq!(told, numbers);
        assert!(numbers.len() >= 24 && rows().iter().all(|row| row.sentence.len() > 9));
    }

    #[test]
    fn only_17_and_18_have_a_place() {
        let placed: Vec<(u8, &str)> = rows().iter().filter(|row| row.place != "0").map(|row| (row.number, row.place)).collect();
        assert_eq!(placed, [(17, "lowest such channel"), (18, "lowest such node")]);
    }
}
