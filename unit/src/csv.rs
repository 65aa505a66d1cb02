//! CSV, as spreadsheets write it: cells between commas, semicolons or tabs, perhaps in quotes, in which a quote is doubled and a line may end.

/// The mark between the cells, where the first line is the head of a table: its cells are words, and one of them is `name`.
pub fn mark_of(text: &str) -> Option<char> {
    let head = text.lines().next()?;
    let names = |mark: char| head.split(mark).any(|cell| cell.trim().trim_matches('"').eq_ignore_ascii_case("name"));
    [',', ';', '\t'].into_iter().find(|&mark| head.contains(mark) && names(mark))
}

/// The rows that have a cell with something in it, each with the number of the line that it begins on.
pub fn rows(text: &str, mark: char) -> Vec<(usize, Vec<String>)> {
    let (mut rows, mut cells, mut cell) = (vec![], vec![], String::new());
    let (mut quoted, mut line, mut begins) = (false, 1, 1);
    let mut signs = text.chars().peekable();
    while let Some(sign) = signs.next() {
        match sign {
            '"' if quoted && signs.peek() == Some(&'"') => cell.extend(signs.next()),
            '"' if quoted || cell.trim().is_empty() => quoted = !quoted,
            '\n' if !quoted => {
                cells.push(std::mem::take(&mut cell));
                rows.push((begins, std::mem::take(&mut cells)));
                begins = line + 1;
            }
            '\r' if signs.peek() == Some(&'\n') => {}
            sign if sign == mark && !quoted => cells.push(std::mem::take(&mut cell)),
            sign => cell.push(sign),
        }
        line += (sign == '\n') as usize;
    }
    cells.push(cell);
    rows.push((begins, cells));
    rows.retain(|(_, cells)| cells.iter().any(|cell| !cell.trim().is_empty()));
    rows
}

/// A cell between commas, in quotes where it needs them. A spreadsheet takes what begins with one of four signs for a formula: a quote before it says that it
/// is none.
pub fn cell(text: &str) -> String {
    let plain = if text.starts_with(['=', '+', '-', '@']) { format!("'{text}") } else { text.to_string() };
    if plain.contains([',', '"', '\n', '\r']) {
        format!("\"{}\"", plain.replace('"', "\"\""))
    } else {
        plain
    }
}

#[cfg(test)]
mod tests {
    use super::*;

    #[test]
    fn quotes_hold_marks_quotes_and_lines() {
        let found = rows("name,b\n\"a, \"\"x\"\"\",\"1\n2\"\r\n\n ,\nlast,", ',');
        let due = [(1, ["name", "b"]), (2, ["a, \"x\"", "1\n2"]), (6, ["last", ""])];
        assert_eq!(found, due.map(|(line, cells)| (line, cells.map(str::to_string).to_vec())));
        for (text, due) in [("a", "a"), ("a,b", "\"a,b\""), ("\"", "\"\"\"\""), ("=1+1", "'=1+1"), ("", "")] {
            assert_eq!(cell(text), due);
        }
    }

    #[test]
    fn a_table_has_a_head() {
        for (text, mark) in
            [("name,set\n", Some(',')), ("\"Name\";set", Some(';')), ("set\tname", Some('\t')), ("Ada: 1 | 2 | 3", None), ("name: 1 | 2,3 |", None)]
        {
            assert_eq!(mark_of(text), mark, "{text}");
        }
        assert_eq!(mark_of(""), None);
    }
}
