//! What a command gives: the library's answer as text, as JSON, as bytes and as pictures; or why there is none.
use crate::json::Json;
use crate::library::{self, Drawing, Ends, Refusal};
use crate::refusals;
use crate::text::Fault;

#[derive(Default)]
pub struct Answer {
    pub text: String,
    pub json: Vec<(&'static str, Json)>,
    pub views: Vec<View>,
    /// What `--out` writes, where the answer is a file of its own.
    pub bytes: Option<Vec<u8>>,
    /// Whether these bytes go to standard output where there is no `--out`, in the text's place.
    pub raw: bool,
    /// What was given and is no part of the answer, so that nothing is passed over in silence.
    pub notes: Vec<String>,
    /// Whether the text is the key of a refusal.
    pub refused: bool,
}

pub enum Failure {
    Fault(Fault),
    Refusal(Refusal),
}

impl From<Fault> for Failure {
    fn from(fault: Fault) -> Failure {
        Failure::Fault(fault)
    }
}

impl From<Refusal> for Failure {
    fn from(refusal: Refusal) -> Failure {
        Failure::Refusal(refusal)
    }
}

pub type Outcome = Result<Answer, Failure>;

/// Number, place where there is one, and sentence, on one line.
pub fn refusal_text(refusal: Refusal, command: &str) -> String {
    let place = match refusals::row_of(refusal.number).place {
        "0" => String::new(),
        of => format!(" place {} ({of})", refusal.place),
    };
    format!("refused {}{place}: {}\n", refusal.number, refusals::sentence(refusal.number, command))
}

pub fn refusal_json(refusal: Refusal, command: &str) -> Vec<(&'static str, Json)> {
    let sentence = refusals::sentence(refusal.number, command);
    vec![("answer", "refused".into()), ("refused", number(refusal.number)), ("place", number(refusal.place)), ("sentence", sentence.into())]
}

pub fn number(number: impl Into<i64>) -> Json {
    Json::Number(number.into())
}

/// The kind of a head that names an outer dart.
const NAMES_OUTER: u8 = 4;

/// A picture: a drawing with settings on its channels, a set with or without the subtotals of its nodes, levels on its faces, or some of these.
pub struct View {
    pub title: String,
    pub caption: String,
    pub drawing: Drawing,
    /// The outer dart, where the sheet names one; else the picture may choose.
    pub outer: Option<u16>,
    pub ends: Option<Ends>,
    /// The delivery that is asked, where one is.
    pub asked: Option<i32>,
    /// Whether it is an exam page: black and white, with lines for the answer and without it.
    pub exam: bool,
    pub settings: Option<Vec<i32>>,
    pub set: Option<Vec<u16>>,
    pub subtotals: Option<Vec<i32>>,
    pub levels: Option<Vec<i32>>,
}

impl View {
    pub fn new(title: String, caption: String, sheet: &[u8], ends: Option<Ends>) -> Result<View, Refusal> {
        let drawing = library::read(sheet)?;
        let outer = Some(drawing.outer).filter(|_| sheet[0] == NAMES_OUTER);
        Ok(View { title, caption, drawing, outer, ends, asked: None, exam: false, settings: None, set: None, subtotals: None, levels: None })
    }

    /// Other limits than the sheet's, one to a dart.
    pub fn limits(mut self, limits: &[i32]) -> View {
        self.drawing.limits = limits.to_vec();
        self
    }

    pub fn asks(mut self, delivery: Option<i32>) -> View {
        self.asked = delivery;
        self
    }

    /// The same question as an exam page, word for word as the examiner's page prints it.
    pub fn exam(self, title: String) -> View {
        let caption = self.ends.zip(self.asked).map_or(String::new(), |(ends, value)| format!("{value} from node {} to node {}", ends.0, ends.1));
        View { title, caption, exam: true, settings: None, set: None, subtotals: None, levels: None, ..self }
    }

    pub fn settings(mut self, settings: &[i32]) -> View {
        self.settings = Some(settings.to_vec());
        self
    }

    pub fn levels(mut self, levels: &[i32]) -> View {
        self.levels = Some(levels.to_vec());
        self
    }

    /// A set and what Totals by node says of it.
    pub fn set(mut self, sheet: &[u8], set: &[u64]) -> Result<View, Refusal> {
        let (subtotals, _) = library::totals(sheet, set)?;
        // Nodes rise, so bits past the last node, which have no subtotal, come last.
        self.set = Some(library::nodes_of(set).into_iter().take(subtotals.len()).collect());
        self.subtotals = Some(subtotals);
        Ok(self)
    }

    /// A set on limits that are no sheet's, of which Totals by node says nothing.
    pub fn bare_set(mut self, set: &[u64]) -> View {
        self.set = Some(library::nodes_of(set));
        self
    }
}
