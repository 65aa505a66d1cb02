//! The table of commands: a row has all that is told of one. A new operation is a function in `commands` (or a module of its own) and a row here.
use crate::answer::Outcome;
use crate::commands;
use crate::words::Words;

pub struct Command {
    pub name: &'static str,
    /// Its operation, as the manual heads it.
    pub operation: &'static str,
    pub words: &'static str,
    /// How many words it takes.
    pub counts: &'static [usize],
    pub says: &'static str,
    /// The fields of `--json` beside "operation".
    pub json: &'static str,
    /// Calls with what they print, in the folder of the repository: tests/unit runs them.
    pub examples: &'static str,
    pub run: fn(&Words) -> Outcome,
}

pub const COMMANDS: &[Command] = &[
    Command {
        name: "read",
        operation: "Read",
        words: "SHEET",
        counts: &[1],
        says: "The drawing of a sheet, as text: its nodes, its outer dart, and a line for each channel.\n\
               A question that stands before the sheet is shown too.",
        json: "answer drawing, nodes, channels, outer, tails, turns, limits (one to a dart)",
        examples: "$ tools/unit read samples/a-6.question\n\
                   question 0 1 6\n\
                   nodes 2\n\
                   outer 0\n\
                   0 1 2 5 5 0\n\
                   0 1 4 1 3 0\n\
                   0 1 0 3 4 0\n",
        run: commands::read,
    },
    Command {
        name: "write",
        operation: "Write",
        words: "TEXT [--out FILE]",
        counts: &[1],
        says: "The bytes of a sheet for the text of a drawing, in hex, a record a line. The head is always of kind 4.\n\
               With --out the bytes go into a file. A question in the text is passed over.",
        json: "answer sheet, length, bytes",
        examples: "$ tools/unit write samples/a-6-outer-1.txt\n\
                   04  02 00  03 00  01 00\n\
                   02  00 00  01 00  02 00  05 00  05 00 00 00  00 00 00 00\n\
                   02  00 00  01 00  04 00  01 00  03 00 00 00  00 00 00 00\n\
                   02  00 00  01 00  00 00  03 00  04 00 00 00  00 00 00 00\n",
        run: commands::write,
    },
    Command {
        name: "pack",
        operation: "Text to bytes",
        words: "[TEXT] [--out FILE]",
        counts: &[0, 1],
        says: "The bytes of a text: of a question and its sheet, of a sheet alone, or of a capture, on standard output or into a file.\n\
               Nothing is judged but that each number fits its field. Without a name the text is standard input.",
        json: "answer bytes, length, bytes",
        examples: "$ printf '7 513 -2\\n' | tools/unit pack | od -An -tu1\n\
                   \x20  5   7   0   0   0   1   2 254 255 255 255\n\
                   $ tools/unit pack samples/a-6.txt | cmp - samples/a-6.question\n",
        run: crate::packing::pack,
    },
    Command {
        name: "unpack",
        operation: "Bytes to text",
        words: "[BYTES] [--out FILE]",
        counts: &[0, 1],
        says: "The text of bytes, which 'pack' turns back: of a question and its sheet, of a sheet alone, or of a capture.\n\
               Nothing is judged but that there are such records. Without a name the bytes are standard input.",
        json: "answer text, text",
        examples: "$ tools/unit unpack samples/a-6.question\n\
                   question 0 1 6\n\
                   nodes 2\n\
                   0 1 2 5 5 0\n\
                   0 1 4 1 3 0\n\
                   0 1 0 3 4 0\n",
        run: crate::packing::unpack,
    },
    Command {
        name: "check",
        operation: "Text and bytes of a folder",
        words: "FOLDER",
        counts: &[1],
        says: "Every NAME.txt of a folder packs to NAME.question, and that unpacks to NAME.txt; so do NAME.records and NAME.capture.",
        json: "answer agree, samples, captures",
        examples: "$ tools/unit check samples | grep -o 'agree with their text'\n\
                   agree with their text\n",
        run: crate::packing::check,
    },
    Command {
        name: "solve",
        operation: "Solve",
        words: "SHEET [HEADGATE OUTFALL DELIVERY]",
        counts: &[1, 4],
        says: "Whether a delivery can be carried: its highest settings, a line CHANNEL SETTING for each channel;\n\
               or the nodes of a set that proves that it cannot, and how many they are.",
        json: "answer can, delivery, settings; or answer cannot, delivery, set, size",
        examples: "$ tools/unit solve samples/a-6.txt\n\
                   can 6\n\
                   0 0\n\
                   1 2\n\
                   2 4\n\
                   $ tools/unit solve samples/a-6.txt 0 1 13\n\
                   cannot 13\n\
                   set 0\n\
                   size 1\n\
                   $ tools/unit solve samples/a-6.txt 1 1 6\n\
                   refused 14: headgate and outfall are equal\n\
                   $ tools/unit solve samples/a-6.txt --json\n\
                   {\"operation\": \"Solve\", \"answer\": \"can\", \"delivery\": 6, \"settings\": [0, 2, 4]}\n",
        run: commands::solve,
    },
    Command {
        name: "largest",
        operation: "Largest",
        words: "SHEET [HEADGATE OUTFALL]",
        counts: &[1, 3],
        says: "The largest delivery with its highest settings, and a set that proves the next greater one impossible;\n\
               or none, where nothing at all can be delivered, with a set that proves that.",
        json: "answer largest, largest, settings, set; or answer none, set",
        examples: "$ tools/unit largest samples/a-6.txt\n\
                   largest 12\n\
                   0 5\n\
                   1 3\n\
                   2 4\n\
                   set 0\n\
                   $ tools/unit largest samples/b-0.txt\n\
                   none\n\
                   set 2\n",
        run: commands::largest,
    },
    Command {
        name: "range",
        operation: "Least and largest",
        words: "SHEET [HEADGATE OUTFALL]",
        counts: &[1, 3],
        says: "The least and the largest delivery, each with its highest settings and a set that proves the next one impossible;\n\
               or none, with one set. Every delivery between the two can be carried, and no other.",
        json: "answer range, least, low, below, largest, high, above; or answer none, set",
        examples: "$ tools/unit range samples/a-least-2.txt\n\
                   least 2\n\
                   0 0\n\
                   1 2\n\
                   2 0\n\
                   set 1\n\
                   largest 12\n\
                   0 5\n\
                   1 3\n\
                   2 4\n\
                   set 0\n",
        run: commands::range,
    },
    Command {
        name: "raise",
        operation: "Raise limit",
        words: "SHEET [HEADGATE OUTFALL DELIVERY] CHANNEL",
        counts: &[2, 5],
        says: "The smallest forward limit of a channel, from its present one to 1,000,000, with which the delivery can be carried,\n\
               and the highest settings with it; or none, with a set that proves that 1,000,000 is not enough.",
        json: "answer limit, limit, settings; or answer none, set",
        examples: "$ tools/unit raise samples/a-13.txt 1\n\
                   limit 4\n\
                   0 5\n\
                   1 4\n\
                   2 4\n",
        run: commands::raise,
    },
    Command {
        name: "page",
        operation: "A page",
        words: "SHEET QUESTIONS",
        counts: &[2],
        says: "Up to 64 questions on one sheet. QUESTIONS has a line 'question HEADGATE OUTFALL DELIVERY' for each;\n\
               what stands behind a colon is passed over. An answer has the settings or the nodes of the set in one line.",
        json: "answer page, answers: a list of headgate, outfall, delivery and what solve or a refusal has",
        examples: "$ tools/unit page samples/mill-5.txt samples/mill.page\n\
                   question 0 3 5: can 2 3 2 0 5\n\
                   question 0 3 4: cannot 3\n\
                   question 0 4 5: refused 13\n\
                   question 0 3 10: can 6 4 2 4 6\n\
                   question 0 3 11: cannot 0\n\
                   question 2 2 5: refused 14\n\
                   question 3 0 -5: can 2 3 2 0 5\n\
                   question 0 3 600000001: refused 15\n",
        run: commands::page,
    },
    Command {
        name: "mark",
        operation: "Mark",
        words: "SHEET [HEADGATE OUTFALL] SETTINGS",
        counts: &[2, 4],
        says: "The value that settings carry. SETTINGS has one to a line, alone or behind its channel: what solve prints is such a file.",
        json: "answer value, value",
        examples: "$ tools/unit solve samples/a-6.txt | tools/unit mark samples/a-6.txt -\n\
                   value 6\n\
                   $ printf '5\\n4\\n0\\n' | tools/unit mark samples/a-6.txt -\n\
                   refused 17 place 1 (lowest such channel): a setting is more than the forward limit, or its negative more than the back limit\n",
        run: commands::mark,
    },
    Command {
        name: "levels",
        operation: "Levels from settings",
        words: "SHEET SETTINGS",
        counts: &[2],
        says: "The levels of the faces, a line FACE LEVEL for each, of settings that balance at every node.",
        json: "answer levels, levels",
        examples: "$ printf '0\\n0\\n0\\n' | tools/unit levels samples/a-6.txt -\n\
                   0 0\n\
                   1 0\n\
                   2 0\n\
                   $ tools/unit solve samples/a-6.txt | tools/unit levels samples/a-6.txt -\n\
                   refused 18 place 0 (lowest such node): the sum at a node is not 0; in Mark, a node other than headgate and outfall\n",
        run: commands::levels,
    },
    Command {
        name: "settings",
        operation: "Settings from levels",
        words: "SHEET LEVELS",
        counts: &[2],
        says: "The settings that the levels of the faces give. LEVELS has one to a line, alone or behind its face.",
        json: "answer settings, settings",
        examples: "$ printf '0\\n0\\n0\\n' | tools/unit settings samples/a-6.txt -\n\
                   0 0\n\
                   1 0\n\
                   2 0\n",
        run: commands::settings,
    },
    Command {
        name: "totals",
        operation: "Totals by node",
        words: "SHEET SET",
        counts: &[2],
        says: "The outward total of a set of nodes, and before it a line NODE SUBTOTAL for each of its nodes.\n\
               SET has nodes, any number on a line; of a file that has lines 'set NODE ..', as other commands print them, those.",
        json: "answer totals, nodes, subtotals, total",
        examples: "$ tools/unit solve samples/polder-13.txt | tools/unit totals samples/polder-13.txt -\n\
                   0 12\n\
                   total 12\n",
        run: commands::totals,
    },
    Command {
        name: "key",
        operation: "The program key",
        words: "SHEET [HEADGATE OUTFALL DELIVERY]",
        counts: &[1, 4],
        says: "The text of the answer key for a question and a sheet, byte for byte as the program key prints it.\n\
               A text that says 'refused' has exit status 1.",
        json: "answer key, text",
        examples: "$ tools/unit key samples/a-13.question\n\
                   cannot 13 1\n\
                   0\n\
                   $ tools/unit key samples/a-twisted.question\n\
                   refused 12\n",
        run: commands::key,
    },
    Command {
        name: "practice",
        operation: "Practice sheet",
        words: "ROWS COLUMNS SEED [--out FILE]",
        counts: &[3],
        says: "A grid with limits from a seed, as the text of a sheet; with --out the sheet's bytes go into a file.",
        json: "answer sheet, length, bytes",
        examples: "$ tools/unit practice 2 2 1\n\
                   nodes 4\n\
                   0 1 4 6 38 0\n\
                   2 3 5 7 58 0\n\
                   0 2 0 2 13 0\n\
                   1 3 1 3 15 0\n\
                   $ tools/unit practice 2 17 1\n\
                   refused 23: rows or columns not 2 to 16, or a seed of 2,147,483,648 or more\n",
        run: commands::practice,
    },
    Command {
        name: "dimacs",
        operation: "DIMACS text",
        words: "SHEET [HEADGATE OUTFALL] [--out FILE]",
        counts: &[1, 3],
        says: "The drawing as a maximum flow problem in the text form of the DIMACS challenge, where nodes count from 1.",
        json: "answer dimacs, text",
        examples: "$ tools/unit dimacs samples/a-6.txt\n\
                   p max 2 6\n\
                   n 1 s\n\
                   n 2 t\n\
                   a 1 2 5\n\
                   a 2 1 0\n\
                   a 1 2 3\n\
                   a 2 1 0\n\
                   a 1 2 4\n\
                   a 2 1 0\n\
                   $ tools/unit dimacs samples/mill-5.txt\n\
                   refused 22: some limit, forward or back, is below 0\n",
        run: crate::dimacs::write,
    },
    Command {
        name: "dimacs-show",
        operation: "A DIMACS text in words",
        words: "[TEXT]",
        counts: &[0, 1],
        says: "A DIMACS maximum flow text in words: its counts and ends, each channel with both limits, and the largest delivery, or why the unit\n\
               cannot take it. Arcs may stand in any order; an arc without one back is a channel with back limit 0. Nodes count from 1.",
        json: "answer problem, nodes, source, sink, channels (ends and both limits), largest, why (null where it can be drawn)",
        examples: "$ printf 'p max 3 3\\nn 3 t\\nn 1 s\\na 1 2 5\\na 2 3 4\\na 2 1 1\\n' | tools/unit dimacs-show\n\
                   3 nodes, 3 arcs, from node 1 to node 3\n\
                   1 parts, 0 arcs from a node to itself, 0 arcs of capacity 0\n\
                   channel 0: 1 -> 2 5, back 1\n\
                   channel 1: 2 -> 3 4, back 0\n\
                   largest 4\n",
        run: crate::dimacs::show,
    },
    Command {
        name: "dimacs-sheet",
        operation: "A sheet from a DIMACS text",
        words: "[TEXT] [--out FILE]",
        counts: &[0, 1],
        says: "The text of a sheet with a flat drawing for a DIMACS text, which asks for the largest delivery; with --out its bytes. A text has no\n\
               turns: those of the drawing are found here. Where there is no flat drawing, five nodes that are joined each to each, or three and\n\
               three, and the paths that join them, are named. Nodes of the sheet count from 0.",
        json: "answer sheet, text",
        examples: "$ tools/unit dimacs-sheet samples/a-6.max\n\
                   question 0 1 12\n\
                   nodes 2\n\
                   0 1 4 3 5 0\n\
                   0 1 0 5 3 0\n\
                   0 1 2 1 4 0\n",
        run: crate::dimacs::sheet,
    },
    Command {
        name: "capture",
        operation: "Limits from a capture",
        words: "SHEET [HEADGATE OUTFALL] CAPTURE WINDOW RECORD",
        counts: &[4, 6],
        says: "The forward limits after a record of a capture: of a channel seen in the last WINDOW records the least that they have,\n\
               of another the sheet's; and Largest on them. RECORD counts from 0; 'all' gives the largest delivery after each.\n\
               CAPTURE has a line 'TICK CHANNEL LIMIT' for each record, or the recorder's bytes.",
        json: "answer largest, limits, largest, settings, set; or answer none, limits, set; of all: answer records, records",
        examples: "$ printf '10 0 2\\n11 1 9\\n12 0 4\\n' | tools/unit capture samples/a-6.txt - 2 2\n\
                   limits 4 9 4\n\
                   largest 17\n\
                   0 4\n\
                   1 9\n\
                   2 4\n\
                   set 0\n\
                   $ printf '10 0 2\\n11 1 9\\n12 0 4\\n' | tools/unit capture samples/a-6.txt - 2 all\n\
                   record 0: largest 9\n\
                   record 1: largest 15\n\
                   record 2: largest 17\n",
        run: crate::capture::command,
    },
    Command {
        name: "session",
        operation: "A session",
        words: "SHEET CALLS",
        counts: &[2],
        says: "A session on a sheet that two parties share, 0 and 1, call by call: CALLS has a line '[PARTY] ask HEADGATE OUTFALL DELIVERY',\n\
               '[PARTY] commit' or 'clear' for each; without a party it is 0. Ask gives Solve's answer on the limits still left and keeps it as\n\
               the party's offer; commit lets that in, once until the next clear, and makes the other's offer stale; clear restores the sheet's\n\
               limits and removes both offers. At the end where each party stands, and the limits left, CHANNEL FORWARD BACK.\n\
               With --picture each answered question, call by call, on the limits left at that moment.",
        json: "answer session, calls (each with party, null of clear, call and what solve, done or a refusal has),\n\
               parties (where each stands: none, offer, stale, committed), left (one to a dart)",
        examples: "$ printf 'ask 0 1 6\\n1 ask 0 1 7\\ncommit\\n1 commit\\n1 ask 0 1 7\\n1 commit\\n' | tools/unit session samples/a-6.txt -\n\
                   0 ask 0 1 6: can 0 2 4\n\
                   1 ask 0 1 7: can 0 3 4\n\
                   0 commit: done\n\
                   1 commit: refused 31: the other party's commit made the offer stale\n\
                   1 ask 0 1 7: cannot 0\n\
                   1 commit: refused 28: the party has no offer\n\
                   party 0 has committed\n\
                   party 1 has no offer\n\
                   left\n\
                   0 5 0\n\
                   1 1 2\n\
                   2 0 4\n\
                   $ tools/unit session samples/a-6.txt samples/a-6.session --picture /dev/stderr 2>&1 > /dev/null | grep -o '. ask[^<]*'\n\
                   0 ask 0 1 6: can 6\n\
                   1 ask 0 1 7: cannot 7\n\
                   1 ask 0 1 6: can 6\n",
        run: crate::session::command,
    },
    Command {
        name: "class",
        operation: "Examine, the exam desk",
        words: "SHEET [HEADGATE OUTFALL DELIVERY] CLASS [--csv]",
        counts: &[2, 5],
        says: "The points of each paper of a class, their sum, least and greatest: 4 if its settings carry the delivery, 3 if its claim is\n\
               the largest delivery, 3 if its set proves the next one impossible, shown in this order. CLASS has a line for each paper,\n\
               'NAME: SETTING .. | CLAIM | NODE ..': a setting for each channel, a number or 'none', the nodes of its set; or it is a CSV file\n\
               with the columns name, settings, claim and set. A part that cannot be read earns nothing and is named in a note.\n\
               With --csv the answer is a CSV file: name, points, settings, claim, set, notes.",
        json: "answer class, names, points, parts (three numbers), notes (each by paper), papers, sum, least, greatest, mean (sum and number);\n\
               null where there is none",
        examples: "$ tools/unit class samples/a-6.txt samples/a-6.class\n\
                   paper all right: 10 = 4 + 3 + 3\n\
                   paper settings of 12: 6 = 0 + 3 + 3\n\
                   paper other settings of 6: 7 = 4 + 0 + 3\n\
                   paper above a limit: 3 = 0 + 3 + 0\n\
                   paper claims none: 7 = 4 + 0 + 3\n\
                   paper proves nothing: 7 = 4 + 3 + 0\n\
                   papers 6\n\
                   sum 40\n\
                   least 3\n\
                   greatest 10\n\
                   mean 40/6\n\
                   $ printf 'Ada: 0 2 | 12 | 0\\n' | tools/unit class samples/a-6.txt - --csv\n\
                   name,points,settings,claim,set,notes\n\
                   Ada,6,0,3,3,\"standard input:1: Ada: settings: here are 2, and the sheet has 3 channels\"\n",
        run: crate::class::command,
    },
];

const HEAD: &str = "\
tools/unit COMMAND ..: every operation of the unit by name. It calls the proved library, and what it shows is the library's answer.
";

const FOOT: &str = "\
SHEET is a sheet as bytes or as text, told by the first byte. The text has a line for each of these, blanks between words and comments behind #:

    question HEADGATE OUTFALL DELIVERY    perhaps: the question, unless another is given behind the sheet
    nodes NODES                           once
    outer DART                            perhaps: a dart on the outer face
    TAIL HEAD TURN TURN FORWARD BACK      for each channel: its ends, the turns of its two darts, its two limits
 A file may be '-', standard input. Nodes, channels, darts and faces count from 0.

    --json           the answer as one line of JSON: \"operation\", \"answer\", and the fields that 'tools/unit COMMAND --help' names;
                     a refusal has \"answer\": \"refused\", \"refused\": its number, \"place\" and \"sentence\"
    --picture FILE   a picture (SVG) of the answer as well; several answers, as of a page or a session, stand one below the other
    --style exam     of --picture, with read, write, practice, solve, key and page: an exam page, black and white, with what is asked, lines for
                     the answer, and no answer. --style key is what a picture has otherwise
    --csv            of class: the marks as a CSV file
    --out FILE       of pack, unpack, write, practice, dimacs, dimacs-sheet and class --csv: into a file, and nothing on standard output
    --help, -h       this; behind a command, more about it with examples
    --version        the version of the library's interface

A refusal is told with its number, its place, and the manual's sentence for it. Exit status: 0 an answer, 1 a refusal, 2 bad use, such as a file that cannot
be read: then one line on standard error says what is wrong, FILE:LINE: .. for a text. docs/BENCH.md shows an exam day with these commands.
";

pub fn help(command: Option<&Command>) -> String {
    match command {
        None => {
            let row = |command: &Command| format!("    {:<57}{}\n", format!("{} {}", command.name, command.words), command.operation);
            let rows: String = COMMANDS.iter().map(row).collect();
            format!("{HEAD}\n{rows}\n{FOOT}")
        }
        Some(Command { name, operation, words, says, json, examples, .. }) => {
            let examples: String = examples.lines().map(|line| format!("    {line}\n")).collect();
            format!("tools/unit {name} {words} [--json] [--picture FILE]\n\n{operation}. {says}\n\nWith --json: {json}.\n\n{examples}")
        }
    }
}
