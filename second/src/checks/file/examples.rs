//! The examples of the documents and readings, and what is accepted.

use super::super::examples::{DECK, REPORT};
use super::{with_header, Checks};
use crate::file::{lines, spreadsheet};
use crate::frames::{self, answer_all, put, Held};

/// The records of document 01's hour.
pub const RECORDS: &str = r#"hour,,,,130,10,80,40
delivery,"X",300,"U1",0,50,9750000000,
delivery,"X",300,"P1",0,10,1900000000,
delivery,"X ",280,"U1",15,0,3245000000,
delivery,"X ",280,"P1",0,5,950000000,
internal,,,"U1",35,7005000000,,
internal,,,"P1",15,2850000000,,
end,,,,,,,
"#;

pub fn run(checks: &mut Checks) {
    written(checks);
    not_written(checks);
    labels(checks);
    numbers(checks);
    counts(checks);
    hanging_together(checks);
    frames(checks);
}

impl Checks {
    /// The answer to a deck: the name of the frame and its text.
    fn spreadsheet(&mut self, name: &str, deck: impl AsRef<[u8]>, wanted: (&str, &str)) {
        let (frame, text) = spreadsheet(deck.as_ref());
        let found = (frame, String::from_utf8_lossy(&text).into_owned());
        self.equal(name, found, (wanted.0, wanted.1.to_string()));
    }
}

fn written(checks: &mut Checks) {
    let file = with_header(RECORDS);
    checks.spreadsheet("the file of document 01", DECK, ("spreadsheet", &file));
    checks.lines("its lines", &file, REPORT);
    let nothing = with_header("hour,,,,0,0,0,0\nend,,,,,,,\n");
    checks.spreadsheet("nothing", "H 0\nE\n", ("spreadsheet", &nothing));
    checks.lines("its lines", &nothing, "hour 0 0 0 0\nend\n");
    let deck = "H 0\nF 5 \"a\\\"b\\\\\"\nE\n";
    let file = with_header("hour,,,,5,0,0,5\ninternal,,,\"a\"\"b\\\",5,0,,\nend,,,,,,,\n");
    checks.spreadsheet("escapes are read", deck, ("spreadsheet", &file));
    checks.lines(
        "and written in the report",
        &file,
        "hour 5 0 0 5\ninternal \"a\\\"b\\\\\" 5 0\nend\n",
    );
    let credit = DECK
        .replace("T 30 1 1 60 \"X\"\n", "")
        .replace("1 20 \"X \"\nD 30 50", "1 10 \"X \"\nD 30 100");
    let file = with_header(
        "hour,,,,130,10,10,110\n\
         delivery,\"X \",280,\"U1\",30,-20,2450000000,\n\
         delivery,\"X \",280,\"P1\",0,0,0,\n\
         internal,,,\"U1\",90,17550000000,,\n\
         internal,,,\"P1\",30,5700000000,,\n\
         end,,,,,,,\n",
    );
    checks.spreadsheet("a credit", credit, ("spreadsheet", &file));
}

fn not_written(checks: &mut Checks) {
    for (name, deck, wanted) in [
        ("no file of an empty deck", "", "refused 2 1\n"),
        (
            "none where 10 refuses",
            "H 1\nF 0 \"F\"\nE\n",
            "refused 10 0\n",
        ),
        (
            "none where 12 does",
            "H 0\nF 1 \"F\"\nT 1 1 1 1 \"X\"\nE\n",
            "refused 12 10\n",
        ),
        (
            "none where 13 does",
            "H 0\nU 9 9 3 2 1 1 0 1 0 1 \"U\"\nT 1 1 1 0 \"X\"\nD L 100 \"U\" \"X\"\nE\n",
            "refused 13 10\n",
        ),
    ] {
        checks.spreadsheet(name, deck, ("report", wanted));
    }
    checks.spreadsheet(
        "nor of one too long",
        [b'1'; 8_193],
        ("report", "refused 1 0\n"),
    );
}

fn labels(checks: &mut Checks) {
    for (name, written, label) in [
        ("one quote", r#""""""#, r#""\"""#),
        ("two quotes", r#""""""""#, r#""\"\"""#),
        ("a backslash", r#""\""#, r#""\\""#),
        ("a backslash and a quote", r#""\""""#, r#""\\\"""#),
        ("two backslashes", r#""\\""#, r#""\\\\""#),
        ("an escape as characters", r#""a\n""#, r#""a\\n""#),
        ("a comma", r#"",""#, r#"",""#),
        ("a comma between quotes", r#"""",""""#, r#""\",\"""#),
        ("one space", r#"" ""#, r#"" ""#),
        ("spaces around", r#""  a  ""#, r#""  a  ""#),
        (
            "16 characters",
            r#""ABCDEFGHIJKLMNOP""#,
            r#""ABCDEFGHIJKLMNOP""#,
        ),
        ("32 and 126", r#"" ~""#, r#"" ~""#),
        ("the end", r#""end,,,,,,,""#, r#""end,,,,,,,""#),
        ("a number", r#""-05""#, r#""-05""#),
    ] {
        for column in ["delivery", "source"] {
            let (delivery, source) = match column {
                "delivery" => (written, r#""S""#),
                _ => (r#""D""#, written),
            };
            let file = with_header(&format!(
                "hour,,,,0,0,0,0\ndelivery,{delivery},1,{source},2,3,4,\nend,,,,,,,\n"
            ));
            let text = match column {
                "delivery" => format!("{label} 1 \"S\" 2 3 4"),
                _ => format!("\"D\" 1 {label} 2 3 4"),
            };
            let wanted = format!("hour 0 0 0 0\n{text}\nend\n");
            checks.lines(&format!("{name} as a {column}"), file, &wanted);
        }
        let file = with_header(&format!(
            "hour,,,,0,0,0,0\ninternal,,,{written},5,6,,\nend,,,,,,,\n"
        ));
        let wanted = format!("hour 0 0 0 0\ninternal {label} 5 6\nend\n");
        checks.lines(&format!("{name} as an internal"), file, &wanted);
    }
    let quotes = format!("\"{}\"", "\"\"".repeat(16));
    let file = RECORDS.replace("\"U1\"", &quotes);
    checks.file_read("16 quotes in 34 bytes", with_header(&file));
}

fn numbers(checks: &mut Checks) {
    for number in [
        "0",
        "-1",
        "-7",
        "10",
        "-10",
        "9223372036854775807",
        "-9223372036854775808",
        "9223372036854775806",
        "1000000000000000000",
        "-1000000000000000000",
    ] {
        let file = with_header(&format!(
            "hour,,,,{number},{number},{number},{number}\n\
             delivery,\"D\",{number},\"S\",{number},{number},{number},\n\
             internal,,,\"S\",{number},{number},,\n\
             end,,,,,,,\n"
        ));
        let wanted = format!(
            "hour {number} {number} {number} {number}\n\
             \"D\" {number} \"S\" {number} {number} {number}\n\
             internal \"S\" {number} {number}\n\
             end\n"
        );
        checks.lines(&format!("{number} everywhere"), file, &wanted);
    }
}

fn counts(checks: &mut Checks) {
    let delivery = "delivery,\"D\",1,\"S\",0,0,0,\n";
    let internal = "internal,,,\"S\",0,0,,\n";
    for (deliveries, internals) in [(0, 1), (1, 0), (0, 33), (1, 33), (1_025, 0), (5_000, 70)] {
        let file = with_header(&format!(
            "hour,,,,0,0,0,0\n{}{}end,,,,,,,\n",
            delivery.repeat(deliveries),
            internal.repeat(internals)
        ));
        let wanted = format!(
            "hour 0 0 0 0\n{}{}end\n",
            "\"D\" 1 \"S\" 0 0 0\n".repeat(deliveries),
            "internal \"S\" 0 0\n".repeat(internals)
        );
        let name = format!("{deliveries} deliveries and {internals} internals");
        checks.lines(&name, &file, &wanted);
        let end = 3 + (deliveries + internals) as i64;
        checks.refused_16(&name, file.replace("end", "End"), end);
        checks.refused_16(&name, file.replace("end,,,,,,,\r\n", ""), end);
    }
}

fn hanging_together(checks: &mut Checks) {
    for (name, records) in [
        (
            "a header that does not add up",
            "hour,,,,1,2,3,4\nend,,,,,,,\n",
        ),
        (
            "a delivery from a source without an internal",
            "hour,,,,0,0,0,0\ndelivery,\"D\",1,\"S\",0,0,0,\ninternal,,,\"T\",0,0,,\nend,,,,,,,\n",
        ),
        (
            "one delivery with two numbers",
            "hour,,,,0,0,0,0\ndelivery,\"D\",1,\"S\",0,0,0,\ndelivery,\"D\",-7,\"T\",0,0,0,\n\
             end,,,,,,,\n",
        ),
        (
            "MWh below 0 and open cost below 0",
            "hour,,,,-1,-2,-3,-4\ninternal,,,\"S\",-5,-6,,\nend,,,,,,,\n",
        ),
    ] {
        checks.file_read(name, with_header(records));
    }
}

/// What a run over these frames prints.
fn run_frames(
    input: &[u8],
    held: Held,
    answer: fn(&[u8]) -> (&'static str, Vec<u8>),
) -> (String, Option<bool>) {
    let mut output = Vec::new();
    let whole = answer_all(&mut &input[..], &mut output, held, answer).ok();
    (String::from_utf8_lossy(&output).into_owned(), whole)
}

fn frames(checks: &mut Checks) {
    let nothing = with_header("hour,,,,0,0,0,0\nend,,,,,,,\n");
    let mut decks = Vec::new();
    let mut files = Vec::new();
    let long = "x".repeat(100_000);
    let mut written = true;
    for deck in ["H 0\nE\n", "H 0\n"] {
        written &= put(&mut decks, "deck", deck.as_bytes()).is_ok();
    }
    for file in [&nothing, "", &long] {
        written &= put(&mut files, "file", file.as_bytes()).is_ok();
    }
    checks.check("frames of decks and of files", written);
    let length = nothing.len();
    let answers = format!("spreadsheet {length}\n{nothing}report 12\nrefused 2 2\n");
    checks.equal(
        "files of decks",
        run_frames(&decks, frames::DECK, spreadsheet),
        (answers, Some(true)),
    );
    let answers =
        "report 17\nhour 0 0 0 0\nend\nreport 13\nrefused 16 1\nreport 13\nrefused 16 1\n";
    checks.equal(
        "lines of files",
        run_frames(&files, frames::FILE, lines),
        (answers.to_string(), Some(true)),
    );
    for (name, tail) in [
        ("a deck among files", &b"deck 1\nx"[..]),
        ("a file cut short", b"file 5\nkind"),
        ("a file without a length", b"file\n"),
    ] {
        checks.equal(
            name,
            run_frames(&[&files, tail].concat(), frames::FILE, lines),
            (format!("{answers}frame 4\n"), Some(false)),
        );
    }
}
