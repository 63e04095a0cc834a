//! Every kind of damage with the number of the record it is in.

use super::examples::RECORDS;
use super::{with_header, Checks};

/// A name, what is replaced once in the file of document 01, by what, and the
/// place of the refusal. Its records are the header 1, hour 2, deliveries 3 to
/// 6, internals 7 and 8, end 9.
type Case = (&'static str, &'static str, &'static str, i64);

const HEADERS: &[Case] = &[
    ("kind changed", "kind,", "kinds,", 1),
    ("delivery changed", "delivery,n", "deliver,n", 1),
    ("number changed", "number", "numbers", 1),
    ("source changed", "source", "sauce", 1),
    ("n1 changed", "n1", "n0", 1),
    ("n2 changed", "n2", "n3", 1),
    ("n3 changed", "n3", "N3", 1),
    ("n4 changed", "n4", "n5", 1),
    ("another case", "kind", "Kind", 1),
    ("a byte order mark", "kind", "\u{feff}kind", 1),
    ("a field less", ",n4", "", 1),
    ("a field more", ",n4", ",n4,n5", 1),
    ("an empty field more", ",n4", ",n4,", 1),
    ("a quoted name", "kind", "\"kind\"", 1),
    ("a space", "kind,", "kind, ", 1),
    ("a space behind", "n4", "n4 ", 1),
    ("a blank line before", "kind", "\r\nkind", 1),
    ("CR missing", "n4\r\n", "n4\n", 1),
    ("LF missing", "n4\r\n", "n4\r", 1),
    ("CRLF missing", "n4\r\n", "n4", 1),
    ("LF before CR", "n4\r\n", "n4\n\r", 1),
    ("CR twice", "n4\r\n", "n4\r\r\n", 1),
    (
        "header missing",
        "kind,delivery,number,source,n1,n2,n3,n4\r\n",
        "",
        1,
    ),
    (
        "header twice",
        "hour",
        "kind,delivery,number,source,n1,n2,n3,n4\r\nhour",
        2,
    ),
];

const LABELS: &[Case] = &[
    ("unquoted", "\"U1\"", "U1", 3),
    ("unquoted delivery", "\"X \"", "X ", 5),
    ("unquoted internal", ",,,\"U1\"", ",,,U1", 7),
    ("single quotes", "\"U1\"", "'U1'", 3),
    ("empty", "\"U1\"", "\"\"", 3),
    ("no field", "\"U1\"", "", 3),
    ("empty delivery", "\"X\"", "\"\"", 3),
    ("empty internal", ",,,\"P1\"", ",,,\"\"", 8),
    ("17 characters", "\"P1\"", "\"ABCDEFGHIJKLMNOPQ\"", 4),
    ("17 spaces", "\"P1\"", "\"                 \"", 4),
    ("character 31", "\"P1\"", "\"P\u{1f}\"", 4),
    ("NUL", "\"P1\"", "\"\0\"", 4),
    ("a tab", "\"P1\"", "\"\tP1\"", 4),
    ("CR within", "\"P1\"", "\"P\r1\"", 4),
    ("LF within", "\"P1\"", "\"P\n1\"", 4),
    ("CRLF within", "\"P1\"", "\"P\r\n1\"", 4),
    ("character 127", "\"P1\"", "\"P\u{7f}\"", 4),
    ("bytes above 127", "\"P1\"", "\"\u{e9}\"", 4),
    ("a quote not doubled", "\"P1\"", "\"P\"1\"", 4),
    ("a quote alone", "\"P1\"", "\"\"\"", 4),
    ("three quotes between", "\"P1\"", "\"\"\"\"\"", 4),
    ("a deck's escape", "\"P1\"", "\"P\\\"1\"", 4),
    ("no closing quote", "\"P1\"", "\"P1", 4),
    ("no opening quote", "\"P1\"", "P1\"", 4),
    ("text after the quote", "\"P1\"", "\"P1\"x", 4),
    ("a space after the quote", "\"P1\"", "\"P1\" ", 4),
    ("a space before the quote", "\"P1\"", " \"P1\"", 4),
    ("text before the quote", "\"P1\"", "x\"P1\"", 4),
    ("a number for a label", "\"P1\"", "7", 4),
];

const NUMBERS: &[Case] = &[
    ("-0", ",80,", ",-0,", 2),
    ("-0 as a delivery's number", ",300,", ",-0,", 3),
    ("-0 at a record's end", "10,80,40", "10,80,-0", 2),
    ("-00", ",80,", ",-00,", 2),
    ("+5", ",80,", ",+5,", 2),
    ("+0", ",80,", ",+0,", 2),
    ("00", ",80,", ",00,", 2),
    ("05", ",280,", ",0280,", 5),
    ("-05", ",280,", ",-05,", 5),
    ("05 as an open cost", "7005000000", "07005000000", 7),
    ("- alone", ",280,", ",-,", 5),
    ("--5", ",280,", ",--5,", 5),
    ("5-", ",280,", ",5-,", 5),
    ("2^63", "9750000000", "9223372036854775808", 3),
    ("-2^63 - 1", "9750000000", "-9223372036854775809", 3),
    ("2^64", "9750000000", "18446744073709551616", 3),
    ("2^64 + 5", "9750000000", "18446744073709551621", 3),
    ("20 digits", "2850000000", "10000000000000000000", 8),
    ("-20 digits", "2850000000", "-10000000000000000000", 8),
    (
        "30 digits",
        "2850000000",
        "123456789012345678901234567890",
        8,
    ),
    (
        "2^128",
        "2850000000",
        "340282366920938463463374607431768211456",
        8,
    ),
    ("a space before", ",15,0,", ", 15,0,", 5),
    ("a space after", ",15,0,", ",15 ,0,", 5),
    ("a quoted number", ",15,0,", ",\"15\",0,", 5),
    ("a fraction", ",15,0,", ",15.0,0,", 5),
    ("an exponent", ",15,0,", ",1e1,0,", 5),
    ("a letter", ",15,0,", ",x,0,", 5),
    ("hex", ",15,0,", ",0xf,0,", 5),
    ("thousands", ",15,0,", ",1,500,0,", 5),
    ("a label for a number", ",15,0,", ",\"X\",0,", 5),
    ("a missing hour amount", ",80,", ",,", 2),
    ("a missing number", ",300,", ",,", 3),
    ("a missing amount", ",15,0,", ",15,,", 5),
    ("a missing cost", "7005000000", "", 7),
];

const FIELDS: &[Case] = &[
    ("\"\" in an hour", "hour,", "hour,\"\"", 2),
    ("\"\" for n4", "9750000000,", "9750000000,\"\"", 3),
    ("\"\" in an internal", "internal,", "internal,\"\"", 7),
    ("\"\" in an end", "end,", "end,\"\"", 9),
    ("n4 of a delivery filled", "9750000000,", "9750000000,0", 3),
    ("n3 of an internal filled", "7005000000,", "7005000000,0", 7),
    (
        "n4 of an internal filled",
        "7005000000,,",
        "7005000000,,0",
        7,
    ),
    (
        "number of an internal filled",
        "internal,,",
        "internal,,7",
        7,
    ),
    ("delivery of an hour filled", "hour,", "hour,\"X\"", 2),
    ("a space in an unused field", "end,", "end, ", 9),
    ("end filled at its end", "end,,,,,,,", "end,,,,,,,0", 9),
    (
        "an internal's label under delivery",
        "internal,,,\"P1\"",
        "internal,\"P1\",,",
        8,
    ),
    ("a field more in an hour", "80,40", "80,40,", 2),
    (
        "a field more in a delivery",
        "1900000000,",
        "1900000000,,",
        4,
    ),
    (
        "a field more in an internal",
        "2850000000,,",
        "2850000000,,,",
        8,
    ),
    ("a field more in an end", "end,,,,,,,", "end,,,,,,,,", 9),
    ("a field less in an hour", ",80,40", ",80", 2),
    ("a field less in a delivery", "1900000000,", "1900000000", 4),
    (
        "a field less in an internal",
        "2850000000,,",
        "2850000000,",
        8,
    ),
    ("a field less in an end", "end,,,,,,,", "end,,,,,,", 9),
    ("end alone", "end,,,,,,,", "end", 9),
    ("Hour", "hour", "Hour", 2),
    ("DELIVERY", "\r\ndelivery,\"X \"", "\r\nDELIVERY,\"X \"", 5),
    ("internals", "internal,", "internals,", 7),
    ("END", "end", "END", 9),
    ("hours", "hour", "hours", 2),
    ("a kind quoted", "hour", "\"hour\"", 2),
    ("no kind", "hour", "", 2),
    ("another kind", "internal,", "refused,", 7),
    ("a space before a kind", "hour", " hour", 2),
    ("a space after a kind", "internal,", "internal ,", 7),
    ("semicolons", "hour,,,,", "hour;;;;", 2),
];

const ENDS: &[Case] = &[
    ("CR missing", "80,40\r\n", "80,40\n", 2),
    (
        "CR missing at a delivery",
        "9750000000,\r\n",
        "9750000000,\n",
        3,
    ),
    ("LF missing", "80,40\r\n", "80,40\r", 2),
    (
        "LF missing at an internal",
        "7005000000,,\r\n",
        "7005000000,,\r",
        7,
    ),
    ("CRLF missing", "80,40\r\n", "80,40", 2),
    ("LF before CR", "80,40\r\n", "80,40\n\r", 2),
    ("CR twice", "80,40\r\n", "80,40\r\r\n", 2),
    ("LF twice", "80,40\r\n", "80,40\r\n\n", 3),
    ("a blank line", "80,40\r\n", "80,40\r\n\r\n", 3),
    ("a space before CR", "80,40\r\n", "80,40 \r\n", 2),
    ("NUL before CR", "80,40\r\n", "80,40\0\r\n", 2),
    ("CR missing at the end", "end,,,,,,,\r\n", "end,,,,,,,\n", 9),
    ("last LF missing", "end,,,,,,,\r\n", "end,,,,,,,\r", 9),
    ("last CRLF missing", "end,,,,,,,\r\n", "end,,,,,,,", 9),
];

const HOUR: &str = "hour,,,,130,10,80,40\r\n";
const FIRST: &str = "delivery,\"X\",300,\"U1\",0,50,9750000000,\r\n";
const INTERNAL: &str = "internal,,,\"P1\",15,2850000000,,\r\n";
const END: &str = "end,,,,,,,\r\n";

const ORDER: &[Case] = &[
    ("no hour", HOUR, "", 2),
    ("no end", END, "", 9),
    ("an end first", HOUR, "end,,,,,,,\r\nhour,,,,0,0,0,0\r\n", 2),
    ("an end after the hour", FIRST, END, 4),
    ("hour twice", FIRST, HOUR, 3),
    ("hour among the internals", INTERNAL, HOUR, 8),
    (
        "hour second",
        HOUR,
        "delivery,\"X\",1,\"U\",0,0,0,\r\nhour,,,,0,0,0,0\r\n",
        2,
    ),
    (
        "an internal first",
        HOUR,
        "internal,,,\"U\",0,0,,\r\nhour,,,,0,0,0,0\r\n",
        2,
    ),
    (
        "a delivery after an internal",
        INTERNAL,
        "delivery,\"X\",1,\"U\",0,0,0,\r\n",
        8,
    ),
    (
        "an internal before the deliveries",
        FIRST,
        "internal,,,\"P1\",15,2850000000,,\r\n",
        4,
    ),
    (
        "out of order before another form",
        "delivery,\"X \",280,\"U1\",15,0,3245000000,\r\n",
        "hour,,,,0,0,0,0\r\nx\r\n",
        5,
    ),
    ("a byte after the end", END, "end,,,,,,,\r\n ", 10),
    ("LF after the end", END, "end,,,,,,,\r\n\n", 10),
    ("a blank line after the end", END, "end,,,,,,,\r\n\r\n", 10),
    ("a second end", END, "end,,,,,,,\r\nend,,,,,,,\r\n", 10),
    (
        "a delivery after the end",
        END,
        "end,,,,,,,\r\ndelivery,\"X\",1,\"U\",0,0,0,\r\nend,,,,,,,\r\n",
        10,
    ),
    (
        "a header after the end",
        END,
        "end,,,,,,,\r\nkind,delivery,number,source,n1,n2,n3,n4\r\n",
        10,
    ),
    ("NUL after the end", END, "end,,,,,,,\r\n\0", 10),
];

const ALL: [&[Case]; 6] = [HEADERS, LABELS, NUMBERS, FIELDS, ENDS, ORDER];

fn damage(&(_, old, new, _): &Case) -> String {
    with_header(RECORDS).replacen(old, new, 1)
}

/// The damaged files of all cases.
pub fn damaged() -> Vec<String> {
    ALL.concat().iter().map(damage).collect()
}

pub fn run(checks: &mut Checks) {
    for case in ALL.concat() {
        let (name, _, _, place) = case;
        checks.refused_16(&format!("file with {name}"), damage(&case), place);
    }
    every_end(checks);
    cut_off(checks);
    shortest(checks);
}

/// LF alone, or CR alone, in the whole file.
fn every_end(checks: &mut Checks) {
    let file = with_header(RECORDS);
    checks.refused_16("LF alone everywhere", file.replace("\r\n", "\n"), 1);
    checks.refused_16("CR alone everywhere", file.replace("\r\n", "\r"), 1);
    checks.refused_16("two files", file.repeat(2), 10);
}

/// The file cut after each of its bytes: the place is one more than the whole
/// records left.
fn cut_off(checks: &mut Checks) {
    let file = with_header(RECORDS);
    for length in 0..file.len() {
        let cut = &file[..length];
        let whole = cut.matches("\r\n").count() as i64;
        checks.refused_16(&format!("{length} bytes of a file"), cut, whole + 1);
    }
}

fn shortest(checks: &mut Checks) {
    for (name, file, place) in [
        ("an empty file", "".to_string(), 1),
        ("CRLF alone", "\r\n".to_string(), 1),
        ("LF alone", "\n".to_string(), 1),
        ("header alone", with_header(""), 2),
        ("header and a blank line", with_header("\n"), 2),
        ("header and end", with_header("end,,,,,,,\n"), 2),
        ("header and hour", with_header("hour,,,,0,0,0,0\n"), 3),
        (
            "header, hour, internal",
            with_header("hour,,,,0,0,0,0\ninternal,,,\"U\",0,0,,\n"),
            4,
        ),
        ("a report", "hour 0 0 0 0\nend\n".to_string(), 1),
    ] {
        checks.refused_16(name, file, place);
    }
}
