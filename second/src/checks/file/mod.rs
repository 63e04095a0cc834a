//! The spreadsheet file.

mod examples;
mod generated;
mod refusals;
mod told;

use super::Checks;
use crate::file::faults::FileFault;
use crate::file::{lines, read};

/// The text with CRLF for every LF.
fn crlf(text: &str) -> String {
    text.replace('\n', "\r\n")
}

/// A file of these records after the header, CRLF for every LF.
fn with_header(records: &str) -> String {
    crlf(&format!(
        "kind,delivery,number,source,n1,n2,n3,n4\n{records}"
    ))
}

impl Checks {
    /// The lines of a file as a report, or its refusal.
    fn lines(&mut self, name: &str, file: impl AsRef<[u8]>, wanted: &str) {
        let (_, found) = lines(file.as_ref());
        self.equal(name, String::from_utf8_lossy(&found).as_ref(), wanted);
    }

    fn refused_16(&mut self, name: &str, file: impl AsRef<[u8]>, place: i64) {
        self.lines(name, file, &format!("refused 16 {place}\n"));
    }

    fn file_read(&mut self, name: &str, file: impl AsRef<[u8]>) {
        self.check(name, read::file(file.as_ref(), FileFault::None).is_ok());
    }
}

pub fn run(checks: &mut Checks) {
    examples::run(checks);
    refusals::run(checks);
    told::run(checks);
    generated::run(checks);
}
