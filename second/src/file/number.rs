//! A number's field: its digits, and 64 signed bits.

use super::faults::FileFault;

/// Past 64 signed bits, either way.
const PAST: i128 = 1 << 64;

pub fn read(text: &[u8], fault: FileFault) -> Option<i64> {
    let text = bare(text, fault);
    let (minus, digits) = match text.strip_prefix(b"-") {
        Some(digits) => (true, digits),
        None => (false, text),
    };
    if digits.is_empty() {
        let wrong = match fault {
            FileFault::NumberMissing => !minus,
            FileFault::MinusAlone => minus,
            _ => false,
        };
        return wrong.then_some(0);
    }
    let leading = digits.len() > 1 && digits[0] == b'0' && fault != FileFault::LeadingZero;
    let minus_zero = minus && digits == b"0" && fault != FileFault::MinusZero;
    if leading || minus_zero || !digits.iter().all(u8::is_ascii_digit) {
        return None;
    }
    value(minus, digits, fault)
}

/// The field without what a fault takes away.
fn bare(text: &[u8], fault: FileFault) -> &[u8] {
    let quoted = || text.strip_prefix(b"\"")?.strip_suffix(b"\"");
    match fault {
        FileFault::NumberSpaced => text.trim_ascii(),
        FileFault::Plus => text.strip_prefix(b"+").unwrap_or(text),
        FileFault::NumberQuoted => quoted().unwrap_or(text),
        _ => text,
    }
}

fn value(minus: bool, digits: &[u8], fault: FileFault) -> Option<i64> {
    let size = digits.iter().fold(0, |size, digit| {
        let next = size * 10 + i128::from(digit - b'0');
        match fault {
            FileFault::BitsWrap => next % PAST,
            _ => next.min(PAST),
        }
    });
    let value = if minus { -size } else { size };
    let (least, greatest) = (i128::from(i64::MIN), i128::from(i64::MAX));
    let value = match fault {
        FileFault::BitsWrap => value as i64,
        FileFault::BitsCapped => value.clamp(least, greatest) as i64,
        FileFault::ThroughFloats => i64::try_from(value).ok()? as f64 as i64,
        _ => i64::try_from(value).ok()?,
    };
    let refused = match fault {
        FileFault::NegativeRefused => value < 0,
        FileFault::LeastRefused => value == i64::MIN,
        FileFault::GreatestRefused => value == i64::MAX,
        FileFault::Bits32 => i32::try_from(value).is_err(),
        _ => false,
    };
    (!refused).then_some(value)
}
