//! Damage to a whole record, to the header, or to the order of records.

use super::Texts;
use crate::draw::Draw;
use crate::file::{Kind, KINDS};

/// A damage with its name.
pub type Damage = (&'static str, fn(&mut Draw, &mut Texts));

/// Any record but the header.
fn any(draw: &mut Draw, texts: &Texts) -> usize {
    draw.between(1, texts.len() as i64 - 1) as usize
}

/// The places of the records of a kind.
fn of_kind(texts: &Texts, kind: &[u8]) -> Vec<usize> {
    (1..texts.len())
        .filter(|&at| texts[at][0] == kind)
        .collect()
}

fn one_of_kind(draw: &mut Draw, texts: &Texts, kind: &[u8]) -> usize {
    draw.pick(&of_kind(texts, kind))
}

/// Takes a record out and puts it in at a place of those left.
fn shift(texts: &mut Texts, from: usize, to: usize) {
    let record = texts.remove(from);
    texts.insert(to, record);
}

fn double(draw: &mut Draw, texts: &mut Texts, kind: &[u8]) {
    let at = one_of_kind(draw, texts, kind);
    texts.insert(at, texts[at].clone());
}

fn remove(draw: &mut Draw, texts: &mut Texts, kind: &[u8]) {
    texts.remove(one_of_kind(draw, texts, kind));
}

/// A word with a letter changed, left out or put in.
fn misspell(draw: &mut Draw, word: &mut Vec<u8>) {
    let at = draw.below(word.len());
    match draw.below(3) {
        0 => word[at] = if word[at] == b'x' { b'y' } else { b'x' },
        1 => drop(word.remove(at)),
        _ => word.push(b's'),
    }
}

fn respell_kind(draw: &mut Draw, texts: &mut Texts, spell: impl Fn(&[u8]) -> Vec<u8>) {
    let at = any(draw, texts);
    texts[at][0] = spell(&texts[at][0]);
}

fn last(texts: &Texts) -> usize {
    texts.len() - 1
}

pub const DAMAGES: &[Damage] = &[
    ("header: kind changed", |draw, texts| {
        misspell(draw, &mut texts[0][0])
    }),
    ("header: delivery changed", |draw, texts| {
        misspell(draw, &mut texts[0][1])
    }),
    ("header: number changed", |draw, texts| {
        misspell(draw, &mut texts[0][2])
    }),
    ("header: source changed", |draw, texts| {
        misspell(draw, &mut texts[0][3])
    }),
    ("header: n1 changed", |draw, texts| {
        misspell(draw, &mut texts[0][4])
    }),
    ("header: n2 changed", |draw, texts| {
        misspell(draw, &mut texts[0][5])
    }),
    ("header: n3 changed", |draw, texts| {
        misspell(draw, &mut texts[0][6])
    }),
    ("header: n4 changed", |draw, texts| {
        misspell(draw, &mut texts[0][7])
    }),
    ("header in another case", |draw, texts| {
        let at = draw.below(8);
        texts[0][at].make_ascii_uppercase();
    }),
    ("header all in capitals", |_, texts| {
        texts[0]
            .iter_mut()
            .for_each(|name| name.make_ascii_uppercase());
    }),
    ("byte order mark", |_, texts| {
        drop(texts[0][0].splice(0..0, *b"\xef\xbb\xbf"))
    }),
    ("header quoted", |_, texts| {
        for name in &mut texts[0] {
            *name = [b"\"", &name[..], b"\""].concat();
        }
    }),
    ("header's fields exchanged", |draw, texts| {
        let at = draw.below(7);
        texts[0].swap(at, at + 1);
    }),
    ("header with a field more", |_, texts| {
        texts[0].push(b"n5".to_vec())
    }),
    ("header with a field less", |_, texts| drop(texts[0].pop())),
    ("header missing", |_, texts| drop(texts.remove(0))),
    ("header twice", |_, texts| texts.insert(0, texts[0].clone())),
    ("kind misspelt", |draw, texts| {
        let at = any(draw, texts);
        misspell(draw, &mut texts[at][0]);
    }),
    ("kind in capitals", |draw, texts| {
        respell_kind(draw, texts, |kind| kind.to_ascii_uppercase());
    }),
    ("kind with a capital", |draw, texts| {
        respell_kind(draw, texts, |kind| {
            [&kind[..1].to_ascii_uppercase(), &kind[1..]].concat()
        });
    }),
    ("kind quoted", |draw, texts| {
        respell_kind(draw, texts, |kind| [b"\"", kind, b"\""].concat());
    }),
    ("kind missing", |draw, texts| {
        respell_kind(draw, texts, |_| Vec::new())
    }),
    ("space before a kind", |draw, texts| {
        respell_kind(draw, texts, |kind| [b" ", kind].concat());
    }),
    ("space after a kind", |draw, texts| {
        respell_kind(draw, texts, |kind| [kind, b" "].concat());
    }),
    ("kind of another record", |draw, texts| {
        let at = any(draw, texts);
        let names = KINDS.map(Kind::name).into_iter();
        let others: Vec<_> = names.filter(|name| texts[at][0] != *name).collect();
        texts[at][0] = draw.pick(&others).to_vec();
    }),
    ("field more, empty", |draw, texts| {
        let at = any(draw, texts);
        texts[at].push(Vec::new());
    }),
    ("field more, filled", |draw, texts| {
        let at = any(draw, texts);
        let field = draw.pick(&[&b"0"[..], b"\"X\"", b" ", b"x"]);
        texts[at].push(field.to_vec());
    }),
    ("last field missing", |draw, texts| {
        let at = any(draw, texts);
        texts[at].pop();
    }),
    ("last field of a delivery missing", |draw, texts| {
        let at = one_of_kind(draw, texts, b"delivery");
        texts[at].pop();
    }),
    ("field missing within", |draw, texts| {
        let at = any(draw, texts);
        let field = draw.between(1, 6) as usize;
        texts[at].remove(field);
    }),
    ("kind alone", |draw, texts| {
        let at = any(draw, texts);
        texts[at].truncate(1);
    }),
    ("n4 of a delivery filled", |draw, texts| {
        let at = one_of_kind(draw, texts, b"delivery");
        texts[at][7] = draw.pick(&[&b"0"[..], b"5", b"x"]).to_vec();
    }),
    ("internal's label under delivery", |draw, texts| {
        let at = one_of_kind(draw, texts, b"internal");
        texts[at].swap(1, 3);
    }),
    ("hour missing", |_, texts| drop(texts.remove(1))),
    ("hour twice", |_, texts| texts.insert(1, texts[1].clone())),
    ("hour second", |_, texts| texts.swap(1, 2)),
    ("hour last", |_, texts| shift(texts, 1, last(texts) - 1)),
    ("hour after the end", |_, texts| {
        shift(texts, 1, last(texts))
    }),
    ("end missing", |_, texts| drop(texts.pop())),
    ("end first", |_, texts| shift(texts, last(texts), 1)),
    ("end second", |_, texts| shift(texts, last(texts), 2)),
    ("end within", |draw, texts| {
        let to = draw.between(1, last(texts) as i64 - 1) as usize;
        shift(texts, last(texts), to);
    }),
    ("end twice", |_, texts| {
        texts.push(texts[last(texts)].clone())
    }),
    ("end alone", |_, texts| drop(texts.drain(1..last(texts)))),
    ("hour alone", |_, texts| texts.truncate(2)),
    ("delivery after an internal", |_, texts| {
        let internal = of_kind(texts, b"internal")[0];
        shift(texts, internal - 1, internal);
    }),
    ("internal before a delivery", |draw, texts| {
        let from = one_of_kind(draw, texts, b"internal");
        shift(texts, from, 2);
    }),
    ("internal before the hour", |draw, texts| {
        let from = one_of_kind(draw, texts, b"internal");
        shift(texts, from, 1);
    }),
    ("record after the end", |draw, texts| {
        let at = any(draw, texts);
        texts.push(texts[at].clone());
    }),
    ("records after the end", |draw, texts| {
        let at = any(draw, texts);
        texts.extend([texts[at].clone(), texts[last(texts)].clone()]);
    }),
    ("out of order, then misspelt", |_, texts| {
        texts.swap(1, 2);
        let end = last(texts);
        texts[end][0] = b"ende".to_vec();
    }),
    ("records exchanged", |draw, texts| {
        let one = any(draw, texts);
        let others: Vec<usize> = (1..texts.len())
            .filter(|&at| texts[at][0] != texts[one][0])
            .collect();
        texts.swap(one, draw.pick(&others));
    }),
];

/// What leaves a good file of other lines, or of the same.
pub const HARMLESS: &[Damage] = &[
    ("delivery missing", |draw, texts| {
        remove(draw, texts, b"delivery")
    }),
    ("delivery twice", |draw, texts| {
        double(draw, texts, b"delivery")
    }),
    ("internal missing", |draw, texts| {
        remove(draw, texts, b"internal")
    }),
    ("internal twice", |draw, texts| {
        double(draw, texts, b"internal")
    }),
    ("lines exchanged", |draw, texts| {
        let kind = draw.pick(&[&b"delivery"[..], b"internal"]);
        let (one, other) = (
            one_of_kind(draw, texts, kind),
            one_of_kind(draw, texts, kind),
        );
        texts.swap(one, other);
    }),
];
