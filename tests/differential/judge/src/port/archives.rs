//! Whole archives asked of the proved library (feature `port`): its cleaned bytes and its listing beside those of the run over the
//! original, and twins, which differ only in what was erased and must be cleaned to the same bytes.

use super::boundary::{Answer, CLEANED_MAX, LISTING_ROOM, ridgeoven_clean, ridgeoven_list};
use super::lent::Lent;
use super::records;
use crate::cleaning;
use crate::refusals::Number;

type Call = unsafe extern "C" fn(*const u8, usize, *mut u8, usize) -> Answer;

/// The bytes that a call answers, if it writes nothing past them and nothing after a refusal.
fn asked(call: Call, room: usize, bytes: &[u8]) -> Result<Result<Vec<u8>, Number>, String> {
    let mut out = Lent::<u8>::new(room);
    let answer = unsafe { call(bytes.as_ptr(), bytes.len(), out.at(), out.len()) };
    if answer.refusal != 0 {
        out.kept()?;
        return Ok(Err(answer.refusal as Number));
    }
    Ok(Ok(out.taken(answer.length)?.to_vec()))
}

pub fn clean(bytes: &[u8]) -> Result<Result<Vec<u8>, Number>, String> {
    asked(ridgeoven_clean, CLEANED_MAX, bytes)
}

/// What differs between the two, if anything does: the records, the answer of cleaning, then the listing's.
pub fn differs(bytes: &[u8]) -> Option<String> {
    if let Some(wrong) = records::differs(bytes) {
        return Some(wrong);
    }
    let original = cleaning::clean(bytes).map(|cleaned| cleaned.bytes);
    match clean(bytes) {
        Err(wrong) => return Some(format!("cleaning: {wrong}")),
        Ok(port) if port != original => return Some(said("cleaned", &original, &port)),
        Ok(_) => {}
    }
    let (listing, _) = cleaning::answers(bytes);
    let listed = match asked(ridgeoven_list, LISTING_ROOM, bytes) {
        Err(wrong) => return Some(format!("listing: {wrong}")),
        Ok(Ok(listed)) => String::from_utf8_lossy(&listed).into_owned(),
        Ok(Err(number)) => format!("refused {number}\n"),
    };
    (listed != listing).then(|| format!("the port lists:\n{listed}the original:\n{listing}"))
}

fn said(what: &str, original: &Result<Vec<u8>, Number>, port: &Result<Vec<u8>, Number>) -> String {
    let short = |answer: &Result<Vec<u8>, Number>| match answer {
        Ok(bytes) => format!("{} bytes", bytes.len()),
        Err(number) => format!("refused {number}"),
    };
    format!("{what} otherwise: the original {}, the port {}", short(original), short(port))
}

/// A twin of an archive that is cleaned at all is cleaned to the same bytes.
pub fn twin_differs(bytes: &[u8], twin: &[u8]) -> Option<String> {
    match (clean(bytes), clean(twin)) {
        (Err(wrong), _) | (_, Err(wrong)) => Some(wrong),
        (Ok(Err(_)), _) => None,
        (Ok(one), Ok(other)) => (one != other).then(|| said("a twin is cleaned", &one, &other)),
    }
}
