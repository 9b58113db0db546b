//! What a file looks like, for those who handed in another.

use crate::bytes::Cursor;
use crate::call::Kind;
use crate::card::Card;
use crate::listed_services::number_text;
use crate::text::bare_lines;
use crate::version::Version;
use std::fmt;

/// What a file looks like.
#[derive(Clone, Copy, Debug, PartialEq, Eq)]
pub enum Looks {
    /// A card as text.
    Card,
    /// A list of calls as text.
    Calls,
    /// A sheet.
    Sheet,
}

/// With its article.
impl fmt::Display for Looks {
    fn fmt(&self, f: &mut fmt::Formatter<'_>) -> fmt::Result {
        f.write_str(match self {
            Looks::Card => "a card",
            Looks::Calls => "a list of calls",
            Looks::Sheet => "a sheet",
        })
    }
}

/// What a file looks like by its front: a known version and the length of a card, a card's field,
/// a call's kind. None where it has none of them.
///
/// ```
/// use heat_battery::{looks, Card, Looks};
///
/// assert_eq!(looks(Card::example().to_string().as_bytes()), Some(Looks::Card));
/// assert_eq!(looks(b"# night\nelectric power=3 target=1\n"), Some(Looks::Calls));
/// assert_eq!(looks(b"once upon a time"), None);
/// ```
pub fn looks(bytes: &[u8]) -> Option<Looks> {
    let mut front = Cursor(bytes);
    let version = front.byte().and_then(Version::from_number);
    if let (Some(version), Some(length)) = (version, front.short()) {
        if Card::has_length(version, usize::from(length)) {
            return Some(Looks::Sheet);
        }
    }
    let text = std::str::from_utf8(bytes).ok()?;
    let (_, line) = bare_lines(text).next()?;
    let is_kind = |word: &str| Kind::ALL.iter().any(|kind| kind.name() == word);
    let is_field = |word: &str| {
        let mut fields = Card::FIELDS.iter().chain([&Card::FLOOR]);
        number_text(word).is_some() || fields.any(|field| field.name == word)
    };
    match line.split_once('=') {
        Some((name, _)) if is_field(name.trim()) => Some(Looks::Card),
        _ if line.split_whitespace().next().is_some_and(is_kind) => Some(Looks::Calls),
        _ => None,
    }
}
