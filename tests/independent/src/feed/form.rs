//! Which form a feed has: its first bytes tell.

/// The third byte of a binary feed is the version of its first entry, 1, and
/// no text has that character.
const TELLING: usize = 3;

/// Whether a feed that begins so is a binary one: one of its first three bytes
/// is a control character other than a blank or a line end.
pub fn is_binary(feed: &[u8]) -> bool {
    let control = |byte: &u8| byte.is_ascii_control() && !byte.is_ascii_whitespace();
    feed.iter().take(TELLING).any(control)
}

/// Whether more bytes can't change that.
pub fn is_told(feed: &[u8]) -> bool {
    feed.len() >= TELLING || is_binary(feed)
}
