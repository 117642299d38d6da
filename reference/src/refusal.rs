//! Refusal numbers (document 01, "When a sheet or step is turned down").

/// A refusal is its number from document 01's table.
pub type Refusal = u32;

/// A book with an unknown kind, a cut operand, a bike or start out of range, or a 65th command.
pub const BOOK: Refusal = 1;
/// A cut header or site table, a book length past the end, or a site table against its limits.
pub const HEADER: Refusal = 2;
/// An unknown step code, cut operands, a lent log that ends in a cut entry, a lent message of another length or kind.
pub const FORM: Refusal = 3;
/// A number out of range, or a set with a command beyond the book.
pub const RANGE: Refusal = 4;
/// A correct site where a faulty one is meant, or the reverse.
pub const ROLE: Refusal = 5;
/// A step that is not enabled, or a message never sent.
pub const NOT_ENABLED: Refusal = 6;
/// A third log entry of a site in a round.
pub const THIRD_ENTRY: Refusal = 7;
/// A turn in round 33 that would propose.
pub const LAST_ROUND: Refusal = 8;
/// A run over 60,000 bytes, or no room for the deliveries of a lent site.
pub const ROOM: Refusal = 9;
