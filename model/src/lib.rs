//! A plain model of selection scripts. A selection is a list of booleans, one for each row, and every rule
//! goes row by row as docs/RULES.md says it. Nothing here is taken from the library, so that agreement of the
//! two means something. The form of scripts is in docs/SCRIPT.md.

/// What a script generator needs, and the three kinds of scripts.
pub mod generate;

/// Making selections: from raw runs, ranges and bytes, and drawn from a seed.
pub mod making;

/// Page lists, and the pages that hold a selected row.
pub mod pages;

/// Commands, and reading one from a line.
pub mod command;

/// Refusals: number, place and layer.
pub mod refusal;

/// The row rules over lists of booleans.
pub mod rules;

/// The sixteen slots, and what a command answers and writes.
pub mod slots;

/// Tokens of a line.
pub mod tokens;

/// No selection has more rows than this.
pub const ROW_LIMIT: u64 = 1_073_741_824;
