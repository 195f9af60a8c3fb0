//! The tables of document 01, with what requests have added, each written once. A row is a variant
//! of the table's enum, and a column one of its methods. The reference, the generator, the notation,
//! the comparison and the tests go by the columns.

/// Writes a table: an enum with one variant for each row and one method for each column.
macro_rules! table {
    (
        $(#[$about:meta])*
        $name:ident: $row:ident { $($(#[$says:meta])* $column:ident: $type:ty,)+ }
        $($variant:ident $columns:tt)+
    ) => {
        $(#[$about])*
        #[derive(Clone, Copy, PartialEq, Eq, Hash, Debug)]
        pub enum $name {
            $($variant,)+
        }

        struct $row {
            $($column: $type,)+
        }

        impl $name {
            pub const ALL: [$name; [$($name::$variant,)+].len()] = [$($name::$variant,)+];
            const ROWS: &'static [$row; Self::ALL.len()] = &[$($row $columns,)+];

            $(
                $(#[$says])*
                pub const fn $column(self) -> $type {
                    Self::ROWS[self as usize].$column
                }
            )+
        }
    };
}

mod body;
mod call;
mod kind;
mod program;
mod reason;
mod rule;
pub mod unclaimed;
mod way;

pub use body::{Body, CONTENTS_SIZE, ENTRY_SIZE, LONGEST_SUBMISSION, SHORTEST_SHEET};
pub use call::Call;
pub use kind::{Kind, NO_INVERSE};
pub use program::{
    program_length, read_back_length, Test, INSTRUCTION_SIZE, LONGEST_PROGRAM, LONGEST_READ_BACK,
    MOST_INSTRUCTIONS,
};
pub use reason::Reason;
pub use rule::{Opener, Rule, Taking};
pub use way::{Claimed, Companion, Deducible, SecondWay, Way, IN_KNOWLEDGE};

/// The first `count` of two operands, where the unused ones are 0.
pub fn used(count: usize, operands: &[u8; 2]) -> Option<&[u8]> {
    let (used, unused) = operands.split_at(count);
    unused.iter().all(|&byte| byte == 0).then_some(used)
}

/// The operands in two bytes, 0 where there are fewer.
pub fn padded(operands: &[u8]) -> [u8; 2] {
    let mut padded = [0; 2];
    padded[..operands.len()].copy_from_slice(operands);
    padded
}
