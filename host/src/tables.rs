//! The tables of all analyses, lent to the proved code.

use crate::sheet::zeros;

/// Numbers for each place of the largest file that may name a value.
pub const PLACES: usize = 7_696;

macro_rules! define {
    ({} $($table:ident: $number:ty = $count:expr, $handed:expr;)*) => {
        /// The lent tables, by the names that the proved code gives them.
        pub struct Tables {
            $(pub $table: Vec<$number>,)*
        }

        impl Default for Tables {
            fn default() -> Self {
                Tables { $($table: vec![0; $count],)* }
            }
        }

        impl Tables {
            /// Zeros in all tables.
            pub fn clear(&mut self) {
                $(self.$table.fill(0);)*
            }

            /// Spoils all tables, to see that nothing depends on them: numbers that change from place to place, none of them 0.
            pub fn spoil(&mut self, with: u64) {
                $(self.$table.iter_mut().enumerate().for_each(|(i, n)| *n = (i as u64 ^ with) as $number | 1);)*
            }

            /// Whether every table is zeros.
            pub fn is_clean(&self) -> bool {
                true $(&& zeros(&self.$table))*
            }

            /// Whether every table that is not handed out is zeros.
            pub fn is_handed_out(&self) -> bool {
                true $(&& ($handed || zeros(&self.$table)))*
            }
        }
    };
}

with_tables!(define {});
