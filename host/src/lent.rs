//! The fourteen tables that every entry is lent, said once, and the macros that put them into declarations and calls.

/// Hands the tables to another macro, in the order of every entry: a table's name, the type of its numbers, how many they are, and
/// whether `sorkhelaw_tables` hands it out.
macro_rules! with_tables {
    ($then:ident { $($given:tt)* }) => {
        $then! { { $($given)* }
            keys: u64 = PLACES, false;
            numbers: u32 = PLACES, true;
            spare: u32 = PLACES, false;
            offs: u64 = PLACES, true;
            order: u32 = 2_048, false;
            starts: u32 = 1_025, false;
            loads: u32 = 2_048, false;
            live: u32 = PLACES, true;
            phi: u32 = PLACES, true;
            roots: u32 = PLACES, true;
            places: u32 = PLACES, true;
            names: u32 = PLACES, true;
            marks: u32 = PLACES, true;
            labels: u32 = 320, true;
        }
    };
}

/// Declares an entry: the file, three buffers for each sheet, the tables, and what comes last. Each slice is a pointer and a length.
macro_rules! declare {
    (
        { $(#[$doc:meta])* fn $entry:ident($($sheet:ident)* $(; $last:ident: $type:ty)?) -> $answer:ty }
        $($table:ident: $number:ty = $count:expr, $handed:expr;)*
    ) => {
        extern "C" {
            $(#[$doc])*
            fn $entry(
                file: *const u8,
                _: usize,
                $($sheet: *mut u64, _: usize, _: *mut u64, _: usize, _: *mut u8, _: usize,)*
                $($table: *mut $number, _: usize,)*
                $($last: $type)?
            ) -> $answer;
        }
    };
}

/// Calls an entry that was declared so.
macro_rules! call {
    (
        { $entry:ident($file:expr $(, $sheet:expr)*; $tables:expr $(; $last:expr)?) }
        $($table:ident: $number:ty = $count:expr, $handed:expr;)*
    ) => {
        $entry(
            $file.as_ptr(),
            $file.len(),
            $(
                $sheet.lines.as_mut_ptr(),
                $sheet.lines.len(),
                $sheet.tokens.as_mut_ptr(),
                $sheet.tokens.len(),
                $sheet.text.as_mut_ptr(),
                $sheet.text.len(),
            )*
            $($tables.$table.as_mut_ptr(), $tables.$table.len(),)*
            $($last)?
        )
    };
}
