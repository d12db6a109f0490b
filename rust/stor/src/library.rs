//! The library's functions, with a slice in place of each pointer and length.
//! All that is `unsafe` stands here. Programs use [`Memory`](crate::Memory);
//! these are for those that own the lent memory themselves.
//!
//! Why these calls are sound: a pointer and its length come from one slice, so
//! that many numbers may be read there, and also written where the slice is
//! `&mut`; for as long as the call lasts nothing else reaches what is written,
//! since `&mut` slices overlap with no other; every element is a number of
//! which every bit pattern is a value; and the library keeps no pointer and
//! has no state of its own. Its functions ask nothing more of a caller.

extern "C" {
    fn stor_enter_file(
        file: *const u8,
        file_len: usize,
        meter: *mut i32,
        meter_len: usize,
        revisions: *mut u8,
        revisions_len: usize,
    ) -> u64;

    fn stor_settle_file(
        file: *const u8,
        file_len: usize,
        meter: *mut i32,
        meter_len: usize,
        revisions: *mut u8,
        revisions_len: usize,
        lines: *mut i64,
        lines_len: usize,
        sums: *mut i64,
        sums_len: usize,
    ) -> u64;

    fn stor_settle_tables(
        contract: *const u32,
        contract_len: usize,
        windows: *const u32,
        windows_len: usize,
        instructions: *const u32,
        instructions_len: usize,
        defaults: *const u32,
        defaults_len: usize,
        meter: *const i32,
        meter_len: usize,
        revisions: *const u8,
        revisions_len: usize,
        lines: *mut i64,
        lines_len: usize,
        sums: *mut i64,
        sums_len: usize,
    ) -> u8;

    fn stor_write_tables(
        contract: *const u32,
        contract_len: usize,
        windows: *const u32,
        windows_len: usize,
        instructions: *const u32,
        instructions_len: usize,
        defaults: *const u32,
        defaults_len: usize,
        meter: *const i32,
        meter_len: usize,
        revisions: *const u8,
        revisions_len: usize,
        file: *mut u8,
        file_len: usize,
    ) -> u64;

    fn stor_write_file(
        file: *const u8,
        file_len: usize,
        meter: *mut i32,
        meter_len: usize,
        revisions: *mut u8,
        revisions_len: usize,
        written: *mut u8,
        written_len: usize,
    ) -> u64;

    fn stor_watch_file(
        file: *const u8,
        file_len: usize,
        meter: *mut i32,
        meter_len: usize,
        revisions: *mut u8,
        revisions_len: usize,
        month: *mut u32,
        month_len: usize,
    ) -> u64;

    fn stor_watch_tables(
        contract: *const u32,
        contract_len: usize,
        windows: *const u32,
        windows_len: usize,
        instructions: *const u32,
        instructions_len: usize,
        defaults: *const u32,
        defaults_len: usize,
        month: *mut u32,
        month_len: usize,
    ) -> u8;

    fn stor_watch_step(
        month: *const u32,
        month_len: usize,
        totals: *mut i64,
        totals_len: usize,
        instruction: u32,
        minute: u16,
        kw: i32,
        base: *const i32,
        base_len: usize,
    ) -> u8;

    fn stor_day_file(
        file: *const u8,
        file_len: usize,
        meter: *mut i32,
        meter_len: usize,
        revisions: *mut u8,
        revisions_len: usize,
        day: u32,
        holidays: *const u32,
        holidays_len: usize,
    ) -> u64;

    fn stor_day_tables(
        contract: *const u32,
        contract_len: usize,
        windows: *const u32,
        windows_len: usize,
        instructions: *const u32,
        instructions_len: usize,
        defaults: *const u32,
        defaults_len: usize,
        day: u32,
        holidays: *const u32,
        holidays_len: usize,
    ) -> u64;
}

/// The refusal's number, 0 for none, and 256 times the offset.
pub fn enter_file(file: &[u8], meter: &mut [i32], revisions: &mut [u8]) -> u64 {
    // SAFETY: as said at the top.
    unsafe {
        stor_enter_file(
            file.as_ptr(),
            file.len(),
            meter.as_mut_ptr(),
            meter.len(),
            revisions.as_mut_ptr(),
            revisions.len(),
        )
    }
}

/// The refusal's number, 0 for none, and 256 times the offset.
pub fn settle_file(
    file: &[u8],
    meter: &mut [i32],
    revisions: &mut [u8],
    lines: &mut [i64],
    sums: &mut [i64],
) -> u64 {
    // SAFETY: as said at the top.
    unsafe {
        stor_settle_file(
            file.as_ptr(),
            file.len(),
            meter.as_mut_ptr(),
            meter.len(),
            revisions.as_mut_ptr(),
            revisions.len(),
            lines.as_mut_ptr(),
            lines.len(),
            sums.as_mut_ptr(),
            sums.len(),
        )
    }
}

/// The refusal's number, 0 for none.
// One slice for each of the function's pointers.
#[allow(clippy::too_many_arguments)]
pub fn settle_tables(
    contract: &[u32],
    windows: &[u32],
    instructions: &[u32],
    defaults: &[u32],
    meter: &[i32],
    revisions: &[u8],
    lines: &mut [i64],
    sums: &mut [i64],
) -> u8 {
    // SAFETY: as said at the top.
    unsafe {
        stor_settle_tables(
            contract.as_ptr(),
            contract.len(),
            windows.as_ptr(),
            windows.len(),
            instructions.as_ptr(),
            instructions.len(),
            defaults.as_ptr(),
            defaults.len(),
            meter.as_ptr(),
            meter.len(),
            revisions.as_ptr(),
            revisions.len(),
            lines.as_mut_ptr(),
            lines.len(),
            sums.as_mut_ptr(),
            sums.len(),
        )
    }
}

/// The refusal's number, 0 for none, and 256 times the file's length.
pub fn write_tables(
    contract: &[u32],
    windows: &[u32],
    instructions: &[u32],
    defaults: &[u32],
    meter: &[i32],
    revisions: &[u8],
    file: &mut [u8],
) -> u64 {
    // SAFETY: as said at the top.
    unsafe {
        stor_write_tables(
            contract.as_ptr(),
            contract.len(),
            windows.as_ptr(),
            windows.len(),
            instructions.as_ptr(),
            instructions.len(),
            defaults.as_ptr(),
            defaults.len(),
            meter.as_ptr(),
            meter.len(),
            revisions.as_ptr(),
            revisions.len(),
            file.as_mut_ptr(),
            file.len(),
        )
    }
}

/// The refusal's number, 0 for none, and 256 times the offset, or the length
/// of what was written.
pub fn write_file(file: &[u8], meter: &mut [i32], revisions: &mut [u8], written: &mut [u8]) -> u64 {
    // SAFETY: as said at the top.
    unsafe {
        stor_write_file(
            file.as_ptr(),
            file.len(),
            meter.as_mut_ptr(),
            meter.len(),
            revisions.as_mut_ptr(),
            revisions.len(),
            written.as_mut_ptr(),
            written.len(),
        )
    }
}

/// The refusal's number, 0 for none, and 256 times the offset.
pub fn watch_file(file: &[u8], meter: &mut [i32], revisions: &mut [u8], month: &mut [u32]) -> u64 {
    // SAFETY: as said at the top.
    unsafe {
        stor_watch_file(
            file.as_ptr(),
            file.len(),
            meter.as_mut_ptr(),
            meter.len(),
            revisions.as_mut_ptr(),
            revisions.len(),
            month.as_mut_ptr(),
            month.len(),
        )
    }
}

/// The refusal's number, 0 for none.
pub fn watch_tables(
    contract: &[u32],
    windows: &[u32],
    instructions: &[u32],
    defaults: &[u32],
    month: &mut [u32],
) -> u8 {
    // SAFETY: as said at the top.
    unsafe {
        stor_watch_tables(
            contract.as_ptr(),
            contract.len(),
            windows.as_ptr(),
            windows.len(),
            instructions.as_ptr(),
            instructions.len(),
            defaults.as_ptr(),
            defaults.len(),
            month.as_mut_ptr(),
            month.len(),
        )
    }
}

/// 0 where the step is taken, else a number from 101 on. A step takes some
/// nanoseconds, so no second call is put before it.
#[inline]
pub fn watch_step(
    month: &[u32],
    totals: &mut [i64],
    instruction: u32,
    minute: u16,
    kw: i32,
    base: &[i32],
) -> u8 {
    // SAFETY: as said at the top.
    unsafe {
        stor_watch_step(
            month.as_ptr(),
            month.len(),
            totals.as_mut_ptr(),
            totals.len(),
            instruction,
            minute,
            kw,
            base.as_ptr(),
            base.len(),
        )
    }
}

/// The refusal's number, 0 for none, and 256 times the offset, or the kind of
/// day: 0 no such day, 1 working, 2 non-working.
pub fn day_file(
    file: &[u8],
    meter: &mut [i32],
    revisions: &mut [u8],
    day: u32,
    holidays: &[u32],
) -> u64 {
    // SAFETY: as said at the top.
    unsafe {
        stor_day_file(
            file.as_ptr(),
            file.len(),
            meter.as_mut_ptr(),
            meter.len(),
            revisions.as_mut_ptr(),
            revisions.len(),
            day,
            holidays.as_ptr(),
            holidays.len(),
        )
    }
}

/// 11, or 256 times the kind of day.
pub fn day_tables(
    contract: &[u32],
    windows: &[u32],
    instructions: &[u32],
    defaults: &[u32],
    day: u32,
    holidays: &[u32],
) -> u64 {
    // SAFETY: as said at the top.
    unsafe {
        stor_day_tables(
            contract.as_ptr(),
            contract.len(),
            windows.as_ptr(),
            windows.len(),
            instructions.as_ptr(),
            instructions.len(),
            defaults.as_ptr(),
            defaults.len(),
            day,
            holidays.as_ptr(),
            holidays.len(),
        )
    }
}
