//! The proved loops of `crates/speed_steps_c`, `crates/speed_general_c`, `crates/speed_called`, `crates/speed_session` and
//! `crates/speed_saved`, as their archives export them. A slice is its address and its length.

mod exported {
    extern "C" {
        pub fn speed_run_steps(table: *const u8, table_len: usize, base: u64, row: u32, n: u64) -> u64;
        pub fn speed_run_set_up(table: *const u8, table_len: usize, n: u64) -> u64;
        pub fn speed_run_general(table: *const u8, table_len: usize, base: u64, n: u64) -> u64;
        pub fn speed_called_steps(table: *const u8, table_len: usize, base: u64, row: u32, n: u64) -> u64;
        pub fn speed_called_general(table: *const u8, table_len: usize, base: u64, n: u64) -> u64;
        pub fn speed_run_lines(table: *const u8, table_len: usize, enables: u8, n: u64) -> u64;
        pub fn speed_run_session(
            table: *const u8,
            table_len: usize,
            script: *const u8,
            script_len: usize,
            buffer: *mut u8,
            buffer_len: usize,
            n: u64,
        ) -> u64;
        #[cfg(feature = "saved")]
        pub fn speed_run_read(text: *const u8, text_len: usize, n: u64) -> u64;
        #[cfg(feature = "saved")]
        pub fn speed_run_write(text: *const u8, text_len: usize, buffer: *mut u8, buffer_len: usize, n: u64) -> u64;
    }
}

// None of them requires anything of its caller but slices that are there for the call.

pub fn steps(table: &[u8], base: u64, row: u32, n: u64) -> u64 {
    unsafe { exported::speed_run_steps(table.as_ptr(), table.len(), base, row, n) }
}

pub fn set_up(table: &[u8], n: u64) -> u64 {
    unsafe { exported::speed_run_set_up(table.as_ptr(), table.len(), n) }
}

pub fn general(table: &[u8], base: u64, n: u64) -> u64 {
    unsafe { exported::speed_run_general(table.as_ptr(), table.len(), base, n) }
}

pub fn called_steps(table: &[u8], base: u64, row: u32, n: u64) -> u64 {
    unsafe { exported::speed_called_steps(table.as_ptr(), table.len(), base, row, n) }
}

pub fn called_general(table: &[u8], base: u64, n: u64) -> u64 {
    unsafe { exported::speed_called_general(table.as_ptr(), table.len(), base, n) }
}

pub fn lines(table: &[u8], enables: u8, n: u64) -> u64 {
    unsafe { exported::speed_run_lines(table.as_ptr(), table.len(), enables, n) }
}

pub fn session(table: &[u8], script: &[u8], buffer: &mut [u8], n: u64) -> u64 {
    unsafe {
        exported::speed_run_session(
            table.as_ptr(),
            table.len(),
            script.as_ptr(),
            script.len(),
            buffer.as_mut_ptr(),
            buffer.len(),
            n,
        )
    }
}

#[cfg(feature = "saved")]
pub fn reads(text: &[u8], n: u64) -> u64 {
    unsafe { exported::speed_run_read(text.as_ptr(), text.len(), n) }
}

#[cfg(feature = "saved")]
pub fn writes(text: &[u8], buffer: &mut [u8], n: u64) -> u64 {
    unsafe { exported::speed_run_write(text.as_ptr(), text.len(), buffer.as_mut_ptr(), buffer.len(), n) }
}

#[cfg(not(feature = "saved"))]
pub fn reads(_: &[u8], _: u64) -> u64 {
    unreachable!("there is no row of the saved text")
}

#[cfg(not(feature = "saved"))]
pub fn writes(_: &[u8], _: &mut [u8], _: u64) -> u64 {
    unreachable!("there is no row of the saved text")
}
