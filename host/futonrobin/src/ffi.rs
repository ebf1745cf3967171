//! The exported calls, with slices for Rust's callers. The one file with `unsafe`.
//!
//! No exported function has a precondition: each is proved for slices of every length and content, and reads and writes inside of
//! them only. So a pointer and a length that come from one living slice are all that is asked of a caller, and that is what
//! the functions here hand over. A slice crosses as its pointer and then its length, every number is a `u32`.
//!
//! The names are the documents' calls; docs/ABI.md says of each what it answers and refuses.
#![allow(missing_docs)]

/// Calls on one record or mirror that is lent to be written, and numbers.
macro_rules! changing {
    ($($name:ident($($number:ident),*);)*) => {
        mod changing {
            extern "C" { $(pub fn $name(rec: *mut u8, len: usize $(, $number: u32)*) -> u32;)* }
        }
        $(pub fn $name(rec: &mut [u8] $(, $number: u32)*) -> u32 {
            unsafe { changing::$name(rec.as_mut_ptr(), rec.len() $(, $number)*) }
        })*
    };
}

/// Calls on one record that is lent to be read, and numbers.
macro_rules! reading {
    ($($name:ident($($number:ident),*);)*) => {
        mod reading {
            extern "C" { $(pub fn $name(rec: *const u8, len: usize $(, $number: u32)*) -> u32;)* }
        }
        $(pub fn $name(rec: &[u8] $(, $number: u32)*) -> u32 {
            unsafe { reading::$name(rec.as_ptr(), rec.len() $(, $number)*) }
        })*
    };
}

/// Calls that read a record and write an output.
macro_rules! writing {
    ($($name:ident;)*) => {
        mod writing {
            extern "C" { $(pub fn $name(rec: *const u8, len: usize, out: *mut u8, out_len: usize) -> u32;)* }
        }
        $(pub fn $name(rec: &[u8], out: &mut [u8]) -> u32 {
            unsafe { writing::$name(rec.as_ptr(), rec.len(), out.as_mut_ptr(), out.len()) }
        })*
    };
}

changing! {
    screen_new(width, sitting);
    screen_type_char(ch);
    screen_type_limited(ch, limit);
    screen_backspace();
    screen_delete_char();
    screen_erase_to_end();
    screen_escape_line();
    screen_tab();
    screen_ctrl_enter();
    screen_break_line();
    screen_move_left();
    screen_move_right();
    screen_move_up();
    screen_move_down();
    screen_home();
    screen_word_left();
    screen_word_right();
    screen_end_of_line();
    screen_clear();
    screen_set_width(width);
    screen_set_cursor(row, col);
    screen_set_insert(on);
    screen_set_attr(attr);
    screen_set_keys_on(on);
    mirror_new(width, sitting);
}

reading! {
    screen_width();
    screen_cursor();
    screen_attr();
    screen_editable_rows();
    screen_cell(row, col);
    screen_continues(row);
}

writing! {
    screen_logical_text;
    screen_snapshot;
    report_step;
    report_full;
}

mod two_slices {
    extern "C" {
        pub fn screen_print_bytes(rec: *mut u8, len: usize, bytes: *const u8, bytes_len: usize) -> u32;
        pub fn screen_print_checked(rec: *mut u8, len: usize, bytes: *const u8, bytes_len: usize) -> u32;
        pub fn screen_print_waiting(rec: *mut u8, len: usize, bytes: *const u8, bytes_len: usize, rows: u32) -> u32;
        pub fn screen_take_logical_line(rec: *mut u8, len: usize, out: *mut u8, out_len: usize) -> u32;
        pub fn mirror_arrive(mir: *mut u8, len: usize, report: *const u8, report_len: usize) -> u32;
        pub fn keys_strip(tab: *const u8, len: usize, offset: u32, width: u32, out: *mut u8, out_len: usize) -> u32;
    }
}

pub fn screen_print_bytes(rec: &mut [u8], bytes: &[u8]) -> u32 {
    unsafe { two_slices::screen_print_bytes(rec.as_mut_ptr(), rec.len(), bytes.as_ptr(), bytes.len()) }
}

pub fn screen_print_checked(rec: &mut [u8], bytes: &[u8]) -> u32 {
    unsafe { two_slices::screen_print_checked(rec.as_mut_ptr(), rec.len(), bytes.as_ptr(), bytes.len()) }
}

pub fn screen_print_waiting(rec: &mut [u8], bytes: &[u8], rows: u32) -> u32 {
    unsafe { two_slices::screen_print_waiting(rec.as_mut_ptr(), rec.len(), bytes.as_ptr(), bytes.len(), rows) }
}

pub fn screen_take_logical_line(rec: &mut [u8], out: &mut [u8]) -> u32 {
    unsafe { two_slices::screen_take_logical_line(rec.as_mut_ptr(), rec.len(), out.as_mut_ptr(), out.len()) }
}

pub fn mirror_arrive(mir: &mut [u8], report: &[u8]) -> u32 {
    unsafe { two_slices::mirror_arrive(mir.as_mut_ptr(), mir.len(), report.as_ptr(), report.len()) }
}

pub fn keys_strip(tab: &[u8], offset: u32, width: u32, out: &mut [u8]) -> u32 {
    unsafe { two_slices::keys_strip(tab.as_ptr(), tab.len(), offset, width, out.as_mut_ptr(), out.len()) }
}
