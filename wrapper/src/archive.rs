//! The functions of include/drunquill.h, each called with the pointers and lengths of slices. All that is unsafe stands here.

use crate::{Paths, Tables, Variables};

/// `struct drunquill_answer`
#[repr(C)]
pub struct Answer {
    pub number: u8,
    pub place: usize,
    pub out_len: usize,
    pub vars_used: usize,
    pub message_len: usize,
}

/// `struct drunquill_quote_answer`
#[repr(C)]
pub struct QuoteAnswer {
    pub number: u8,
    pub place: usize,
    pub out_len: usize,
}

/// `struct drunquill_updated`
#[repr(C)]
pub struct Updated {
    pub number: u8,
    pub place: usize,
    pub used: usize,
}

/// `struct drunquill_costed`
#[repr(C)]
pub struct Costed {
    pub number: u8,
    pub place: usize,
    pub pairs: usize,
}

/// Declares the two jobs that expand a line, which differ in their names alone, and defines each over slices.
macro_rules! jobs {
    ($($job:ident is $name:ident;)*) => {
        extern "C" {
            $(fn $job(
                line: *const u8,
                line_len: usize,
                vars: *mut u8,
                vars_len: usize,
                vars_used: usize,
                shouts: bool,
                homes: *const u8,
                homes_len: usize,
                params: *const u8,
                params_len: usize,
                paths: *const u8,
                paths_len: usize,
                work: *mut u8,
                work_len: usize,
                out: *mut u8,
                out_len: usize,
                message: *mut u8,
                message_len: usize,
            ) -> Answer;)*
        }
        $(pub fn $name(
            line: &[u8],
            vars: &mut Variables,
            tables: Tables,
            work: &mut [u8],
            out: &mut [u8],
            message: &mut [u8],
        ) -> Answer {
            let Tables { homes, params, paths, shouts } = tables;
            // SAFETY: a slice's pointer is never null and has as many bytes as its length; the four that are written are lent for this call alone, so
            // that they overlap nothing and nobody else looks at them. The function keeps no pointer, and is proved to reach nothing but these bytes and
            // the stack, whatever the bytes and lengths are.
            unsafe {
                $job(
                    line.as_ptr(),
                    line.len(),
                    vars.buffer.as_mut_ptr(),
                    vars.buffer.len(),
                    vars.used,
                    shouts,
                    homes.as_ptr(),
                    homes.len(),
                    params.as_ptr(),
                    params.len(),
                    paths.as_ptr(),
                    paths.len(),
                    work.as_mut_ptr(),
                    work.len(),
                    out.as_mut_ptr(),
                    out.len(),
                    message.as_mut_ptr(),
                    message.len(),
                )
            }
        })*
    };
}

jobs! {
    drunquill_expand is expand;
    drunquill_normalise is normalise;
}

extern "C" {
    fn drunquill_assign(
        line: *const u8,
        line_len: usize,
        vars: *mut u8,
        vars_len: usize,
        vars_used: usize,
        shouts: bool,
        homes: *const u8,
        homes_len: usize,
        params: *const u8,
        params_len: usize,
        work: *mut u8,
        work_len: usize,
        message: *mut u8,
        message_len: usize,
    ) -> Answer;
    fn drunquill_quote(fields: *const u8, fields_len: usize, out: *mut u8, out_len: usize) -> QuoteAnswer;
    fn drunquill_cost(
        pattern: *const u8,
        pattern_len: usize,
        text: *const u8,
        text_len: usize,
        work: *mut u8,
        work_len: usize,
    ) -> Costed;
}

pub fn assign(line: &[u8], vars: &mut Variables, tables: Tables, work: &mut [u8], message: &mut [u8]) -> Answer {
    let Tables { homes, params, paths: _, shouts } = tables;
    // SAFETY: as above, of the three that are written.
    unsafe {
        drunquill_assign(
            line.as_ptr(),
            line.len(),
            vars.buffer.as_mut_ptr(),
            vars.buffer.len(),
            vars.used,
            shouts,
            homes.as_ptr(),
            homes.len(),
            params.as_ptr(),
            params.len(),
            work.as_mut_ptr(),
            work.len(),
            message.as_mut_ptr(),
            message.len(),
        )
    }
}

pub fn quote(fields: &[u8], out: &mut [u8]) -> QuoteAnswer {
    // SAFETY: as above.
    unsafe { drunquill_quote(fields.as_ptr(), fields.len(), out.as_mut_ptr(), out.len()) }
}

pub fn cost(pattern: &[u8], text: &[u8], work: &mut [u8]) -> Costed {
    // SAFETY: as above, of the one that is written.
    unsafe { drunquill_cost(pattern.as_ptr(), pattern.len(), text.as_ptr(), text.len(), work.as_mut_ptr(), work.len()) }
}

/// Declares the two jobs that change paths, which differ in their names alone, and defines each over slices.
macro_rules! updates {
    ($($job:ident is $name:ident;)*) => {
        extern "C" {
            $(fn $job(paths: *mut u8, paths_len: usize, paths_used: usize, path: *const u8, path_len: usize) -> Updated;)*
        }
        $(pub fn $name(paths: &mut Paths, path: &[u8]) -> Updated {
            // SAFETY: as above, of the one that is written.
            unsafe { $job(paths.buffer.as_mut_ptr(), paths.buffer.len(), paths.used, path.as_ptr(), path.len()) }
        })*
    };
}

updates! {
    drunquill_insert_path is insert_path;
    drunquill_delete_path is delete_path;
}
