//! Programs that the library verifies and runs: a module to be copied, over the header's calls.
#![allow(dead_code)] // a host may use some of it
use std::ffi::{c_char, c_void, CStr};
use std::fmt;

#[repr(C)]
struct Handle {
    at: *mut c_void,
    state: u32,
}

#[repr(C)]
struct Refusal {
    code: u32,
    place: u32,
    at: u64,
    words: [c_char; 144],
}

#[link(name = "bpfrt")]
extern "C" {
    fn bpfrt0_prog_open(prog: *mut Handle, insns: *const u8, size: usize, ctx_len: usize, maps: *const [u32; 6], nr_maps: usize, why: *mut Refusal) -> i32;
    fn bpfrt0_prog_open_tcpdump(prog: *mut Handle, text: *const u8, size: usize, why: *mut Refusal) -> i32;
    fn bpfrt0_prog_share(prog: *mut Handle, other: *mut Handle) -> i32;
    fn bpfrt0_prog_run(prog: *mut Handle, ctx: *const u8, len: usize, value: *mut u64) -> i32;
    fn bpfrt0_prog_run_packet(prog: *mut Handle, packet: *const u8, caplen: usize, len: u32, value: *mut u64) -> i32;
    fn bpfrt0_close(handle: *mut Handle) -> i32;
}

/// Why a call fails: a refusal with its number, what its place counts, the place and its words, or a number of errno.h.
#[derive(Debug, Clone, PartialEq, Eq)]
pub enum Error {
    Refused { code: u32, place: u32, at: u64, words: String },
    Errno(i32),
}

impl fmt::Display for Error {
    fn fmt(&self, out: &mut fmt::Formatter) -> fmt::Result {
        match self {
            Error::Refused { code, place: 0, words, .. } => write!(out, "refused {code}: {words}"),
            Error::Refused { code, at, words, .. } => write!(out, "refused {code} at {at}: {words}"),
            Error::Errno(number) => write!(out, "the call answers {number}"),
        }
    }
}
impl std::error::Error for Error {}

fn valued(call: impl FnOnce(*mut u64) -> i32) -> Result<u64, Error> {
    let mut value = 0;
    let status = call(&mut value);
    if status == 0 { Ok(value) } else { Err(Error::Errno(status)) }
}

/// A program that was verified. One thread uses it at a time; `share` makes another, for another thread.
pub struct Program(Box<Handle>);

unsafe impl Send for Program {} // What the handle leads to is no thread's own.

impl Program {
    fn opened(open: impl FnOnce(*mut Handle, *mut Refusal) -> i32) -> Result<Program, Error> {
        let mut made = Program(Box::new(Handle { at: std::ptr::null_mut(), state: 0 }));
        let mut why = Refusal { code: 0, place: 0, at: 0, words: [0; 144] };
        match open(&mut *made.0, &mut why) {
            0 => Ok(made),
            status if why.code == 0 => Err(Error::Errno(status)),
            _ => {
                let words = unsafe { CStr::from_ptr(why.words.as_ptr()) }.to_string_lossy().into_owned();
                Err(Error::Refused { code: why.code, place: why.place, at: why.at, words })
            }
        }
    }

    /// The program of these bytes, for contexts of so many bytes, and without maps.
    pub fn from_bytes(insns: &[u8], ctx_len: usize) -> Result<Program, Error> {
        let none = [0; 6];
        Program::opened(|prog, why| unsafe { bpfrt0_prog_open(prog, insns.as_ptr(), insns.len(), ctx_len, &none, 0, why) })
    }

    /// The filter that `tcpdump -ddd` wrote.
    pub fn from_tcpdump(text: &[u8]) -> Result<Program, Error> {
        Program::opened(|prog, why| unsafe { bpfrt0_prog_open_tcpdump(prog, text.as_ptr(), text.len(), why) })
    }

    pub fn share(&mut self) -> Result<Program, Error> {
        Program::opened(|prog, _| unsafe { bpfrt0_prog_share(prog, &mut *self.0) })
    }

    pub fn run(&mut self, ctx: &[u8]) -> Result<u64, Error> {
        valued(|value| unsafe { bpfrt0_prog_run(&mut *self.0, ctx.as_ptr(), ctx.len(), value) })
    }

    pub fn run_packet(&mut self, packet: &[u8], len: u32) -> Result<u64, Error> {
        valued(|value| unsafe { bpfrt0_prog_run_packet(&mut *self.0, packet.as_ptr(), packet.len(), len, value) })
    }
}

impl Drop for Program {
    fn drop(&mut self) {
        unsafe { bpfrt0_close(&mut *self.0) };
    }
}
