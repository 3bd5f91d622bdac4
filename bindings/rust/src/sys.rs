//! The calls of `faultsim.h`, as C has them.

use std::ffi::{c_char, c_void};
use std::ptr::null_mut;

#[repr(C)]
#[derive(Debug)]
pub struct Handle {
    live: bool,
    at: *mut c_void,
}

impl Handle {
    pub const EMPTY: Handle = Handle {
        live: false,
        at: null_mut(),
    };
}

/// How large a job is.
#[repr(C)]
#[derive(Clone, Copy, Debug, Default, PartialEq, Eq)]
pub struct Sizes {
    /// Primary inputs and scan cells: the width of a test.
    pub sources: u32,
    pub signals: u32,
    /// Faults before collapsing.
    pub faults: u32,
    /// Equivalence classes of faults.
    pub classes: u32,
    pub tests: u32,
    /// Blocks of 64 tests; the last may be short.
    pub blocks: u32,
}

/// Why a text or words are wrong: a kind of `faultsim.h`, and a line from 1 or a source from 0.
#[repr(C)]
#[derive(Clone, Copy, Debug, Default, PartialEq, Eq)]
pub struct Fault {
    pub kind: u32,
    pub place: u64,
}

/// A pin of a gate. Numbers count from 0.
#[repr(C)]
#[derive(Clone, Copy, Debug, Default, PartialEq, Eq, Hash)]
pub struct Pin {
    /// The signal of the gate.
    pub gate: u32,
    pub pin: u32,
}

/// The site of a fault: a line of the circuit, and the bit at which it is stuck. Numbers count from
/// 0.
#[repr(C)]
#[derive(Clone, Copy, Debug, Default, PartialEq, Eq, Hash)]
pub struct Site {
    /// 0 for the stem of a signal, 1 for a pin of a gate, 2 for the data pin of a flip-flop, and 3
    /// for an OUTPUT line.
    pub kind: u32,
    /// The signal, the signal of the gate, the flip-flop or the OUTPUT line.
    pub at: u32,
    /// The pin of the gate, or 0.
    pub pin: u32,
    /// 0 or 1; a transition fault is slow to leave the bit.
    pub stuck: u32,
}

extern "C" {
    pub fn fs_version() -> u32;
    pub fn fs_release() -> *const c_char;
    pub fn fs_message(status: u32, fault: *const Fault, text: *mut c_char, size: usize) -> usize;
    pub fn fs_job_read(
        model: u32,
        bench: *const u8,
        bench_len: usize,
        job: *mut Handle,
        fault: *mut Fault,
    ) -> u32;
    pub fn fs_job_free(job: *mut Handle);
    pub fn fs_job_share(job: *mut Handle, other: *mut Handle) -> u32;
    pub fn fs_sizes_of(job: *mut Handle, sizes: *mut Sizes) -> u32;
    pub fn fs_set_words(
        job: *mut Handle,
        count: u32,
        words: *const u64,
        words_len: usize,
        fault: *mut Fault,
    ) -> u32;
    pub fn fs_next_words(
        job: *mut Handle,
        count: u32,
        words: *const u64,
        words_len: usize,
        fault: *mut Fault,
    ) -> u32;
    pub fn fs_set_text(
        job: *mut Handle,
        text: *const u8,
        text_len: usize,
        fault: *mut Fault,
    ) -> u32;
    pub fn fs_classes_of(job: *mut Handle, classes: *mut u32, classes_len: usize) -> u32;
    pub fn fs_stems_of(job: *mut Handle, stems: *mut u32, stems_len: usize) -> u32;
    pub fn fs_name_of(
        job: *mut Handle,
        signal: u32,
        text: *mut u8,
        text_len: usize,
        wanted: *mut usize,
    ) -> u32;
    pub fn fs_fault_text(
        job: *mut Handle,
        fault: u32,
        text: *mut u8,
        text_len: usize,
        wanted: *mut usize,
    ) -> u32;
    pub fn fs_source_of(job: *mut Handle, signal: u32, place: *mut u32) -> u32;
    pub fn fs_signal_named(
        job: *mut Handle,
        name: *const u8,
        name_len: usize,
        signal: *mut u32,
    ) -> u32;
    pub fn fs_kinds_of(job: *mut Handle, kinds: *mut u32, kinds_len: usize) -> u32;
    pub fn fs_levels_of(job: *mut Handle, levels: *mut u32, levels_len: usize) -> u32;
    pub fn fs_fan_ins_of(
        job: *mut Handle,
        starts: *mut u32,
        starts_len: usize,
        pins: *mut u32,
        pins_len: usize,
        wanted: *mut usize,
    ) -> u32;
    pub fn fs_fan_outs_of(
        job: *mut Handle,
        starts: *mut u32,
        starts_len: usize,
        pins: *mut Pin,
        pins_len: usize,
        wanted: *mut usize,
    ) -> u32;
    pub fn fs_sites_of(job: *mut Handle, sites: *mut Site, sites_len: usize) -> u32;
    pub fn fs_fault_at(job: *mut Handle, site: *const Site, fault: *mut u32) -> u32;
    pub fn fs_word(job: *mut Handle, block: u32, signal: u32, word: *mut u64) -> u32;
    pub fn fs_values(job: *mut Handle, block: u32, words: *mut u64, words_len: usize) -> u32;
    pub fn fs_observers_of(
        job: *mut Handle,
        signals: *mut u32,
        signals_len: usize,
        wanted: *mut usize,
    ) -> u32;
    pub fn fs_responses(job: *mut Handle, words: *mut u64, words_len: usize) -> u32;
    pub fn fs_simulate(
        job: *mut Handle,
        classes: *const u32,
        classes_len: usize,
        firsts: *mut u32,
        firsts_len: usize,
    ) -> u32;
    pub fn fs_observed(
        job: *mut Handle,
        block: u32,
        signals: *const u32,
        signals_len: usize,
        lanes: *mut u64,
        lanes_len: usize,
    ) -> u32;
    pub fn fs_detecting(job: *mut Handle, class: u32, block: u32, lanes: *mut u64) -> u32;
    pub fn fs_lanes(
        job: *mut Handle,
        block: u32,
        classes: *const u32,
        classes_len: usize,
        lanes: *mut u64,
        lanes_len: usize,
    ) -> u32;
    pub fn fs_count(
        job: *mut Handle,
        block: u32,
        classes: *const u32,
        classes_len: usize,
        most: u32,
        counts: *mut u32,
        counts_len: usize,
    ) -> u32;
    pub fn fs_detections(
        job: *mut Handle,
        classes: *const u32,
        classes_len: usize,
        most: u32,
        counts: *mut u32,
        counts_len: usize,
    ) -> u32;
    pub fn fs_report(
        job: *mut Handle,
        lines: u32,
        classes: bool,
        text: *mut u8,
        text_len: usize,
        wanted: *mut usize,
    ) -> u32;
    pub fn fs_firsts(
        model: u32,
        bench: *const u8,
        bench_len: usize,
        text: *const u8,
        text_len: usize,
        firsts: *mut u32,
        firsts_len: usize,
        faults: *mut u32,
        fault: *mut Fault,
    ) -> u32;
}
