//! The calls and types of `include/yeqorwas.h`, by hand. That header says what each means, what it wants and what it leaves;
//! the crate `yeqorwas` has them as safe types.

#![no_std]
#![allow(non_camel_case_types)]

use core::ffi::c_void;

#[cfg(feature = "malloc")]
mod memory;

/// How a call ended: an `enum yeq_status`.
pub type yeq_status = i32;

pub const YEQ_DONE: yeq_status = 0;
pub const YEQ_NO_MEMORY: yeq_status = 1;
pub const YEQ_CLOSED: yeq_status = 2;
pub const YEQ_OPEN: yeq_status = 3;
pub const YEQ_KIND: yeq_status = 4;
pub const YEQ_RANGE: yeq_status = 5;
pub const YEQ_ROOM: yeq_status = 6;
pub const YEQ_BLOCK: yeq_status = 7;
pub const YEQ_TWICE: yeq_status = 8;
pub const YEQ_OBJECT: yeq_status = 9;
pub const YEQ_LIMIT: yeq_status = 10;
pub const YEQ_BUSY: yeq_status = 11;
pub const YEQ_FULL: yeq_status = 12;
pub const YEQ_SEATS: yeq_status = 13;
pub const YEQ_NUMBERS: yeq_status = 14;
pub const YEQ_STOPPED: yeq_status = 15;
pub const YEQ_BEGUN: yeq_status = 16;
pub const YEQ_NOT_BEGUN: yeq_status = 17;

macro_rules! handles {
    ($($name:ident)*) => {$(
        /// A handle, all zeros before it is opened and once it is closed.
        #[repr(C)]
        pub struct $name {
            pub mark: u64,
            pub at: *mut c_void,
        }

        impl $name {
            pub const CLOSED: $name = $name { mark: 0, at: core::ptr::null_mut() };
        }
    )*};
}

handles! { yeq_machine yeq_seat yeq_endless yeq_cppc }

macro_rules! plain {
    ($($name:ident { $($field:ident: $type:ty),* })*) => {$(
        #[repr(C)]
        #[derive(Clone, Copy, Debug, Default, PartialEq, Eq)]
        pub struct $name {
            $(pub $field: $type),*
        }
    )*};
}

// Where the header has a union of numbers of one size, the field has the name that stands first there.
plain! {
    yeq_fault { why: u32, outer: u32, inner: u32, found: u32, at: u64, path_length: u64 }
    yeq_counts { containers: u32, cpus: u32, domains: u32, groups: u32, notes: u32, opening: u32 }
    yeq_cpu { idle_kind: u32, idle_states: u32, perf_states: u32, throttle_states: u32 }
    yeq_request { kind: u32, cpu: u32, state: u32, tolerance: u32 }
    yeq_reply { kind: u32, index: u32, why: u8, length: u8, states: [u8; 9] }
    yeq_op {
        address: u64, value: u64, kind: u32, cpu: u32,
        space: u8, width: u8, offset: u8, access: u8, length: u8, states: [u8; 9]
    }
    yeq_seat_facts { number: u32, parts: u32, seen: u64 }
    yeq_entry { seat: u32, fault: u32, request: yeq_request }
    yeq_cppc_request { kind: u32, cpu: u32, value: u32 }
    yeq_cppc_reply { kind: u32, why: u32, value: u64, highest: u64 }
}

/// What a call for memory comes to: `at` is never null.
#[repr(C)]
pub struct yeq_memory {
    pub done: bool,
    pub at: *mut c_void,
}

extern "C" {
    pub fn yeq_machine_open(machine: *mut yeq_machine) -> yeq_status;
    pub fn yeq_machine_add_block(
        machine: *mut yeq_machine,
        bytes: *const u8,
        length: usize,
        fault: *mut yeq_fault,
    ) -> yeq_status;
    pub fn yeq_machine_plan(
        machine: *mut yeq_machine,
        fault: *mut yeq_fault,
        path: *mut u8,
        room: usize,
    ) -> yeq_status;
    pub fn yeq_machine_counts(machine: *mut yeq_machine, counts: *mut yeq_counts) -> yeq_status;
    pub fn yeq_machine_cpu(
        machine: *mut yeq_machine,
        cpu: u32,
        told: *mut yeq_cpu,
        path: *mut u8,
        room: usize,
        length: *mut usize,
    ) -> yeq_status;
    pub fn yeq_machine_start(machine: *mut yeq_machine) -> yeq_status;
    pub fn yeq_machine_ask(
        machine: *mut yeq_machine,
        request: *const yeq_request,
        reply: *mut yeq_reply,
    ) -> yeq_status;
    pub fn yeq_machine_ops(
        machine: *mut yeq_machine,
        ops: *mut yeq_op,
        room: usize,
        count: *mut u32,
    ) -> yeq_status;
    pub fn yeq_machine_close(machine: *mut yeq_machine) -> yeq_status;

    pub fn yeq_seat_open(seat: *mut yeq_seat, machine: *mut yeq_machine, entries: u32) -> yeq_status;
    pub fn yeq_seat_split(seat: *mut yeq_seat, other: *mut yeq_seat, parts: u32) -> yeq_status;
    pub fn yeq_seat_ask(
        seat: *mut yeq_seat,
        request: *const yeq_request,
        reply: *mut yeq_reply,
    ) -> yeq_status;
    pub fn yeq_seat_ops(
        seat: *mut yeq_seat,
        ops: *mut yeq_op,
        room: usize,
        count: *mut u32,
        number: *mut u64,
    ) -> yeq_status;
    pub fn yeq_seat_tell(seat: *mut yeq_seat, facts: *mut yeq_seat_facts) -> yeq_status;
    pub fn yeq_seat_join(seat: *mut yeq_seat, other: *mut yeq_seat) -> yeq_status;
    pub fn yeq_seat_seal(seat: *mut yeq_seat) -> yeq_status;
    pub fn yeq_seat_entries(seat: *mut yeq_seat, count: *mut u32) -> yeq_status;
    pub fn yeq_seat_entry(seat: *mut yeq_seat, index: u32, entry: *mut yeq_entry) -> yeq_status;
    pub fn yeq_seat_close(seat: *mut yeq_seat) -> yeq_status;

    pub fn yeq_endless_open(endless: *mut yeq_endless, machine: *mut yeq_machine) -> yeq_status;
    pub fn yeq_endless_split(endless: *mut yeq_endless, other: *mut yeq_endless, parts: u32) -> yeq_status;
    pub fn yeq_endless_begin(
        endless: *mut yeq_endless,
        request: *const yeq_request,
        reply: *mut yeq_reply,
    ) -> yeq_status;
    pub fn yeq_endless_ops(
        endless: *mut yeq_endless,
        ops: *mut yeq_op,
        room: usize,
        count: *mut u32,
    ) -> yeq_status;
    pub fn yeq_endless_finish(endless: *mut yeq_endless, done: u32) -> yeq_status;
    pub fn yeq_endless_tell(endless: *mut yeq_endless, facts: *mut yeq_seat_facts) -> yeq_status;
    pub fn yeq_endless_join(endless: *mut yeq_endless, other: *mut yeq_endless) -> yeq_status;
    pub fn yeq_endless_close(endless: *mut yeq_endless) -> yeq_status;

    pub fn yeq_cppc_open(cppc: *mut yeq_cppc, machine: *mut yeq_machine) -> yeq_status;
    pub fn yeq_cppc_ask(
        cppc: *mut yeq_cppc,
        request: *const yeq_cppc_request,
        reply: *mut yeq_cppc_reply,
    ) -> yeq_status;
    pub fn yeq_cppc_ops(
        cppc: *mut yeq_cppc,
        ops: *mut yeq_op,
        room: usize,
        count: *mut u32,
    ) -> yeq_status;
    pub fn yeq_cppc_close(cppc: *mut yeq_cppc) -> yeq_status;
}

const _: () = {
    assert!(size_of::<yeq_machine>() == 16 && size_of::<yeq_seat>() == 16 && size_of::<yeq_cppc>() == 16);
    assert!(size_of::<yeq_endless>() == 16);
    assert!(size_of::<yeq_fault>() == 32 && size_of::<yeq_counts>() == 24 && size_of::<yeq_cpu>() == 16);
    assert!(size_of::<yeq_request>() == 16 && size_of::<yeq_reply>() == 20 && size_of::<yeq_op>() == 40);
    assert!(size_of::<yeq_seat_facts>() == 16 && size_of::<yeq_entry>() == 24);
    assert!(size_of::<yeq_cppc_request>() == 12 && size_of::<yeq_cppc_reply>() == 24);
};
