//! The functions of the archive as `include/mangerday.h` declares them, with what a caller must see to.

use crate::{Ports, Record};

/// What `md_write` answers in the place of an idle write.
pub const MD_IDLE: u32 = u32::MAX;

extern "C" {
    pub fn md_fresh(
        record: *mut Record,
        n: u32,
        w: u32,
        nodes: *mut u32,
        nodes_length: usize,
        ports: *mut Ports,
    ) -> u32;

    pub fn md_evaluate(
        record: *const Record,
        nodes: *const u32,
        nodes_length: usize,
        node: u32,
        assignment: u64,
        value: *mut u32,
    ) -> u32;

    pub fn md_text(
        record: *const Record,
        nodes: *const u32,
        nodes_length: usize,
        node: u32,
        text: *mut u8,
        text_length: usize,
        length: *mut u64,
    ) -> u32;

    pub fn md_witness(
        record: *const Record,
        nodes: *const u32,
        nodes_length: usize,
        node: u32,
        assignment: *mut u64,
    ) -> u32;

    pub fn md_variable(record: *mut Record, nodes: *mut u32, nodes_length: usize, variable: u32, node: *mut u32)
        -> u32;

    pub fn md_ite(
        record: *mut Record,
        nodes: *mut u32,
        nodes_length: usize,
        f: u32,
        g: u32,
        h: u32,
        node: *mut u32,
    ) -> u32;

    pub fn md_write(
        record: *mut Record,
        nodes: *mut u32,
        nodes_length: usize,
        list: *mut u32,
        list_length: usize,
        enable: *const u32,
        enable_length: usize,
        address: *const u32,
        address_length: usize,
        data: *const u32,
        data_length: usize,
        place: *mut u32,
    ) -> u32;

    pub fn md_read(
        record: *mut Record,
        nodes: *mut u32,
        nodes_length: usize,
        list: *const u32,
        list_length: usize,
        ports: *mut Ports,
        port: u32,
        enable: *const u32,
        enable_length: usize,
        address: *const u32,
        address_length: usize,
        answer: *mut u32,
        answer_length: usize,
    ) -> u32;

    pub fn md_assert(
        record: *mut Record,
        nodes: *mut u32,
        nodes_length: usize,
        list: *mut u32,
        list_length: usize,
        b: u32,
        address: *const u32,
        address_length: usize,
        data: *const u32,
        data_length: usize,
        entered: *mut u32,
    ) -> u32;

    pub fn md_check(
        record: *mut Record,
        nodes: *mut u32,
        nodes_length: usize,
        list: *const u32,
        list_length: usize,
        b: u32,
        address: *const u32,
        address_length: usize,
        data: *const u32,
        data_length: usize,
    ) -> u32;

    pub fn md_assert_formula(
        record: *mut Record,
        nodes: *mut u32,
        nodes_length: usize,
        list: *mut u32,
        list_length: usize,
        text: *const u8,
        text_length: usize,
        table: *const u32,
        table_length: usize,
        answer: *mut u32,
        answer_length: usize,
        listed: *mut u64,
        made: *mut u64,
        place: *mut u64,
    ) -> u32;

    pub fn md_check_formula(
        record: *mut Record,
        nodes: *mut u32,
        nodes_length: usize,
        list: *const u32,
        list_length: usize,
        text: *const u8,
        text_length: usize,
        table: *const u32,
        table_length: usize,
        answer: *mut u32,
        answer_length: usize,
        listed: *mut u64,
        made: *mut u64,
        place: *mut u64,
    ) -> u32;

    pub fn md_case(
        bytes: *const u8,
        bytes_length: usize,
        nodes: *mut u32,
        nodes_length: usize,
        list: *mut u32,
        list_length: usize,
        text: *mut u8,
        text_length: usize,
        record: *mut Record,
        count: *mut u64,
    ) -> u32;
}
