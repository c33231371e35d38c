//! The calls as C has them: include/strakewhip.h, name by name.

/// What every call answers.
#[repr(C)]
#[derive(Clone, Copy, Debug, PartialEq, Eq)]
pub struct Reply {
    pub refusal: u8,
    pub removed: u8,
    pub file: u8,
    pub place: usize,
    pub length: usize,
}

extern "C" {
    pub fn strakewhip_network(network: *const u8, network_length: usize) -> Reply;
    pub fn strakewhip_turn(form: u8, file: *const u8, file_length: usize, out: *mut u8, out_length: usize) -> Reply;
    pub fn strakewhip_names(network: *const u8, network_length: usize, edit: *const u8, edit_length: usize) -> Reply;
    pub fn strakewhip_edit(
        network: *const u8,
        network_length: usize,
        edit: *const u8,
        edit_length: usize,
        division: *mut u8,
        division_length: usize,
    ) -> Reply;
    pub fn strakewhip_edit_sheet(
        network: *const u8,
        network_length: usize,
        edit: *const u8,
        edit_length: usize,
        sheet: *mut u8,
        sheet_length: usize,
    ) -> Reply;
    pub fn strakewhip_run(
        network: *const u8,
        network_length: usize,
        edits: *const u8,
        edits_length: usize,
        division: *mut u8,
        division_length: usize,
        answers: *mut u8,
        answers_length: usize,
    ) -> Reply;
    pub fn strakewhip_run_early(
        network: *const u8,
        network_length: usize,
        edits: *const u8,
        edits_length: usize,
        division: *mut u8,
        division_length: usize,
        answers: *mut u8,
        answers_length: usize,
    ) -> Reply;
    pub fn strakewhip_divide(
        network: *const u8,
        network_length: usize,
        sheet: *const u8,
        sheet_length: usize,
        division: *mut u8,
        division_length: usize,
    ) -> Reply;
    pub fn strakewhip_merge(
        network: *const u8,
        network_length: usize,
        division: *const u8,
        division_length: usize,
        sheet: *mut u8,
        sheet_length: usize,
    ) -> Reply;
    pub fn strakewhip_findings(
        network: *const u8,
        network_length: usize,
        sheet: *const u8,
        sheet_length: usize,
        out: *mut u16,
        out_length: usize,
    ) -> Reply;
    pub fn strakewhip_area_findings(
        network: *const u8,
        network_length: usize,
        sheet: *const u8,
        sheet_length: usize,
        area: u8,
        out: *mut u16,
        out_length: usize,
    ) -> Reply;
    pub fn strakewhip_pair_findings(
        network: *const u8,
        network_length: usize,
        first: *const u8,
        first_length: usize,
        second: *const u8,
        second_length: usize,
        one: u8,
        other: u8,
        out: *mut u16,
        out_length: usize,
    ) -> Reply;
    pub fn strakewhip_recheck(
        network: *const u8,
        network_length: usize,
        sheet: *const u8,
        sheet_length: usize,
        edit: *const u8,
        edit_length: usize,
        list: *const u16,
        list_length: usize,
        out: *mut u16,
        out_length: usize,
    ) -> Reply;
    pub fn strakewhip_recheck_area(
        network: *const u8,
        network_length: usize,
        sheet: *const u8,
        sheet_length: usize,
        edit: *const u8,
        edit_length: usize,
        area: u8,
        list: *const u16,
        list_length: usize,
        out: *mut u16,
        out_length: usize,
    ) -> Reply;
    pub fn strakewhip_read(
        network: *const u8,
        network_length: usize,
        timetable: *const u8,
        timetable_length: usize,
        sheet: *mut u8,
        sheet_length: usize,
    ) -> Reply;
    pub fn strakewhip_read_early(
        network: *const u8,
        network_length: usize,
        timetable: *const u8,
        timetable_length: usize,
        sheet: *mut u8,
        sheet_length: usize,
    ) -> Reply;
    pub fn strakewhip_write(
        network: *const u8,
        network_length: usize,
        sheet: *const u8,
        sheet_length: usize,
        out: *mut u8,
        out_length: usize,
    ) -> Reply;
    pub fn strakewhip_project(
        network: *const u8,
        network_length: usize,
        sheet: *const u8,
        sheet_length: usize,
        station: u8,
        train: u16,
        arrival: u16,
        out: *mut i32,
        out_length: usize,
    ) -> Reply;
    pub fn strakewhip_raise(
        edit: *const u8,
        edit_length: usize,
        refusal: u8,
        removed: u8,
        counts: *mut [u32; 4],
    ) -> Reply;
}
