//! Each call made twice, as C makes it and by the wrapper, and both compared with what the second implementation says.

use crate::model;
use reference::edits;
use std::collections::{BTreeMap, BTreeSet};
use strakewhip::raw::{self, Reply};
use strakewhip::{Error, File, Form};

/// Counts what was compared, and tells what differs.
#[derive(Default)]
pub struct Report {
    pub compared: u64,
    pub refusals: [u64; 16],
    pub differing: u64,
    pub place: String,
    /// Each call with the refusals that it answered, and the file that each was of.
    pub answered: BTreeSet<(&'static str, u8, u8)>,
    /// What was to come about by chance, and how often it did.
    pub met: BTreeMap<&'static str, u64>,
}

/// What the wrapper makes of a reply: the counts that a function answers, or the error.
type Wrapped = Result<(u8, usize), Error>;

// The calls that there are of each form, as C has them and by the wrapper.
type RawRun = unsafe extern "C" fn(*const u8, usize, *const u8, usize, *mut u8, usize, *mut u8, usize) -> Reply;
type WrappedRun = fn(&[u8], &[u8], &mut [u8], &mut [u8]) -> Result<usize, Error>;
type RawRead = unsafe extern "C" fn(*const u8, usize, *const u8, usize, *mut u8, usize) -> Reply;
type WrappedRead = fn(&[u8], &[u8], &mut [u8]) -> Result<usize, Error>;

impl Report {
    pub fn meets(&mut self, what: &'static str, met: bool) {
        *self.met.entry(what).or_default() += u64::from(met);
    }

    fn differs(&mut self, call: &str, what: String) {
        self.differing += 1;
        if self.differing <= 20 {
            println!("library: {call} differs, {}: {what}", self.place);
        }
    }

    fn replies(&mut self, call: &'static str, reply: Reply, expected: Reply, wrapped: Wrapped) {
        self.reply(call, reply, expected);
        self.wrapped(call, reply, wrapped);
    }

    fn reply(&mut self, call: &'static str, reply: Reply, expected: Reply) {
        self.compared += 1;
        self.answered.insert((call, reply.refusal, reply.file));
        self.refusals[usize::from(reply.refusal.min(15))] += 1;
        if reply != expected {
            self.differs(call, format!("{reply:?}, expected {expected:?}"));
        }
    }

    fn wrapped(&mut self, call: &'static str, reply: Reply, wrapped: Wrapped) {
        let same = match wrapped {
            Ok(counts) => reply.refusal == 0 && counts == (reply.removed, reply.length),
            Err(error) => {
                let place = match error.place {
                    None => (0, 0),
                    Some((File::Network, place)) => (1, place),
                    Some((File::Other, place)) => (2, place),
                };
                (error.refusal.number(), place, error.needed)
                    == (reply.refusal, (reply.file, reply.place), reply.length)
            }
        };
        if !same {
            self.differs(call, format!("{reply:?}, wrapped {wrapped:?}"));
        }
    }

    fn buffers<T: PartialEq>(&mut self, call: &str, found: &[T], wrapped: &[T], expected: &[T]) {
        for (who, later) in [("C", found), ("the wrapper", wrapped)] {
            if later != expected {
                let at = later.iter().zip(expected).position(|(one, other)| one != other);
                self.differs(call, format!("from {who} the buffer is another one at {at:?}"));
            }
        }
    }

    pub fn network(&mut self, network: &[u8]) {
        let reply = unsafe { raw::strakewhip_network(network.as_ptr(), network.len()) };
        let wrapped = strakewhip::network(network).map(|length| (0, length));
        self.replies("network", reply, model::network(network), wrapped);
    }

    /// The wrapper has only the forms that there are.
    pub fn turn(&mut self, form: u8, file: &[u8], out: &mut [u8]) -> Reply {
        let (mut own, mut expected) = (out.to_vec(), out.to_vec());
        let (f, o) = (file, &mut *out);
        let reply = unsafe { raw::strakewhip_turn(form, f.as_ptr(), f.len(), o.as_mut_ptr(), o.len()) };
        self.reply("turn", reply, model::turn(form, file, &mut expected));
        if let Some(form) = Form::from_number(form) {
            let wrapped = strakewhip::turn(form, file, &mut own).map(|length| (0, length));
            self.wrapped("turn", reply, wrapped);
        }
        self.buffers("turn", out, &own, &expected);
        reply
    }

    pub fn names(&mut self, network: &[u8], edit: &[u8]) -> Reply {
        let reply = unsafe { raw::strakewhip_names(network.as_ptr(), network.len(), edit.as_ptr(), edit.len()) };
        let wrapped = strakewhip::names(network, edit).map(|areas| (0, areas.iter().map(|area| 1 << (area - 1)).sum()));
        self.replies("names", reply, model::names(network, edit), wrapped);
        reply
    }

    pub fn edit(&mut self, network: &[u8], edit: &[u8], division: &mut [u8]) -> Reply {
        let (mut own, mut expected) = (division.to_vec(), division.to_vec());
        let (n, e, d) = (network, edit, &mut *division);
        let reply = unsafe { raw::strakewhip_edit(n.as_ptr(), n.len(), e.as_ptr(), e.len(), d.as_mut_ptr(), d.len()) };
        let wrapped = strakewhip::edit(network, edit, &mut own).map(|removed| (removed, 0));
        self.replies("edit", reply, model::edit(network, edit, &mut expected), wrapped);
        self.buffers("edit", division, &own, &expected);
        reply
    }

    pub fn edit_sheet(&mut self, network: &[u8], edit: &[u8], sheet: &mut [u8]) -> Reply {
        let (mut own, mut expected) = (sheet.to_vec(), sheet.to_vec());
        let (n, e, d) = (network, edit, &mut *sheet);
        let reply =
            unsafe { raw::strakewhip_edit_sheet(n.as_ptr(), n.len(), e.as_ptr(), e.len(), d.as_mut_ptr(), d.len()) };
        let wrapped = strakewhip::edit_sheet(network, edit, &mut own).map(|removed| (removed, 0));
        self.replies("edit_sheet", reply, model::edit_sheet(network, edit, &mut expected), wrapped);
        self.buffers("edit_sheet", sheet, &own, &expected);
        reply
    }

    pub fn run(&mut self, network: &[u8], edits: &[u8], division: &mut [u8], answers: &mut [u8]) -> Reply {
        self.run_as((edits::Form::Newest, network, edits), division, answers)
    }

    pub fn run_early(&mut self, network: &[u8], edits: &[u8], division: &mut [u8], answers: &mut [u8]) -> Reply {
        self.run_as((edits::Form::Earlier, network, edits), division, answers)
    }

    fn run_as(&mut self, files: (edits::Form, &[u8], &[u8]), division: &mut [u8], answers: &mut [u8]) -> Reply {
        let (form, n, e) = files;
        let (call, raw, wrapper): (&'static str, RawRun, WrappedRun) = match form {
            edits::Form::Newest => ("run", raw::strakewhip_run, strakewhip::run),
            edits::Form::Earlier => ("run_early", raw::strakewhip_run_early, strakewhip::run_early),
        };
        let (mut own, mut told) = (division.to_vec(), answers.to_vec());
        let (mut expected, mut due) = (division.to_vec(), answers.to_vec());
        let (d, a) = (&mut *division, &mut *answers);
        let reply = unsafe {
            let (to, room) = (a.as_mut_ptr(), a.len());
            raw(n.as_ptr(), n.len(), e.as_ptr(), e.len(), d.as_mut_ptr(), d.len(), to, room)
        };
        let wrapped = wrapper(n, e, &mut own, &mut told).map(|length| (0, length));
        self.replies(call, reply, model::run(form, n, e, &mut expected, &mut due), wrapped);
        self.buffers(call, division, &own, &expected);
        self.buffers(call, answers, &told, &due);
        reply
    }

    pub fn divide(&mut self, network: &[u8], sheet: &[u8], division: &mut [u8]) {
        let (mut own, mut expected) = (division.to_vec(), division.to_vec());
        let (n, s, d) = (network, sheet, &mut *division);
        let reply =
            unsafe { raw::strakewhip_divide(n.as_ptr(), n.len(), s.as_ptr(), s.len(), d.as_mut_ptr(), d.len()) };
        let wrapped = strakewhip::divide(network, sheet, &mut own).map(|()| (0, 0));
        self.replies("divide", reply, model::divide(network, sheet, &mut expected), wrapped);
        self.buffers("divide", division, &own, &expected);
    }

    pub fn merge(&mut self, network: &[u8], division: &[u8], sheet: &mut [u8]) {
        let (mut own, mut expected) = (sheet.to_vec(), sheet.to_vec());
        let (n, s, d) = (network, division, &mut *sheet);
        let reply = unsafe { raw::strakewhip_merge(n.as_ptr(), n.len(), s.as_ptr(), s.len(), d.as_mut_ptr(), d.len()) };
        let wrapped = strakewhip::merge(network, division, &mut own).map(|()| (0, 0));
        self.replies("merge", reply, model::merge(network, division, &mut expected), wrapped);
        self.buffers("merge", sheet, &own, &expected);
    }

    pub fn findings(&mut self, network: &[u8], sheet: &[u8], out: &mut [u16]) -> Reply {
        let (mut own, mut expected) = (out.to_vec(), out.to_vec());
        let (n, s, o) = (network, sheet, &mut *out);
        let reply =
            unsafe { raw::strakewhip_findings(n.as_ptr(), n.len(), s.as_ptr(), s.len(), o.as_mut_ptr(), o.len()) };
        let wrapped = strakewhip::findings(network, sheet, &mut own).map(|length| (0, length));
        self.replies("findings", reply, model::findings(network, sheet, &mut expected), wrapped);
        self.buffers("findings", out, &own, &expected);
        reply
    }

    pub fn area_findings(&mut self, network: &[u8], sheet: &[u8], area: u8, out: &mut [u16]) -> Reply {
        let (mut own, mut expected) = (out.to_vec(), out.to_vec());
        let (n, s, o) = (network, sheet, &mut *out);
        let reply = unsafe {
            raw::strakewhip_area_findings(n.as_ptr(), n.len(), s.as_ptr(), s.len(), area, o.as_mut_ptr(), o.len())
        };
        let wrapped = strakewhip::area_findings(network, sheet, area, &mut own).map(|length| (0, length));
        self.replies("area_findings", reply, model::area_findings(network, sheet, area, &mut expected), wrapped);
        self.buffers("area_findings", out, &own, &expected);
        reply
    }

    pub fn pair_findings(&mut self, network: &[u8], sheets: [&[u8]; 2], areas: [u8; 2], out: &mut [u16]) -> Reply {
        let (mut own, mut expected) = (out.to_vec(), out.to_vec());
        let (n, [s, t], [a, b], o) = (network, sheets, areas, &mut *out);
        let reply = unsafe {
            let (to, room) = (o.as_mut_ptr(), o.len());
            raw::strakewhip_pair_findings(n.as_ptr(), n.len(), s.as_ptr(), s.len(), t.as_ptr(), t.len(), a, b, to, room)
        };
        let wrapped = strakewhip::pair_findings(network, s, t, a, b, &mut own).map(|length| (0, length));
        self.replies("pair_findings", reply, model::pair_findings(network, s, t, a, b, &mut expected), wrapped);
        self.buffers("pair_findings", out, &own, &expected);
        reply
    }

    pub fn recheck(&mut self, network: &[u8], sheet: &[u8], edit: &[u8], list: &[u16], out: &mut [u16]) -> Reply {
        let (mut own, mut expected) = (out.to_vec(), out.to_vec());
        let (n, s, e, l, o) = (network, sheet, edit, list, &mut *out);
        let reply = unsafe {
            let (from, many, to, room) = (l.as_ptr(), l.len(), o.as_mut_ptr(), o.len());
            let (e, bytes) = (e.as_ptr(), e.len());
            raw::strakewhip_recheck(n.as_ptr(), n.len(), s.as_ptr(), s.len(), e, bytes, from, many, to, room)
        };
        let wrapped = strakewhip::recheck(network, sheet, edit, list, &mut own).map(|length| (0, length));
        self.replies("recheck", reply, model::recheck(network, sheet, edit, list, &mut expected), wrapped);
        self.buffers("recheck", out, &own, &expected);
        reply
    }

    pub fn recheck_area(
        &mut self,
        network: &[u8],
        sheet: &[u8],
        edit: &[u8],
        area: u8,
        list: &[u16],
        out: &mut [u16],
    ) -> Reply {
        let (mut own, mut expected) = (out.to_vec(), out.to_vec());
        let (n, s, e, l, o) = (network, sheet, edit, list, &mut *out);
        let reply = unsafe {
            let (from, many, to, room) = (l.as_ptr(), l.len(), o.as_mut_ptr(), o.len());
            let (e, bytes) = (e.as_ptr(), e.len());
            raw::strakewhip_recheck_area(n.as_ptr(), n.len(), s.as_ptr(), s.len(), e, bytes, area, from, many, to, room)
        };
        let wrapped = strakewhip::recheck_area(network, sheet, edit, area, list, &mut own).map(|length| (0, length));
        let due = model::recheck_area(network, sheet, edit, area, list, &mut expected);
        self.replies("recheck_area", reply, due, wrapped);
        self.buffers("recheck_area", out, &own, &expected);
        reply
    }

    pub fn read(&mut self, network: &[u8], timetable: &[u8], sheet: &mut [u8]) -> Reply {
        self.read_as(edits::Form::Newest, network, timetable, sheet)
    }

    pub fn read_early(&mut self, network: &[u8], timetable: &[u8], sheet: &mut [u8]) -> Reply {
        self.read_as(edits::Form::Earlier, network, timetable, sheet)
    }

    fn read_as(&mut self, form: edits::Form, network: &[u8], timetable: &[u8], sheet: &mut [u8]) -> Reply {
        let (call, raw, wrapper): (&'static str, RawRead, WrappedRead) = match form {
            edits::Form::Newest => ("read", raw::strakewhip_read, strakewhip::read),
            edits::Form::Earlier => ("read_early", raw::strakewhip_read_early, strakewhip::read_early),
        };
        let (mut own, mut expected) = (sheet.to_vec(), sheet.to_vec());
        let (n, t, s) = (network, timetable, &mut *sheet);
        let reply = unsafe { raw(n.as_ptr(), n.len(), t.as_ptr(), t.len(), s.as_mut_ptr(), s.len()) };
        let wrapped = wrapper(network, timetable, &mut own).map(|length| (0, length));
        self.replies(call, reply, model::read(form, network, timetable, &mut expected), wrapped);
        self.buffers(call, sheet, &own, &expected);
        reply
    }

    pub fn write(&mut self, network: &[u8], sheet: &[u8], out: &mut [u8]) -> Reply {
        let (mut own, mut expected) = (out.to_vec(), out.to_vec());
        let (n, s, o) = (network, sheet, &mut *out);
        let reply = unsafe { raw::strakewhip_write(n.as_ptr(), n.len(), s.as_ptr(), s.len(), o.as_mut_ptr(), o.len()) };
        let wrapped = strakewhip::write(network, sheet, &mut own).map(|length| (0, length));
        self.replies("write", reply, model::write(network, sheet, &mut expected), wrapped);
        self.buffers("write", out, &own, &expected);
        reply
    }

    pub fn project(&mut self, network: &[u8], sheet: &[u8], from: (u8, u16, u16), out: &mut [i32]) {
        let (mut own, mut expected) = (out.to_vec(), out.to_vec());
        let (n, s, (at, train, time), o) = (network, sheet, from, &mut *out);
        let reply = unsafe {
            let (to, room) = (o.as_mut_ptr(), o.len());
            raw::strakewhip_project(n.as_ptr(), n.len(), s.as_ptr(), s.len(), at, train, time, to, room)
        };
        let wrapped = strakewhip::project(network, sheet, at, train, time, &mut own).map(|length| (0, length));
        self.replies("project", reply, model::project(network, sheet, at, train, time, &mut expected), wrapped);
        self.buffers("project", out, &own, &expected);
    }

    pub fn raise(&mut self, edit: &[u8], refusal: u8, removed: u8, counts: &mut [u32; 4]) {
        let (mut own, mut expected) = (*counts, *counts);
        let reply = unsafe { raw::strakewhip_raise(edit.as_ptr(), edit.len(), refusal, removed, counts) };
        let wrapped = strakewhip::raise(edit, refusal, removed, &mut own).map(|()| (0, 0));
        self.replies("raise", reply, model::raise(edit, refusal, removed, &mut expected), wrapped);
        self.buffers("raise", &counts[..], &own, &expected);
    }
}
