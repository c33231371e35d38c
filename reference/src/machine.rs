//! "The central machine": what an edit answers and what it does to the timetable.

use crate::edits::{Edit, Extension, Plan};
use crate::network::Network;
use crate::railway::{
    Area, Event, InLink, OutLink, Relation, Station, Timetable, Train, Visit, RELATIONS_AT_STATION, VISITS_AT_STATION,
};
use std::collections::BTreeSet;

/// "7 station, track or line unknown, or the line doesn't run that way".
pub const UNKNOWN: u32 = 7;
/// "8 visit or relation there already".
pub const THERE: u32 = 8;
/// "9 visit or relation missing".
pub const MISSING: u32 = 9;
/// "10 a link stands otherwise than the edit needs".
pub const LINKED: u32 = 10;
/// "11 an amendment alters an occurred time, or the track after an occurred arrival".
pub const OCCURRED: u32 = 11;
/// "12 a station limit is reached".
pub const LIMIT: u32 = 12;
/// W7: "It refuses, with 15 (the edit's answer, never a file's), a report whose event time is later than the minute it
/// carries".
pub const FUTURE: u32 = 15;

/// "An answer is a refusal number or 0, and the count of visits removed."
#[derive(Clone, Copy, Debug, PartialEq, Eq)]
pub struct Answer {
    pub refusal: u32,
    pub removed: u32,
}

/// Runs an edit. "A refused edit leaves the state as it was", and "its removed count is 0".
pub fn run(network: &Network, timetable: &mut Timetable, edit: &Edit) -> Answer {
    match refusal(network, timetable, edit) {
        0 => Answer { refusal: 0, removed: perform(network, timetable, edit) },
        refusal => Answer { refusal, removed: 0 },
    }
}

/// The first condition that holds, as its refusal number; the conditions are listed in the paper's order: "7, 6, 8, 9,
/// 10, 11, 12", and before them W7's 15, "tested straight after 3".
fn first_of(conditions: &[(bool, u32)]) -> u32 {
    conditions.iter().find(|(holds, _)| *holds).map_or(0, |(_, refusal)| *refusal)
}

/// The refusal of an edit whose values are in range, or 0.
pub fn refusal(network: &Network, timetable: &Timetable, edit: &Edit) -> u32 {
    let there = |station, train| timetable.visit(station, train).is_some();
    let full = |station| timetable.visits_at(station).len() >= VISITS_AT_STATION;
    match edit {
        Edit::Place(plan) => first_of(&[
            (!network.has_track(plan.station, plan.track), UNKNOWN),
            (there(plan.station, plan.train), THERE),
            (full(plan.station), LIMIT),
        ]),
        // "Adds (s, t) with out-link to p; the in-link of (p, t), none before".
        Edit::Prepend(plan, extension) => {
            let far = timetable.visit(extension.neighbour, plan.train);
            first_of(&[
                (!network.has_track(plan.station, plan.track), UNKNOWN),
                (!network.runs(extension.line, plan.station, extension.neighbour), UNKNOWN),
                (there(plan.station, plan.train), THERE),
                (far.is_none(), MISSING),
                (far.is_some_and(|visit| visit.in_link.is_some()), LINKED),
                (full(plan.station), LIMIT),
            ])
        }
        // "Adds (s, t) with in-link p; the out-link of (p, t), none before".
        Edit::Append(plan, extension) => {
            let far = timetable.visit(extension.neighbour, plan.train);
            first_of(&[
                (!network.has_track(plan.station, plan.track), UNKNOWN),
                (!network.runs(extension.line, extension.neighbour, plan.station), UNKNOWN),
                (there(plan.station, plan.train), THERE),
                (far.is_none(), MISSING),
                (far.is_some_and(|visit| visit.out_link.is_some()), LINKED),
                (full(plan.station), LIMIT),
            ])
        }
        Edit::DeleteFirst { station, train, neighbour } => first_of(&[
            (!network.lists(*station) || !network.lists(*neighbour), UNKNOWN),
            (!there(*station, *train) || !there(*neighbour, *train), MISSING),
            (!is_first_before(timetable, *station, *train, *neighbour), LINKED),
        ]),
        Edit::DeleteLast { station, train, neighbour } => first_of(&[
            (!network.lists(*station) || !network.lists(*neighbour), UNKNOWN),
            (!there(*station, *train) || !there(*neighbour, *train), MISSING),
            (!is_last_behind(timetable, *station, *train, *neighbour), LINKED),
        ]),
        Edit::Amend(plan) => first_of(&[
            (!network.has_track(plan.station, plan.track), UNKNOWN),
            (!there(plan.station, plan.train), MISSING),
            (alters_what_occurred(timetable, plan), OCCURRED),
        ]),
        Edit::ReportArrival(report) | Edit::ReportDeparture(report) => first_of(&[
            (report.time > report.present, FUTURE),
            (!network.lists(report.station), UNKNOWN),
            (!there(report.station, report.train), MISSING),
        ]),
        Edit::AddRelation { station, relation } => {
            let relations = timetable.relations_at(*station);
            first_of(&[
                (!network.lists(*station), UNKNOWN),
                (relations.contains(relation), THERE),
                (relations.len() >= RELATIONS_AT_STATION, LIMIT),
            ])
        }
        Edit::RemoveRelation { station, relation } => {
            first_of(&[(!network.lists(*station), UNKNOWN), (!timetable.relations_at(*station).contains(relation), MISSING)])
        }
        // "Removes its visits, if any, and takes t from all relations; never 9".
        Edit::DeleteTrain { .. } => 0,
    }
}

/// What refuses an edit before any sheet is looked at, 15 or 7, or 0: a report's minute and the network tell it.
pub fn own_refusal(network: &Network, edit: &Edit) -> u32 {
    let refusal = refusal(network, &Timetable::default(), edit);
    if [FUTURE, UNKNOWN].contains(&refusal) {
        refusal
    } else {
        0
    }
}

/// "An edit names the areas of its stations s and p; edit 11 names every area with a station; one refused with 3 or 7
/// names none." W7, of 15: "such an edit names no area".
pub fn names(network: &Network, edit: &Edit) -> BTreeSet<Area> {
    if own_refusal(network, edit) != 0 {
        return BTreeSet::new();
    }
    let stations = edit.stations().unwrap_or_else(|| network.stations.keys().copied().collect());
    stations.iter().filter_map(|station| network.stations.get(station)).map(|facts| facts.area).collect()
}

/// "(s, t) has no in-link and its out-link goes to p; (p, t) has s and that line as in-link."
fn is_first_before(timetable: &Timetable, station: Station, train: Train, neighbour: Station) -> bool {
    timetable.visit(station, train).is_some_and(|visit| {
        visit.in_link.is_none()
            && visit.out_link.is_some_and(|link| link.next == neighbour)
            && timetable.out_answered(station, train)
    })
}

/// "The mirror of 4."
fn is_last_behind(timetable: &Timetable, station: Station, train: Train, neighbour: Station) -> bool {
    timetable.visit(station, train).is_some_and(|visit| {
        visit.out_link.is_none()
            && visit.in_link.is_some_and(|link| link.previous == neighbour)
            && timetable.in_answered(station, train)
    })
}

/// "An amendment alters an occurred time, or the track after an occurred arrival."
fn alters_what_occurred(timetable: &Timetable, plan: &Plan) -> bool {
    timetable.visit(plan.station, plan.train).is_some_and(|visit| {
        let arrival_altered = visit.arrival.occurred && visit.arrival.time != plan.arrival;
        let track_altered = visit.arrival.occurred && visit.track != plan.track;
        let departure_altered = visit.departure.occurred && visit.departure.time != plan.departure;
        arrival_altered || track_altered || departure_altered
    })
}

/// "A visit, both times pending, no links."
fn placed(plan: &Plan) -> Visit {
    Visit {
        track: plan.track,
        mark: plan.mark,
        arrival: Event::pending_at(plan.arrival),
        departure: Event::pending_at(plan.departure),
        in_link: None,
        out_link: None,
    }
}

/// What an edit that is not refused does; gives the count of visits removed.
fn perform(network: &Network, timetable: &mut Timetable, edit: &Edit) -> u32 {
    match edit {
        Edit::Place(plan) => {
            timetable.visits.insert((plan.station, plan.train), placed(plan));
            0
        }
        Edit::Prepend(plan, Extension { neighbour, line, run }) => {
            let out_link = Some(OutLink { next: *neighbour, line: *line, run: *run });
            timetable.visits.insert((plan.station, plan.train), Visit { out_link, ..placed(plan) });
            // "The in-link of (p, t), none before, becomes s and that line."
            change(timetable, *neighbour, plan.train, |visit| {
                visit.in_link = Some(InLink { previous: plan.station, line: *line });
            });
            0
        }
        Edit::Append(plan, Extension { neighbour, line, run }) => {
            let in_link = Some(InLink { previous: *neighbour, line: *line });
            timetable.visits.insert((plan.station, plan.train), Visit { in_link, ..placed(plan) });
            // "The out-link of (p, t), none before, becomes s, line and running time."
            change(timetable, *neighbour, plan.train, |visit| {
                visit.out_link = Some(OutLink { next: plan.station, line: *line, run: *run });
            });
            0
        }
        // "Removes (s, t), clears that in-link, takes t from the relations at s."
        Edit::DeleteFirst { station, train, neighbour } => {
            timetable.visits.remove(&(*station, *train));
            change(timetable, *neighbour, *train, |visit| visit.in_link = None);
            timetable.take_from_relations(*station, *train);
            1
        }
        Edit::DeleteLast { station, train, neighbour } => {
            timetable.visits.remove(&(*station, *train));
            change(timetable, *neighbour, *train, |visit| visit.out_link = None);
            timetable.take_from_relations(*station, *train);
            1
        }
        // "New track and times, statuses and links kept."; of the mark W6: "amending sets it anew".
        Edit::Amend(plan) => {
            change(timetable, plan.station, plan.train, |visit| {
                visit.track = plan.track;
                visit.mark = plan.mark;
                visit.arrival.time = plan.arrival;
                visit.departure.time = plan.departure;
            });
            0
        }
        // "Sets time and occurred anew."; the minute is judged, and not kept.
        Edit::ReportArrival(report) => {
            change(timetable, report.station, report.train, |visit| visit.arrival = Event::occurred_at(report.time));
            0
        }
        Edit::ReportDeparture(report) => {
            change(timetable, report.station, report.train, |visit| visit.departure = Event::occurred_at(report.time));
            0
        }
        Edit::AddRelation { station, relation } => {
            change_relations(timetable, *station, |relations| relations.insert(relation.clone()));
            0
        }
        Edit::RemoveRelation { station, relation } => {
            change_relations(timetable, *station, |relations| relations.remove(relation));
            0
        }
        Edit::DeleteTrain { train } => {
            let before = timetable.visits.len();
            timetable.visits.retain(|(_, t), _| t != train);
            for station in network.stations.keys() {
                timetable.take_from_relations(*station, *train);
            }
            (before - timetable.visits.len()) as u32
        }
    }
}

fn change(timetable: &mut Timetable, station: Station, train: Train, how: impl FnOnce(&mut Visit)) {
    if let Some(visit) = timetable.visits.get_mut(&(station, train)) {
        how(visit);
    }
}

fn change_relations(timetable: &mut Timetable, station: Station, how: impl FnOnce(&mut BTreeSet<Relation>) -> bool) {
    let mut relations = timetable.relations_at(station);
    how(&mut relations);
    timetable.set_relations(station, relations);
}
