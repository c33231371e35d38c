#!/usr/bin/env python3
"""Tries the comparison itself: each deliberate mistake in a copy of the second implementation has to be found by it.

Usage: tests/mutants.py [WORD ...]    only the mistakes whose name has one of the words

The copy is built in a temporary folder. A mistake is found if compare.py reports a difference to the second implementation.
No program turns an old network file, updates a list of findings, tells the areas that an edit names or reads the
earlier form: of a mistake there (TURNED, RECHECKED, NAMED, EARLIER) the library's comparison has to report a difference
of those calls, for which crates/strakewhip/out/libstrakewhip.a has to be built.
"""

import os
import shutil
import subprocess
import sys
import tempfile

HERE = os.path.dirname(os.path.abspath(__file__))
TOP = os.path.join(HERE, "..")
REFERENCE = os.path.join(TOP, "reference")
ARCHIVES = os.path.abspath(os.path.join(TOP, "crates", "strakewhip", "out"))

# What refuses a report, in its order; and a clock that keeps the latest minute of the reports before.
AHEAD = "            (report.time > report.present, FUTURE),\n"
UNLISTED = "            (!network.lists(report.station), UNKNOWN),\n"
ABSENT = "            (!there(report.station, report.train), MISSING),\n"
KEPT = ("for (before, edit) in edits.iter().enumerate() {",
        "let mut clock = 0;\n    for (before, edit) in edits.iter().enumerate() {\n        let mut edit = edit.clone();\n"
        "        if let edits::Edit::ReportArrival(report) | edits::Edit::ReportDeparture(report) = &mut edit {\n"
        "            clock = report.present.max(clock);\n            report.present = clock;\n        }\n"
        "        let edit = &edit;")

# Name, file, what stands there, what stands there instead.
MUTANTS = [
    ("any spelling", "number.rs", "byte != 0 || length == 1", "true"),
    ("four bytes", "number.rs", "GROUPS: usize = 3", "GROUPS: usize = 4"),
    ("an early end at the number", "number.rs", "place: self.file.len() }", "place }"),
    ("an early end before a third byte with top bit", "number.rs", "for length in 1..=GROUPS {",
     "for length in 1..=GROUPS {\n if length == 3 && self.file.len() == self.place + 1 && self.file[self.place] >= 0x80 "
     "{ return Err(FileRefusal { number: LENGTH, place: self.file.len() }); }"),
    ("equal entries", "number.rs", "number.value == before[at] && last", "false"),
    ("falling entries", "number.rs", "let falls = number.value < before[at]", "let falls = last && number.value < before[at]"),
    ("surplus bytes", "number.rs", "if self.place == self.file.len()", "if true"),
    ("equal ends", "network.rs", "first == second ||", ""),
    ("second end unlisted", "network.rs", "|| !self.network.lists(second)", ""),
    ("first end unlisted", "network.rs", "|| !self.network.lists(first)", ""),
    ("ends and closures first", "programs.rs", "let edits = edits::read(&mut reader, Form::Newest)?;",
     "part.test_whole()?; let edits = edits::read(&mut reader, Form::Newest)?;"),
    ("station 17", "network.rs", "let number = reader.within(1..=16)?", "let number = reader.within(1..=17)?"),
    ("headway 31", "network.rs", "1..=30", "1..=31"),
    ("capacity 10", "network.rs", "1..=9)", "1..=10)"),
    ("no lines", "network.rs", "0..=32", "1..=32"),
    ("kind 2 as kind 1", "network.rs", "Direction::SecondToFirst => back", "Direction::SecondToFirst => forth"),
    ("kind 3 one way", "network.rs", "forth || back", "forth"),
    ("33 closures", "network.rs", "let closure_count = reader.within(0..=32)?", "let closure_count = reader.within(0..=33)?"),
    ("31 closures", "network.rs", "let closure_count = reader.within(0..=32)?", "let closure_count = reader.within(0..=31)?"),
    ("closure of line 33", "network.rs", "let line = reader.within(1..=32)?", "let line = reader.within(1..=33)?"),
    ("closure from 2880", "network.rs", "let start = reader.within(0..=LAST_MINUTE as u32)?",
     "let start = reader.within(0..=LAST_MINUTE as u32 + 1)?"),
    ("an end of 0 as 14", "network.rs", "let end = reader.within(1..=", "let end = reader.within(0..="),
    ("closure until 2881", "network.rs", "LAST_MINUTE as u32 + 1)?", "LAST_MINUTE as u32 + 2)?"),
    ("closure until 2879", "network.rs", "LAST_MINUTE as u32 + 1)?", "LAST_MINUTE as u32)?"),
    ("closures that differ in their ends", "network.rs",
     "rising.compare_last(start)?;\n            let end = reader.within(1..=LAST_MINUTE as u32 + 1)?;",
     "rising.compare(start)?;\n            let end = reader.within(1..=LAST_MINUTE as u32 + 1)?;\n            rising.compare_last(end)?;"),
    ("closures by line alone", "network.rs", "rising.compare(line)?;", "rising.compare_last(line)?;"),
    ("14 behind 4", "network.rs", "self.test_windows()?;\n        self.test_ends()?;\n        self.test_closed_lines()",
     "self.test_ends()?;\n        self.test_closed_lines()?;\n        self.test_windows()"),
    ("14 behind 4 of lines", "network.rs", "self.test_windows()?;\n        self.test_ends()?;",
     "self.test_ends()?;\n        self.test_windows()?;"),
    ("4 of closures before lines", "network.rs", "self.test_ends()?;\n        self.test_closed_lines()",
     "self.test_closed_lines()?;\n        self.test_ends()"),
    ("14 by place", "network.rs", "let (start, end) = (Minute",
     "if end.value <= start.value { return Err(line.refused(WINDOW)); }\n            let (start, end) = (Minute"),
    ("closures refused behind them", "network.rs", "closure_places.push(line.place)", "closure_places.push(reader.place())"),
    ("the last closure at fault", "network.rs", ".iter().position(faulty)", ".iter().rposition(faulty)"),
    ("an empty closure", "network.rs", "closure.end <= closure.start", "closure.end < closure.start"),
    ("closures of any line", "network.rs", "!self.network.lines.contains_key(&closure.line)", "false"),
    ("dependency of three", "edits.rs", "2..=2", "2..=4"),
    ("equal trains", "edits.rs", "train <= *before", "train < *before"),
    ("1001 edits", "edits.rs", "0..=1000", "0..=1001"),
    ("time 2880", "edits.rs", "0..=LAST_MINUTE as u32", "0..=LAST_MINUTE as u32 + 1"),
    ("interval 241", "edits.rs", "0..=240", "0..=241"),
    ("train 10000", "edits.rs", "1..=9999", "1..=10000"),
    ("any in-link", "timetable.rs", "network.runs(link.line, link.previous, station)", "true"),
    ("any out-link", "timetable.rs", "network.runs(link.line, station, link.next)", "true"),
    ("in-link from behind", "timetable.rs", "network.runs(link.line, link.previous, station)",
     "network.runs(link.line, station, link.previous)"),
    ("any station of a relation", "timetable.rs", "if !network.lists(station)", "if false"),
    ("12 before 7", "timetable.rs", "if !known {", "if !known && timetable.visits_at(station).len() < VISITS_AT_STATION {"),
    ("25 visits", "railway.rs", "VISITS_AT_STATION: usize = 24", "VISITS_AT_STATION: usize = 25"),
    ("5 relations", "railway.rs", "RELATIONS_AT_STATION: usize = 6", "RELATIONS_AT_STATION: usize = 5"),
    ("status 2", "timetable.rs", "0..=1)", "0..=2)"),
    ("stops without in-link", "railway.rs", "self.in_link.is_none() ||", ""),
    ("stops without out-link", "railway.rs", "|| self.out_link.is_none()", ""),
    ("stops at equal times", "railway.rs", "self.departure.time > self.arrival.time", "self.departure.time >= self.arrival.time"),
    ("interval behind count", "railway.rs",
     "self.key().cmp(&other.key())", "{ let k = |r: &Relation| { let (a, b, c, d) = r.key(); (a, c, b, d) }; k(self).cmp(&k(other)) }"),
    ("kind behind interval", "railway.rs",
     "self.key().cmp(&other.key())", "{ let k = |r: &Relation| { let (a, b, c, d) = r.key(); (b, a, c, d) }; k(self).cmp(&k(other)) }"),
    ("one-train dependencies dropped", "railway.rs", "if *arriver == train || *departer == train",
     "if *arriver == train || *departer == train || *arriver == *departer"),
    ("dependency of a departer kept", "railway.rs", "if *arriver == train || *departer == train", "if *arriver == train"),
    ("vanishes under three", "railway.rs", "trains.len() < 2", "trains.len() < 3"),
    ("stays with one", "railway.rs", "trains.len() < 2", "trains.is_empty()"),
    ("answered on another line", "railway.rs", "far.in_link == Some(InLink { previous: station, line: link.line })",
     "far.in_link.is_some_and(|one| one.previous == station)"),
    ("in-link answered on another line", "railway.rs", "out.next == station && out.line == link.line", "out.next == station"),
    ("place onto a visit", "machine.rs", "(there(plan.station, plan.train), THERE),\n            (full", "(full"),
    ("place at any track", "machine.rs", "Edit::Place(plan) => first_of(&[\n            (!network.has_track(plan.station, plan.track), UNKNOWN)",
     "Edit::Place(plan) => first_of(&[\n            (!network.lists(plan.station), UNKNOWN)"),
    ("prepend before the wrong link", "machine.rs", "far.is_some_and(|visit| visit.in_link.is_some())",
     "far.is_some_and(|visit| visit.out_link.is_some())"),
    ("append behind the wrong link", "machine.rs", "far.is_some_and(|visit| visit.out_link.is_some())",
     "far.is_some_and(|visit| visit.in_link.is_some())"),
    ("prepend backwards", "machine.rs", "network.runs(extension.line, plan.station, extension.neighbour)",
     "network.runs(extension.line, extension.neighbour, plan.station)"),
    ("12 before 10", "machine.rs",
     "(far.is_some_and(|visit| visit.out_link.is_some()), LINKED),\n                (full(plan.station), LIMIT),",
     "(full(plan.station), LIMIT),\n                (far.is_some_and(|visit| visit.out_link.is_some()), LINKED),"),
    ("12 before 9", "machine.rs", "(far.is_none(), MISSING),", "(far.is_none() && !full(plan.station), MISSING),"),
    ("12 before 8", "machine.rs", "(there(plan.station, plan.train), THERE),",
     "(there(plan.station, plan.train) && !full(plan.station), THERE),"),
    ("10 before 8", "machine.rs", "(there(plan.station, plan.train), THERE),\n                (far.is_none(), MISSING),",
     "(there(plan.station, plan.train) && !far.is_some_and(|v| v.in_link.is_some()), THERE),\n                (far.is_none(), MISSING),"),
    ("9 before 7", "machine.rs", "(!network.lists(*station) || !network.lists(*neighbour), UNKNOWN),", ""),
    ("limit at the neighbour", "machine.rs", "LINKED),\n                (full(plan.station), LIMIT)",
     "LINKED),\n                (full(extension.neighbour), LIMIT)"),
    ("amend at any track", "machine.rs", "(!network.has_track(plan.station, plan.track), UNKNOWN),\n            (!there",
     "(!network.lists(plan.station), UNKNOWN),\n            (!there"),
    ("9 before 8", "machine.rs", "(there(plan.station, plan.train), THERE),\n                (far.is_none(), MISSING),",
     "(far.is_none(), MISSING),\n                (there(plan.station, plan.train), THERE),"),
    ("8 before 7", "machine.rs",
     "(!network.has_track(plan.station, plan.track), UNKNOWN),\n            (there(plan.station, plan.train), THERE),",
     "(there(plan.station, plan.train), THERE),\n            (!network.has_track(plan.station, plan.track), UNKNOWN),"),
    ("12 before 8 of relations", "machine.rs",
     "(relations.contains(relation), THERE),\n                (relations.len() >= RELATIONS_AT_STATION, LIMIT),",
     "(relations.len() >= RELATIONS_AT_STATION, LIMIT),\n                (relations.contains(relation), THERE),"),
    ("delete first inside", "machine.rs", "visit.in_link.is_none()\n            &&", ""),
    ("delete last inside", "machine.rs", "visit.out_link.is_none()\n            &&", ""),
    ("delete first to anywhere", "machine.rs", "visit.out_link.is_some_and(|link| link.next == neighbour)",
     "visit.out_link.is_some()"),
    ("delete first asks for no neighbour", "machine.rs", "!network.lists(*station) || !network.lists(*neighbour)",
     "!network.lists(*station)"),
    ("delete first 10 before 9", "machine.rs", "!there(*station, *train) || !there(*neighbour, *train), MISSING",
     "!there(*station, *train), MISSING"),
    ("amend an arrival", "machine.rs", "arrival_altered || track_altered", "track_altered"),
    ("amend a track", "machine.rs", "arrival_altered || track_altered", "arrival_altered"),
    ("amend a departure", "machine.rs", "|| departure_altered", ""),
    ("amend a track after departure", "machine.rs", "visit.arrival.occurred && visit.track", "visit.departure.occurred && visit.track"),
    ("amend to pending", "machine.rs", "visit.arrival.time = plan.arrival", "visit.arrival = Event::pending_at(plan.arrival)"),
    ("amend without track", "machine.rs", "visit.track = plan.track;", ""),
    ("delete first keeps the link", "machine.rs", "visit.in_link = None", "visit.in_link = visit.in_link"),
    ("delete first keeps relations", "machine.rs",
     "|visit| visit.in_link = None);\n            timetable.take_from_relations(*station, *train);", "|visit| visit.in_link = None);"),
    ("delete last from the neighbour's relations", "machine.rs",
     "|visit| visit.out_link = None);\n            timetable.take_from_relations(*station", "|visit| visit.out_link = None);\n            timetable.take_from_relations(*neighbour"),
    ("delete last from all relations", "machine.rs",
     "|visit| visit.out_link = None);\n            timetable.take_from_relations(*station, *train)",
     "|visit| visit.out_link = None);\n            for s in network.stations.keys() { timetable.take_from_relations(*s, *train) }"),
    ("delete last writes over the neighbour", "machine.rs", "change(timetable, *neighbour, *train, |visit| visit.out_link = None);",
     "if let Some(gone) = gone { timetable.visits.insert((*neighbour, *train), Visit { in_link: None, ..gone }); }"),
    ("delete train keeps relations", "machine.rs", "for station in network.stations.keys()", "for station in network.stations.keys().take(0)"),
    ("delete train only where it visits", "machine.rs",
     "timetable.visits.retain(|(_, t), _| t != train);\n            for station in network.stations.keys() {",
     "let at: Vec<Station> = timetable.visits.keys().filter(|(_, t)| t == train).map(|(s, _)| *s).collect();\n"
     "            timetable.visits.retain(|(_, t), _| t != train);\n            for station in &at {"),
    ("delete train 9", "machine.rs", "Edit::DeleteTrain { .. } => 0",
     "Edit::DeleteTrain { train } => if timetable.visits.keys().any(|(_, t)| t == train) { 0 } else { MISSING }"),
    ("removed at most 15", "machine.rs", "(before - timetable.visits.len()) as u32", "((before - timetable.visits.len()) as u32).min(15)"),
    ("report keeps pending", "machine.rs", "visit.departure = Event::occurred_at(report.time)",
     "visit.departure.time = report.time"),
    ("report 11", "machine.rs", "(!there(report.station, report.train), MISSING),",
     "(!there(report.station, report.train), MISSING),\n            (timetable.visit(report.station, report.train)"
     ".is_some_and(|v| v.arrival.occurred && v.departure.occurred), OCCURRED),"),
    ("rule 1 equal", "findings.rs", "visit.departure.time < visit.arrival.time", "visit.departure.time <= visit.arrival.time"),
    ("rule 1 times only", "findings.rs", "|| (visit.departure.occurred && visit.arrival.pending())", ""),
    ("rule 2 strictly", "findings.rs", "other.departure.time + 1", "other.departure.time"),
    ("rule 2 one half", "findings.rs", "arrives_too_early(u, t) && arrives_too_early(t, u)", "arrives_too_early(u, t)"),
    ("rule 2 either", "findings.rs", "arrives_too_early(u, t) && arrives_too_early(t, u)",
     "(arrives_too_early(u, t) || arrives_too_early(t, u))"),
    ("rule 2 any status", "findings.rs", "one.arrival.pending() && one.arrival.time", "one.arrival.time"),
    ("rule 2 any track", "findings.rs", "t.track == u.track &&", ""),
    ("rule 2 nothing stands", "findings.rs", " || holds(t, u) || holds(u, t)", ""),
    ("rule 2 the smaller stands", "findings.rs", " || holds(u, t)", ""),
    ("rule 2 the larger stands", "findings.rs", " || holds(t, u)", ""),
    ("rule 2 departed stands", "findings.rs", "one.arrival.occurred && one.departure.pending()", "one.arrival.occurred"),
    ("rule 2 pending stands", "findings.rs", "one.arrival.occurred && one.departure.pending()", "one.departure.pending()"),
    ("rule 2 standing strictly", "findings.rs", "stands(one) && arrives_too_early(other, one)",
     "stands(one) && other.arrival.pending() && other.arrival.time < one.departure.time"),
    ("rule 2 both arrived", "findings.rs", "stands(one) && arrives_too_early(other, one)",
     "stands(one) && other.arrival.time < one.departure.time + 1"),
    ("rule 2 stands from its arrival's time", "findings.rs", "stands(one) && arrives_too_early(other, one)",
     "stands(one) && arrives_too_early(other, one) && other.arrival.time >= one.arrival.time"),
    ("rule 3 at the headway", "findings.rs", ".abs() < network.headway", ".abs() <= network.headway"),
    ("rule 3 both pending", "findings.rs", "(t.departure.pending() || u.departure.pending())",
     "(t.departure.pending() && u.departure.pending())"),
    ("rule 3 any status", "findings.rs", "&& (t.departure.pending() || u.departure.pending())", ""),
    ("rule 3 to one station", "findings.rs", "t_link.line == u_link.line", "t_link.next == u_link.next"),
    ("rule 3 signed", "findings.rs", "(t.departure.time - u.departure.time).abs()", "(t.departure.time - u.departure.time)"),
    ("connection above the interval", "findings.rs", "overlap >= *interval", "overlap > *interval"),
    ("connection without stops", "findings.rs", "visits.iter().all(Visit::stops)\n                &&", ""),
    ("connection one occurred", "findings.rs", "(one.departure.occurred && other.departure.occurred)",
     "(one.departure.occurred || other.departure.occurred)"),
    ("connection any status", "findings.rs", "(one.departure.occurred && other.departure.occurred) || overlap", "overlap"),
    ("connection later departure", "findings.rs", "one.departure.time.min(other.departure.time)", "one.departure.time.max(other.departure.time)"),
    ("connection unsigned", "findings.rs", "overlap >= *interval", "overlap.max(0) >= *interval"),
    ("disconnection one stops", "findings.rs", "!(one.stops() && other.stops())", "!(one.stops() || other.stops())"),
    ("disconnection without stops", "findings.rs", "!(one.stops() && other.stops())\n                    ||", ""),
    ("disconnection one occurred", "findings.rs", "(one.arrival.occurred && other.arrival.occurred)",
     "(one.arrival.occurred || other.arrival.occurred)"),
    ("disconnection departures", "findings.rs", "(one.arrival.occurred && other.arrival.occurred)",
     "(one.departure.occurred && other.departure.occurred)"),
    ("disconnection above the interval", "findings.rs", "one.arrival.time - other.departure.time >= *interval",
     "one.arrival.time - other.departure.time > *interval"),
    ("disconnection one way", "findings.rs", "|| after(other, one)", ""),
    ("dependency arriver passes", "findings.rs", "arriver.stops()\n                &&", ""),
    ("dependency departer passes", "findings.rs", "&& departer.stops()", ""),
    ("dependency any status", "findings.rs", "departer.departure.occurred || ", ""),
    ("dependency above the interval", "findings.rs", "departer.departure.time - arriver.arrival.time >= *interval",
     "departer.departure.time - arriver.arrival.time > *interval"),
    ("dependency exchanged", "findings.rs", "departer.departure.time - arriver.arrival.time", "arriver.departure.time - departer.arrival.time"),
    ("rank from 0", "findings.rs", "before as u32 + 1", "before as u32"),
    ("rule 5 equal", "findings.rs", "link.run < network", "link.run <= network"),
    ("freight from 5001", "network.rs", "train.0 >= 5000", "train.0 > 5000"),
    ("freight from 4999", "network.rs", "train.0 >= 5000", "train.0 >= 4999"),
    ("freight below 5000", "network.rs", "train.0 >= 5000", "train.0 < 5000"),
    ("passenger time for all", "network.rs", "train.0 >= 5000", "train.0 >= 10_000"),
    ("freight time for all", "network.rs", "train.0 >= 5000", "train.0 >= 1"),
    ("the lesser time for freight", "network.rs", "            self.freight_least\n",
     "            self.freight_least.min(self.passenger_least)\n"),
    ("the greater time for freight", "network.rs", "            self.freight_least\n",
     "            self.freight_least.max(self.passenger_least)\n"),
    ("the lesser time for passengers", "network.rs", "            self.passenger_least\n",
     "            self.passenger_least.min(self.freight_least)\n"),
    ("freight before passenger in the file", "network.rs", "direction, passenger_least, freight_least, capacity };",
     "direction, passenger_least: freight_least, freight_least: passenger_least, capacity };"),
    ("one time a line", "network.rs", "read_form(reader, Form::Newest)", "read_form(reader, Form::OneTime)"),
    ("passenger time 241", "network.rs", "passenger_least = Minute::from(reader.within(1..=240)?",
     "passenger_least = Minute::from(reader.within(1..=241)?"),
    ("passenger time 0", "network.rs", "passenger_least = Minute::from(reader.within(1..=240)?",
     "passenger_least = Minute::from(reader.within(0..=240)?"),
    ("freight time 241", "network.rs", "Newest => Minute::from(reader.within(1..=240)?",
     "Newest => Minute::from(reader.within(1..=241)?"),
    ("freight time 0", "network.rs", "Newest => Minute::from(reader.within(1..=240)?",
     "Newest => Minute::from(reader.within(0..=240)?"),
    ("freight never quicker", "network.rs", "Newest => Minute::from(reader.within(1..=240)?",
     "Newest => Minute::from(reader.within(passenger_least as u32..=240)?"),
    ("rule 6 equal departure", "findings.rs", "u.departure.time < t.departure.time", "u.departure.time <= t.departure.time"),
    ("rule 6 equal end", "findings.rs", "u.departure.time + u_link.run > t.departure.time", "u.departure.time + u_link.run >= t.departure.time"),
    ("rule 6 above capacity", "findings.rs", "ahead.len() >= network", "ahead.len() > network"),
    ("rule 6 overtaking strictly", "findings.rs", "*end >= t.departure.time + link.run", "*end > t.departure.time + link.run"),
    ("rule 6 without overtaking", "findings.rs", "(crowded || overtakes)", "crowded"),
    ("rule 6 without capacity", "findings.rs", "(crowded || overtakes)", "overtakes"),
    ("rule 6 any status", "findings.rs", "t.departure.pending() && !ahead.is_empty()", "!ahead.is_empty()"),
    ("rule 6 distinct times", "findings.rs", "let crowded = ahead.len()", "let crowded = ahead.iter().collect::<BTreeSet<_>>().len()"),
    ("rule 6 any line", "findings.rs", ".filter(|(_, u_link)| u_link.line == link.line)", ""),
    ("rule 7 none", "findings.rs", "if !timetable.out_answered(station, *t) {", "if false {"),
    ("rule 8 none", "findings.rs", "if !timetable.in_answered(station, *t) {", "if false {"),
    ("rule 9 any status", "findings.rs", "far.arrival.pending() && far.arrival.time", "far.arrival.time"),
    ("rule 9 unanswered", "findings.rs", "timetable.out_answered(station, train)\n        &&", ""),
    ("rule 9 earlier only", "findings.rs", "far.arrival.time != visit.departure.time + link.run", "far.arrival.time < visit.departure.time + link.run"),
    ("rule 10 strictly before", "findings.rs", "u_arrival >= t.departure.time", "u_arrival > t.departure.time"),
    ("rule 10 strictly behind", "findings.rs", "opposing.departure.time <= t.departure.time + link.run",
     "opposing.departure.time < t.departure.time + link.run"),
    ("rule 10 any status", "findings.rs", "&& t.departure.pending()\n        && u_arrival", "&& u_arrival"),
    ("rule 10 itself", "findings.rs", "visits_at(link.next).iter().filter(|(u, _)| u != t)", "visits_at(link.next).iter()"),
    ("rule 10 arrival of any visit", "findings.rs", "Some(at_s) if timetable.out_answered(link.next, u) =>", "Some(at_s) =>"),
    ("rule 10 arrival by run", "findings.rs", "=> at_s.arrival.time,", "=> at_s.arrival.time * 0 + opposing.departure.time + u_link.run,"),
    ("rule 10 any line", "findings.rs", "u_link.line != link.line || u_link.next != station", "u_link.next != station"),
    ("rule 11 at the end", "network.rs", "from < closure.end", "from <= closure.end"),
    ("rule 11 before the start", "network.rs", "closure.start < until", "closure.start <= until"),
    ("rule 11 at the departure alone", "network.rs", "closure.start < until", "closure.start <= from"),
    ("rule 11 within a closure alone", "network.rs", "from < closure.end && closure.start < until",
     "closure.start <= from && until <= closure.end"),
    ("rule 11 any line", "network.rs", "closure.line == line && ", ""),
    ("rule 11 any status", "findings.rs", "visit.departure.pending() && network.closed", "network.closed"),
    ("rule 11 arrival pending", "findings.rs", "visit.departure.pending() && network.closed",
     "visit.arrival.pending() && network.closed"),
    ("rule 11 least run", "findings.rs", "network.closed(link.line, visit.departure.time, visit.departure.time + link.run)",
     "network.closed(link.line, visit.departure.time, visit.departure.time + network.lines[&link.line].passenger_least)"),
    ("rule 11 past the last minute", "findings.rs",
     "visit.departure.pending() && network.closed(link.line, visit.departure.time, visit.departure.time + link.run)",
     "visit.departure.pending() && [0, 2880].iter().any(|day| "
     "network.closed(link.line, visit.departure.time - day, visit.departure.time + link.run - day))"),
    ("rule 11 answered", "findings.rs", "if rule_11(", "if timetable.out_answered(station, *t) && rule_11("),
    ("rule 11 one way", "findings.rs", "if rule_11(", "if network.lines[&link.line].first == station && rule_11("),
    ("rule 11 without its line", "findings.rs", "found(11, t.0, link.line.0, None)", "found(11, t.0, 0, None)"),
    ("rule 11 for each closure", "findings.rs", "found.into_iter().collect()",
     "let times = |one: &Finding| network.closures.iter().filter(|c| one.rule == 11 && c.line.0 == one.second).count().max(1);\n"
     "    found.into_iter().flat_map(|one| vec![one; times(&one)]).collect()"),
    ("rule 11 in a pair's list", "findings.rs", "found(11, t.0, link.line.0, None)", "found(11, t.0, link.line.0, far)"),
    ("area with far stations", "findings.rs", "located.far.is_none_or(|far| network.area_of(far) == area)", "true"),
    ("pair one way", "findings.rs", "areas == (one, other) || areas == (other, one)", "areas == (one, other)"),
    ("15 rows", "projection.rs", "ROWS: usize = 16", "ROWS: usize = 15"),
    ("17 rows", "projection.rs", "ROWS: usize = 16", "ROWS: usize = 17"),
    ("first arrival expected", "projection.rs", "let arrival = arrival(visit, expected);",
     "let arrival = if rows.is_empty() { expected } else { arrival(visit, expected) };"),
    ("later arrivals expected", "projection.rs", "let arrival = arrival(visit, expected);",
     "let arrival = if rows.is_empty() { arrival(visit, expected) } else { expected };"),
    ("departure not before arrival", "projection.rs", "visit.departure.time\n    } else if", "visit.departure.time.max(arrival)\n    } else if"),
    ("no minute's stop", "projection.rs", ".max(arrival + 1)", ".max(arrival)"),
    ("planned departure of a passing train", "projection.rs", "} else {\n        arrival\n    }", "} else {\n        arrival.max(visit.departure.time)\n    }"),
    ("along any link", "projection.rs", "|| !timetable.out_answered(station, train)", ""),
    ("never early", "projection.rs", "arrival - visit.arrival.time", "(arrival - visit.arrival.time).max(0)"),
    ("expected beyond the last minute", "programs.rs", "(visit.arrival.time + 5).min(LAST_MINUTE)",
     "(visit.arrival.time + 5).min(LAST_MINUTE + 5)"),
    ("prepend not counted", "tally.rs", "Edit::Place(_) | Edit::Prepend(..) | Edit::Append(..)", "Edit::Place(_) | Edit::Append(..)"),
    ("removed not counted", "tally.rs", "self.removed + answer.removed", "self.removed + answer.removed.min(1)"),
    ("16383 bytes", "programs.rs", "16_384", "16_383"),
    ("16385 bytes", "programs.rs", "16_384", "16_385"),
    ("written anew without running time", "timetable.rs", "put(link.run as u32);", "put(0);"),
    ("mark 2", "edits.rs", "reader.within(0..=1)?", "reader.within(0..=2)?"),
    ("no mark 1", "edits.rs", "reader.within(0..=1)?", "reader.within(0..=0)?"),
    ("mark before the track", "edits.rs", "track: read_track(reader)?,\n        mark: read_mark(reader, form)?,",
     "mark: read_mark(reader, form)?,\n        track: read_track(reader)?,"),
    ("mark behind the arrival", "edits.rs", "mark: read_mark(reader, form)?,\n        arrival: read_time(reader)?,",
     "arrival: read_time(reader)?,\n        mark: read_mark(reader, form)?,"),
    ("a visit's mark before the track", "timetable.rs",
     "track: read_track(reader)?,\n                mark: read_mark(reader, form)?,",
     "mark: read_mark(reader, form)?,\n                track: read_track(reader)?,"),
    ("a visit's mark is read as 0", "timetable.rs", "mark: read_mark(reader, form)?,",
     "mark: read_mark(reader, form)? && reader.place() == 0,"),
    ("written without marks", "timetable.rs", "put(u32::from(visit.mark));", ""),
    ("written with mark 0", "timetable.rs", "put(u32::from(visit.mark));", "put(0);"),
    ("the programs read the earlier form of edits", "programs.rs", "edits::read(&mut reader, Form::Newest)",
     "edits::read(&mut reader, Form::Earlier)"),
    ("the programs read the earlier form of timetables", "programs.rs", "TimetablePart::read(&mut reader, Form::Newest)",
     "TimetablePart::read(&mut reader, Form::Earlier)"),
    ("placed without a mark", "machine.rs", "mark: plan.mark,", "mark: false,"),
    ("prepended without a mark", "machine.rs", "Visit { out_link, ..placed(plan) }",
     "Visit { out_link, mark: false, ..placed(plan) }"),
    ("appended without a mark", "machine.rs", "Visit { in_link, ..placed(plan) }",
     "Visit { in_link, mark: false, ..placed(plan) }"),
    ("prepend marks the neighbour", "machine.rs", "visit.in_link = Some(InLink { previous: plan.station, line: *line });",
     "visit.in_link = Some(InLink { previous: plan.station, line: *line });\n                visit.mark = plan.mark;"),
    ("append marks the neighbour", "machine.rs", "visit.out_link = Some(OutLink { next: plan.station, line: *line, run: *run });",
     "visit.out_link = Some(OutLink { next: plan.station, line: *line, run: *run });\n                visit.mark = plan.mark;"),
    ("amend keeps the mark", "machine.rs", "visit.mark = plan.mark;", ""),
    ("amend never clears the mark", "machine.rs", "visit.mark = plan.mark;", "visit.mark |= plan.mark;"),
    ("amend keeps the mark of what arrived", "machine.rs", "visit.mark = plan.mark;",
     "if visit.arrival.pending() { visit.mark = plan.mark; }"),
    ("amend the mark with 11", "machine.rs", "arrival_altered || track_altered",
     "(visit.arrival.occurred && visit.mark != plan.mark) || arrival_altered || track_altered"),
    ("an arrival clears the mark", "machine.rs", "|visit| visit.arrival = Event::occurred_at(report.time)",
     "|visit| {\n visit.arrival = Event::occurred_at(report.time);\n visit.mark = false; }"),
    ("a departure clears the mark", "machine.rs", "|visit| visit.departure = Event::occurred_at(report.time)",
     "|visit| {\n visit.departure = Event::occurred_at(report.time);\n visit.mark = false; }"),
    ("stops without the mark", "railway.rs", "self.stops_unmarked() || self.mark", "self.stops_unmarked()"),
    ("stops by the mark alone", "railway.rs", "self.stops_unmarked() || self.mark", "self.mark"),
    ("a mark on a stop lifts it", "railway.rs", "self.stops_unmarked() || self.mark", "self.stops_unmarked() != self.mark"),
    ("a mark stops what is pending", "railway.rs", "|| self.mark", "|| (self.mark && self.arrival.pending())"),
    ("connections without the mark", "findings.rs", ".all(Visit::stops)", ".all(Visit::stops_unmarked)"),
    ("disconnections without the mark", "findings.rs", "!(one.stops() && other.stops())",
     "!(one.stops_unmarked() && other.stops_unmarked())"),
    ("arrivers without the mark", "findings.rs", "arriver.stops()", "arriver.stops_unmarked()"),
    ("departers without the mark", "findings.rs", "departer.stops()", "departer.stops_unmarked()"),
    ("a minute at a request stop", "projection.rs", ".max(arrival)\n", ".max(arrival + 1)\n"),
    ("a request stop as planned", "projection.rs", "visit.departure.time.max(arrival)\n", "visit.departure.time\n"),
    ("a request stop does not wait", "projection.rs", "visit.departure.time.max(arrival)\n", "arrival\n"),
    ("no minute at a marked stop", "projection.rs", "if visit.stops_unmarked()", "if visit.stops_unmarked() && !visit.mark"),
    ("15 at its own minute", "machine.rs", "report.time > report.present", "report.time >= report.present"),
    ("15 from the second minute on", "machine.rs", "report.time > report.present", "report.time > report.present + 1"),
    ("15 never", "machine.rs", AHEAD, ""),
    ("15 for a report of the past", "machine.rs", "report.time > report.present", "report.time < report.present"),
    ("15 behind 7", "machine.rs", AHEAD + UNLISTED, UNLISTED + AHEAD),
    ("15 behind 9", "machine.rs", AHEAD + UNLISTED + ABSENT, UNLISTED + ABSENT + AHEAD),
    ("15 behind 9 alone", "machine.rs", "report.time > report.present",
     "report.time > report.present && (!network.lists(report.station) || there(report.station, report.train))"),
    ("15 for arrivals alone", "machine.rs", "report.time > report.present",
     "matches!(edit, Edit::ReportArrival(_)) && report.time > report.present"),
    ("15 for departures alone", "machine.rs", "report.time > report.present",
     "matches!(edit, Edit::ReportDeparture(_)) && report.time > report.present"),
    ("15 for what is pending alone", "machine.rs", "report.time > report.present",
     "report.time > report.present && timetable.visit(report.station, report.train).is_none_or(|v| v.arrival.pending())"),
    ("15 by the planned time", "machine.rs", "report.time > report.present",
     "timetable.visit(report.station, report.train).map_or(report.time, |v| v.arrival.time) > report.present"),
    ("15 and yet done", "machine.rs", "refusal => Answer { refusal, removed: 0 },",
     "FUTURE => Answer { refusal: FUTURE, removed: perform(network, timetable, edit) },\n"
     "        refusal => Answer { refusal, removed: 0 },"),
    ("15 of the file", "edits.rs", "        present: read_present(reader, form)?,\n    })",
     "        present: read_present(reader, form)?,\n    })\n    .and_then(|report| if report.time <= report.present "
     "{ Ok(report) } else { Err(FileRefusal { number: 15, place: reader.place() }) })"),
    ("15 ends the list", "programs.rs", "let answer = machine::run(&network, &mut timetable, edit);",
     "let answer = machine::run(&network, &mut timetable, edit);\n        if answer.refusal == 15 { break; }"),
    ("15 not counted", "tally.rs", "if answer.refusal != 0 {",
     "if answer.refusal == 15 { return self; }\n        if answer.refusal != 0 {"),
    ("amendments judged", "machine.rs", "(!there(plan.station, plan.train), MISSING),",
     "(!there(plan.station, plan.train), MISSING),\n            (plan.departure == 2879, FUTURE),"),
    ("the minute kept as an arrival", "machine.rs", "visit.arrival = Event::occurred_at(report.time)",
     "visit.arrival = Event::occurred_at(report.present)"),
    ("the minute kept as a departure", "machine.rs", "visit.departure = Event::occurred_at(report.time)",
     "visit.departure = Event::occurred_at(report.present)"),
    ("a clock that never goes back", "programs.rs", *KEPT),
    ("minute before the time", "edits.rs", "time: read_time(reader)?,\n        present: read_present(reader, form)?,",
     "present: read_present(reader, form)?,\n        time: read_time(reader)?,"),
    ("minute before the train", "edits.rs",
     "train: Train(read_train(reader)?.value),\n        time: read_time(reader)?,\n        present: read_present(reader, form)?,",
     "present: read_present(reader, form)?,\n        train: Train(read_train(reader)?.value),\n        time: read_time(reader)?,"),
    ("minute 2880", "edits.rs", "Form::Newest => read_time(reader),",
     "Form::Newest => Ok(Minute::from(reader.within(0..=LAST_MINUTE as u32 + 1)?.value)),"),
    ("no minute 2879", "edits.rs", "Form::Newest => read_time(reader),",
     "Form::Newest => Ok(Minute::from(reader.within(0..=LAST_MINUTE as u32 - 1)?.value)),"),
    ("no minute 0", "edits.rs", "Form::Newest => read_time(reader),",
     "Form::Newest => Ok(Minute::from(reader.within(1..=LAST_MINUTE as u32)?.value)),"),
    ("no minutes", "edits.rs", "Form::Newest => read_time(reader),", "Form::Newest => Ok(LAST_MINUTE),"),
    ("no minutes of departures", "edits.rs", "8 => Edit::ReportDeparture(read_report(reader, form)?)",
     "8 => Edit::ReportDeparture(read_report(reader, Form::Earlier)?)"),
    # Wrong only in some orders: the comparison of reorderings has to find these, with the mistake on both sides.
    ("REORDERED limit of the whole", "machine.rs", "let full = |station| timetable.visits_at(station).len() >= VISITS_AT_STATION;",
     "let full = |station| timetable.visits_at(station).len() >= VISITS_AT_STATION || timetable.visits.len() >= 8;"),
    ("REORDERED relations elsewhere", "machine.rs", "(relations.contains(relation), THERE),",
     "(network.stations.keys().any(|s| timetable.relations_at(*s).contains(relation)), THERE),"),
    ("REORDERED answers by rank", "programs.rs", "answer.removed.into()]", "i64::from(answer.removed) + i64::from(before == 2)]"),
    ("REORDERED a clock that never goes back", "programs.rs", *KEPT),
    # A report that is answered with 15 may pass the edit that adds its visit.
    ("REORDERED 15 for what is there alone", "machine.rs", "report.time > report.present",
     "report.time > report.present && there(report.station, report.train)"),
    # Wrong only in what refuses an edit before a sheet is looked at, and so in the areas that it names.
    ("NAMED by a report from the future", "machine.rs", "[FUTURE, UNKNOWN].contains", "[UNKNOWN].contains"),
    # Wrong only in turning an old network file.
    ("TURNED without closures", "network.rs",
     "numbers.push(self.closures.len() as u32);\n        for closure in &self.closures {",
     "numbers.push(0);\n        for closure in self.closures.iter().take(0) {"),
    ("TURNED without ends", "network.rs", "closure.start as u32, closure.end as u32]", "closure.start as u32]"),
    ("TURNED with a freight time of its own", "network.rs", "Form::OneTime => passenger_least,", "Form::OneTime => 1,"),
    ("TURNED with slower freight", "network.rs", "Form::OneTime => passenger_least,",
     "Form::OneTime => (passenger_least + 1).min(240),"),
    ("TURNED into one time", "network.rs", "[facts.passenger_least as u32, facts.freight_least as u32, facts.capacity as u32]",
     "[facts.passenger_least as u32, facts.capacity as u32]"),
    ("TURNED from two times", "network.rs", "Form::OneTime => passenger_least,",
     "Form::OneTime => Minute::from(reader.within(1..=240)?.value),"),
    ("TURNED from a file without closures", "network.rs", "let closure_count = reader.within(0..=32)?.value;",
     "let closure_count = if form == Form::OneTime && reader.end().is_ok() { 0 } else { reader.within(0..=32)?.value };"),
    ("TURNED without a test of the whole", "network.rs", "Ok(read(file, form)?.write())",
     "Ok(NetworkPart::read_form(&mut Reader::new(file), form)?.network.write())"),
    ("TURNED refused in the new file", "network.rs", "Ok(read(file, form)?.write())",
     "Ok(read(file, form).map_err(|old| FileRefusal { place: old.place + 1, ..old })?.write())"),
    # Wrong only in the update of a list after an edit.
    ("RECHECKED without neighbours", "recheck.rs", "(7..=10).contains(&rule)", "(7..=6).contains(&rule)"),
    ("RECHECKED by rule 11 at neighbours", "recheck.rs", "(7..=10)", "(7..=11)"),
    ("RECHECKED without rule 10", "recheck.rs", "(7..=10)", "(7..=9)"),
    ("RECHECKED by all rules at neighbours", "recheck.rs", "((7..=10).contains(&rule) &&", "(rule > 0 &&"),
    ("RECHECKED at s alone", "recheck.rs", "named.contains(&station)", "named[0] == station"),
    ("RECHECKED beside s alone", "recheck.rs", "named.iter().any(", "named.iter().take(1).any("),
    ("RECHECKED along first to second", "network.rs", "[(one, other), (other, one)]", "[(one, other)]"),
    ("RECHECKED after a deletion as before it", "recheck.rs", "else { return true };", "else { return false };"),
    ("RECHECKED without what stays", "recheck.rs", "elsewhere.chain(redone)", "elsewhere.take(0).chain(redone)"),
    ("RECHECKED without what is redone", "recheck.rs", "elsewhere.chain(redone)", "elsewhere.chain(redone.take(0))"),
    ("RECHECKED with what is stale", "recheck.rs", "filter(|entry| !stale(network, edit, entry))", "filter(|_| true)"),
    ("RECHECKED from a list with an entry twice", "recheck.rs", "two[0] < two[1]", "two[0] <= two[1]"),
    # Wrong only in reading the earlier form.
    ("EARLIER read as the newest", "edits.rs", "Form::Earlier => Ok(false)",
     "Form::Earlier => Ok(reader.within(0..=1)?.value == 1)"),
    ("EARLIER read with mark 1", "edits.rs", "Form::Earlier => Ok(false)", "Form::Earlier => Ok(true)"),
    ("EARLIER edits read as the newest", "edits.rs", "mark: read_mark(reader, form)?",
     "mark: read_mark(reader, if form == Form::Earlier { Form::Newest } else { form })?"),
    ("EARLIER timetables read as the newest", "timetable.rs", "mark: read_mark(reader, form)?",
     "mark: read_mark(reader, if form == Form::Earlier { Form::Newest } else { form })?"),
    ("EARLIER visits refused in the new file", "timetable.rs", "place: station.place, station: Station(station.value), train",
     "place: station.place + usize::from(form == Form::Earlier) * visits.len(), station: Station(station.value), train"),
    ("EARLIER reports carry 0", "edits.rs", "Form::Earlier => Ok(LAST_MINUTE)", "Form::Earlier => Ok(0)"),
    ("EARLIER reports carry 1440", "edits.rs", "Form::Earlier => Ok(LAST_MINUTE)", "Form::Earlier => Ok(1440)"),
    ("EARLIER reports read with a minute", "edits.rs", "Form::Earlier => Ok(LAST_MINUTE)",
     "Form::Earlier => read_time(reader)"),
    ("EARLIER departures read with a minute", "edits.rs", "8 => Edit::ReportDeparture(read_report(reader, form)?)",
     "8 => Edit::ReportDeparture(read_report(reader, Form::Newest)?)"),
]

# The calls of the library that differ where a program cannot show it.
OF_THE_LIBRARY = {"TURNED": ("turn",), "RECHECKED": ("recheck", "recheck_area"), "NAMED": ("names",),
                  "EARLIER": ("run_early", "read_early")}


def by_programs(name, folder, built):
    """The first difference that compare.py reports of the programs with the mistake, or none."""
    programs = {program: os.path.join(built, "debug", program) for program in ("shift", "inspect")}
    command = [sys.executable, os.path.join(HERE, "compare.py"), "--stop", "--shift", programs["shift"],
               "--inspect", programs["inspect"]]
    if name.startswith("REORDERED"):
        command += ["--reference-shift", programs["shift"], "--reference-inspect", programs["inspect"], "--files", "0"]
    run = subprocess.run(command, stdout=subprocess.PIPE, stderr=subprocess.STDOUT, text=True,
                         env={**os.environ, "TMPDIR": folder})
    return run.stdout.split("\n")[1].strip() if run.returncode == 1 and "DIFFERENCE" in run.stdout else None


def by_library(calls, folder, built):
    """The first difference of these calls that tests/library, built beside the copy with the mistake, reports, or none."""
    if not os.path.exists(os.path.join(ARCHIVES, "libstrakewhip.a")):
        print("crates/strakewhip/out/libstrakewhip.a is not built")
        return None
    for part in (("tests", "library"), ("bindings", "rust")):
        shutil.copytree(os.path.join(TOP, *part), os.path.join(folder, *part), ignore=shutil.ignore_patterns("target"),
                        dirs_exist_ok=True)
    command = ["cargo", "run", "--quiet", "--offline", "--target-dir", built, "--", "10"]
    run = subprocess.run(command, cwd=os.path.join(folder, "tests", "library"), stdout=subprocess.PIPE,
                         stderr=subprocess.STDOUT, text=True, env={**os.environ, "STRAKEWHIP_LIB": ARCHIVES})
    heads = tuple(f"library: {call} differs" for call in calls)
    told = [line for line in run.stdout.split("\n") if line.startswith(heads)]
    return told[0] if run.returncode == 1 and told else None


def main():
    words = sys.argv[1:]
    chosen = [mutant for mutant in MUTANTS if not words or any(word in mutant[0] for word in words)]
    missed = []
    with tempfile.TemporaryDirectory(prefix="mutants-") as folder:
        copy = os.path.join(folder, "reference")
        built = os.path.join(folder, "target")
        for name, file, old, new in chosen:
            shutil.rmtree(copy, ignore_errors=True)
            shutil.copytree(REFERENCE, copy, ignore=shutil.ignore_patterns("target"))
            path = os.path.join(copy, "src", file)
            with open(path) as source:
                text = source.read()
            if old not in text:
                print(f"{name}: {file} has no such text")
                missed.append(name)
                continue
            text = text.replace(old, new, 1)
            if "gone" in new:
                text = text.replace("Edit::DeleteLast { station, train, neighbour } => {\n            timetable",
                                    "Edit::DeleteLast { station, train, neighbour } => {\n            let gone = timetable")
            with open(path, "w") as source:
                source.write(text)
            build = subprocess.run(["cargo", "build", "--quiet", "--offline", "--target-dir", built], cwd=copy,
                                   stdout=subprocess.PIPE, stderr=subprocess.STDOUT, text=True)
            if build.returncode:
                print(f"{name}: does not build\n{build.stdout}")
                missed.append(name)
                continue
            calls = OF_THE_LIBRARY.get(name.split(" ")[0])
            first = by_library(calls, folder, built) if calls else by_programs(name, folder, built)
            print(f"{name}: {first or 'NOT FOUND'}", flush=True)
            if not first:
                missed.append(name)
    print(f"{len(chosen)} mistakes, {len(missed)} not found" + "".join(f"\n  {name}" for name in missed))
    return 1 if missed else 0


if __name__ == "__main__":
    sys.exit(main())
