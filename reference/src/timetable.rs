//! The timetable's part of a file: reading it, testing it under a network, writing it.

use crate::edits::{read_line, read_mark, read_relation, read_run, read_station, read_time, read_track, read_train, Form};
use crate::machine::{LIMIT, UNKNOWN};
use crate::network::Network;
use crate::number::{self, FileRefusal, Reader, Rising};
use crate::railway::{
    Event, InLink, OutLink, Relation, Station, Timetable, Train, Visit, RELATIONS_AT_STATION, VISITS_AT_STATION,
};

struct VisitEntry {
    place: usize,
    station: Station,
    train: Train,
    visit: Visit,
}

struct RelationEntry {
    place: usize,
    station: Station,
    relation: Relation,
}

/// The entries of a timetable as they stand, each with its first byte for refusals 7 and 12.
pub struct TimetablePart {
    visits: Vec<VisitEntry>,
    relations: Vec<RelationEntry>,
}

fn read_event(reader: &mut Reader) -> Result<Event, FileRefusal> {
    let time = read_time(reader)?;
    let occurred = reader.within(0..=1)?.value == 1;
    Ok(Event { time, occurred })
}

/// "Fields as listed, or a single 0 for none."
fn read_in_link(reader: &mut Reader) -> Result<Option<InLink>, FileRefusal> {
    let station = reader.within(0..=16)?.value;
    if station == 0 {
        return Ok(None);
    }
    Ok(Some(InLink { previous: Station(station), line: read_line(reader)? }))
}

fn read_out_link(reader: &mut Reader) -> Result<Option<OutLink>, FileRefusal> {
    let station = reader.within(0..=16)?.value;
    if station == 0 {
        return Ok(None);
    }
    Ok(Some(OutLink { next: Station(station), line: read_line(reader)?, run: read_run(reader)? }))
}

impl TimetablePart {
    /// "Timetable: count of visits (0..384), each s, t, track, arrival, status, departure, status, in-link, out-link,
    /// rising by s and t alone; count of relations (0..96), each with its station before it, rising." W6: a stop mark
    /// "after its track", "and in the timetable file".
    pub fn read(reader: &mut Reader, form: Form) -> Result<TimetablePart, FileRefusal> {
        let mut visits = Vec::new();
        let visit_count = reader.within(0..=384)?.value;
        let mut rising = Rising::default();
        for _ in 0..visit_count {
            let station = read_station(reader)?;
            rising.compare(station)?;
            let train = read_train(reader)?;
            rising.compare_last(train)?;
            let visit = Visit {
                track: read_track(reader)?,
                mark: read_mark(reader, form)?,
                arrival: read_event(reader)?,
                departure: read_event(reader)?,
                in_link: read_in_link(reader)?,
                out_link: read_out_link(reader)?,
            };
            visits.push(VisitEntry { place: station.place, station: Station(station.value), train: Train(train.value), visit });
        }
        let mut relations = Vec::new();
        let relation_count = reader.within(0..=96)?.value;
        let mut rising = Rising::default();
        for _ in 0..relation_count {
            let station = read_station(reader)?;
            rising.compare(station)?;
            let relation = read_relation(reader, &mut |number, last| {
                if last {
                    rising.compare_last(number)
                } else {
                    rising.compare(number)
                }
            })?;
            relations.push(RelationEntry { place: station.place, station: Station(station.value), relation });
        }
        Ok(TimetablePart { visits, relations })
    }

    /// "A timetable file is then tested for 7 and 12, entry by entry."
    pub fn under(self, network: &Network) -> Result<Timetable, FileRefusal> {
        let mut timetable = Timetable::default();
        for VisitEntry { place, station, train, visit } in self.visits {
            let known = network.has_track(station, visit.track)
                && visit.in_link.is_none_or(|link| network.runs(link.line, link.previous, station))
                && visit.out_link.is_none_or(|link| network.runs(link.line, station, link.next));
            if !known {
                return Err(FileRefusal { number: UNKNOWN, place });
            }
            if timetable.visits_at(station).len() >= VISITS_AT_STATION {
                return Err(FileRefusal { number: LIMIT, place });
            }
            timetable.visits.insert((station, train), visit);
        }
        for RelationEntry { place, station, relation } in self.relations {
            if !network.lists(station) {
                return Err(FileRefusal { number: UNKNOWN, place });
            }
            let mut there = timetable.relations_at(station);
            if there.len() >= RELATIONS_AT_STATION {
                return Err(FileRefusal { number: LIMIT, place });
            }
            there.insert(relation);
            timetable.set_relations(station, there);
        }
        Ok(timetable)
    }
}

/// Writes a timetable in the newest form.
pub fn write(timetable: &Timetable) -> Vec<u8> {
    let mut file = Vec::new();
    let mut put = |value: u32| number::write(value, &mut file);
    put(timetable.visits.len() as u32);
    for ((station, train), visit) in &timetable.visits {
        put(station.0);
        put(train.0);
        put(visit.track.0);
        put(u32::from(visit.mark));
        for event in [visit.arrival, visit.departure] {
            put(event.time as u32);
            put(u32::from(event.occurred));
        }
        match visit.in_link {
            None => put(0),
            Some(link) => {
                put(link.previous.0);
                put(link.line.0);
            }
        }
        match visit.out_link {
            None => put(0),
            Some(link) => {
                put(link.next.0);
                put(link.line.0);
                put(link.run as u32);
            }
        }
    }
    put(timetable.relation_count() as u32);
    for station in timetable.stations_with_relations() {
        for relation in timetable.relations_at(station) {
            let (kind, interval, count, trains) = relation.key();
            put(station.0);
            put(kind);
            put(interval as u32);
            put(count as u32);
            for train in trains {
                put(train.0);
            }
        }
    }
    file
}
