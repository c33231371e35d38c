//! "Projection": the expected times along a journey.

use crate::railway::{Minute, Station, Timetable, Train, Visit};

/// "At most 16 visits."
pub const ROWS: usize = 16;

/// "Each visit's row is station, expected arrival, expected departure and lateness: expected less standing arrival,
/// negative if early."
#[derive(Clone, Copy, Debug, PartialEq, Eq)]
pub struct Row {
    pub station: Station,
    pub arrival: Minute,
    pub departure: Minute,
    pub lateness: Minute,
}

/// "From s, t and an expected arrival: expected departure from expected arrival, and the next arrival from that departure,
/// along answered links, at most 16 visits." No rows if (s, t) is missing.
pub fn project(timetable: &Timetable, station: Station, train: Train, expected: Minute) -> Vec<Row> {
    let mut rows = Vec::new();
    let mut station = station;
    let mut expected = expected;
    while let Some(visit) = timetable.visit(station, train) {
        let arrival = arrival(visit, expected);
        let departure = departure(visit, arrival);
        rows.push(Row { station, arrival, departure, lateness: arrival - visit.arrival.time });
        if rows.len() == ROWS || !timetable.out_answered(station, train) {
            break;
        }
        let Some(link) = visit.out_link else { break };
        // "The next arrival adds the run."
        expected = departure + link.run;
        station = link.next;
    }
    rows
}

/// "An occurred time stands (the first arrival too)."
fn arrival(visit: &Visit, expected: Minute) -> Minute {
    if visit.arrival.occurred {
        visit.arrival.time
    } else {
        expected
    }
}

/// "Otherwise departure is the arrival if the train doesn't stop, else the larger of planned departure and arrival + 1."
/// W6: "where only the mark makes a stop, projected departure is the larger of planned departure and arrival".
fn departure(visit: &Visit, arrival: Minute) -> Minute {
    if visit.departure.occurred {
        visit.departure.time
    } else if visit.stops_unmarked() {
        visit.departure.time.max(arrival + 1)
    } else if visit.mark {
        visit.departure.time.max(arrival)
    } else {
        arrival
    }
}
