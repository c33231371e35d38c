//! "The railway and its numbers": the sorts, the visits, the relations and the timetable.

use std::collections::{BTreeMap, BTreeSet};

// "The theory has each as its own sort, so no call accepts a line number where a train number belongs."

#[derive(Clone, Copy, Debug, PartialEq, Eq, PartialOrd, Ord)]
pub struct Station(pub u32);
#[derive(Clone, Copy, Debug, PartialEq, Eq, PartialOrd, Ord)]
pub struct Area(pub u32);
#[derive(Clone, Copy, Debug, PartialEq, Eq, PartialOrd, Ord)]
pub struct Train(pub u32);
#[derive(Clone, Copy, Debug, PartialEq, Eq, PartialOrd, Ord)]
pub struct Line(pub u32);
#[derive(Clone, Copy, Debug, PartialEq, Eq, PartialOrd, Ord)]
pub struct Track(pub u32);

/// Whole minutes, signed so that differences and later times have room.
pub type Minute = i64;

/// "Times are whole minutes from 0 to 2879."
pub const LAST_MINUTE: Minute = 2879;

/// "Limits are per station: 24 visits, 6 relations."
pub const VISITS_AT_STATION: usize = 24;
pub const RELATIONS_AT_STATION: usize = 6;

/// "Arrival and departure, each a time and a status, pending (0) or occurred (1)."
#[derive(Clone, Copy, Debug, PartialEq, Eq)]
pub struct Event {
    pub time: Minute,
    pub occurred: bool,
}

impl Event {
    pub fn pending_at(time: Minute) -> Self {
        Event { time, occurred: false }
    }

    pub fn occurred_at(time: Minute) -> Self {
        Event { time, occurred: true }
    }

    pub fn pending(self) -> bool {
        !self.occurred
    }
}

/// "A previous station and a line."
#[derive(Clone, Copy, Debug, PartialEq, Eq)]
pub struct InLink {
    pub previous: Station,
    pub line: Line,
}

/// "A next station, a line and a running time."
#[derive(Clone, Copy, Debug, PartialEq, Eq)]
pub struct OutLink {
    pub next: Station,
    pub line: Line,
    pub run: Minute,
}

/// "A visit belongs to a station and a train."
#[derive(Clone, Copy, Debug, PartialEq, Eq)]
pub struct Visit {
    pub track: Track,
    /// W6: "A visit gains a stop mark, 0 or 1".
    pub mark: bool,
    pub arrival: Event,
    pub departure: Event,
    pub in_link: Option<InLink>,
    pub out_link: Option<OutLink>,
}

impl Visit {
    /// "A visit stops if it departs later than it arrives or lacks a link."; W6: "A marked visit stops even if the old
    /// condition doesn't hold."
    pub fn stops(&self) -> bool {
        self.stops_unmarked() || self.mark
    }

    /// The old condition, whatever the mark.
    pub fn stops_unmarked(&self) -> bool {
        self.departure.time > self.arrival.time || self.in_link.is_none() || self.out_link.is_none()
    }
}

/// "Each is a connection, a disconnection or a dependency, with an interval. The first two hold 2..4 different trains, a
/// dependency an arriver and a departer, perhaps the same."
#[derive(Clone, Debug, PartialEq, Eq)]
pub enum Relation {
    Connection { interval: Minute, trains: BTreeSet<Train> },
    Disconnection { interval: Minute, trains: BTreeSet<Train> },
    Dependency { interval: Minute, arriver: Train, departer: Train },
}

impl Relation {
    /// "Order: kind, interval, count of trains, trains."
    pub fn key(&self) -> (u32, Minute, usize, Vec<Train>) {
        match self {
            Relation::Connection { interval, trains } => (1, *interval, trains.len(), trains.iter().copied().collect()),
            Relation::Disconnection { interval, trains } => (2, *interval, trains.len(), trains.iter().copied().collect()),
            Relation::Dependency { interval, arriver, departer } => (3, *interval, 2, vec![*arriver, *departer]),
        }
    }

    /// "A relation without t stays. A connection or disconnection loses t, and vanishes under two trains. A dependency
    /// with t vanishes."
    pub fn without(&self, train: Train) -> Option<Relation> {
        let less = |trains: &BTreeSet<Train>| -> BTreeSet<Train> { trains.iter().copied().filter(|t| *t != train).collect() };
        let left = match self {
            Relation::Connection { interval, trains } => Relation::Connection { interval: *interval, trains: less(trains) },
            Relation::Disconnection { interval, trains } => {
                Relation::Disconnection { interval: *interval, trains: less(trains) }
            }
            Relation::Dependency { arriver, departer, .. } => {
                if *arriver == train || *departer == train {
                    return None;
                }
                self.clone()
            }
        };
        match &left {
            Relation::Connection { trains, .. } | Relation::Disconnection { trains, .. } if trains.len() < 2 => None,
            _ => Some(left),
        }
    }
}

impl PartialOrd for Relation {
    fn partial_cmp(&self, other: &Self) -> Option<std::cmp::Ordering> {
        Some(self.cmp(other))
    }
}

impl Ord for Relation {
    fn cmp(&self, other: &Self) -> std::cmp::Ordering {
        self.key().cmp(&other.key())
    }
}

/// "State: a map from (station, train) to visits, a set of relations per station."
#[derive(Clone, Debug, Default, PartialEq, Eq)]
pub struct Timetable {
    pub visits: BTreeMap<(Station, Train), Visit>,
    /// A station without relations has no entry, so that equal timetables are equal values.
    relations: BTreeMap<Station, BTreeSet<Relation>>,
}

impl Timetable {
    pub fn visit(&self, station: Station, train: Train) -> Option<&Visit> {
        self.visits.get(&(station, train))
    }

    /// The visits at a station, rising by train.
    pub fn visits_at(&self, station: Station) -> Vec<(Train, Visit)> {
        self.visits.iter().filter(|((s, _), _)| *s == station).map(|((_, t), visit)| (*t, *visit)).collect()
    }

    /// The relations at a station, in their order.
    pub fn relations_at(&self, station: Station) -> BTreeSet<Relation> {
        self.relations.get(&station).cloned().unwrap_or_default()
    }

    pub fn set_relations(&mut self, station: Station, relations: BTreeSet<Relation>) {
        if relations.is_empty() {
            self.relations.remove(&station);
        } else {
            self.relations.insert(station, relations);
        }
    }

    /// The stations that have relations, rising.
    pub fn stations_with_relations(&self) -> Vec<Station> {
        self.relations.keys().copied().collect()
    }

    pub fn relation_count(&self) -> usize {
        self.relations.values().map(BTreeSet::len).sum()
    }

    /// Takes a train from the relations at a station. "Relations that become equal are one."
    pub fn take_from_relations(&mut self, station: Station, train: Train) {
        let left = self.relations_at(station).iter().filter_map(|relation| relation.without(train)).collect();
        self.set_relations(station, left);
    }

    /// The out-link of (station, train) is answered if the far visit has this station and line as in-link (rule 7).
    pub fn out_answered(&self, station: Station, train: Train) -> bool {
        let Some(link) = self.visit(station, train).and_then(|visit| visit.out_link) else { return false };
        let Some(far) = self.visit(link.next, train) else { return false };
        far.in_link == Some(InLink { previous: station, line: link.line })
    }

    /// The mirror for in-links (rule 8): the far visit leaves for this station on this line, whatever its running time.
    pub fn in_answered(&self, station: Station, train: Train) -> bool {
        let Some(link) = self.visit(station, train).and_then(|visit| visit.in_link) else { return false };
        let Some(far) = self.visit(link.previous, train) else { return false };
        far.out_link.is_some_and(|out| out.next == station && out.line == link.line)
    }
}
