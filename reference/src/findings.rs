//! "Findings": the ten rules and W1's eleventh, and the lists of the whole timetable, of an area and of a pair.

use crate::network::{Direction, Network};
use crate::railway::{Area, Minute, OutLink, Relation, Station, Timetable, Train, Visit};
use std::collections::BTreeSet;

/// "Each is four numbers: station, rule, first, second (0 if unused), listed rising."
#[derive(Clone, Copy, Debug, PartialEq, Eq, PartialOrd, Ord)]
pub struct Finding {
    pub station: Station,
    pub rule: u32,
    pub first: u32,
    pub second: u32,
}

/// A finding with the far station that it looks at: none in rules 1 to 6 and 11, the link's other end in rules 7 to 10.
#[derive(Clone, Copy, Debug, PartialEq, Eq, PartialOrd, Ord)]
struct Located {
    finding: Finding,
    far: Option<Station>,
}

/// "A whole timetable's findings: all rules at all stations."
pub fn central(network: &Network, timetable: &Timetable) -> Vec<Finding> {
    rising(network, timetable, |_| true)
}

/// "An area's findings, at its stations: rules 1 to 6, and 7 to 10 where the far station is its own too."
///
/// W1: "Rule 11 reads one station, so it belongs to the area lists."
pub fn of_area(network: &Network, timetable: &Timetable, area: Area) -> Vec<Finding> {
    rising(network, timetable, |located| {
        network.area_of(located.finding.station) == area && located.far.is_none_or(|far| network.area_of(far) == area)
    })
}

/// "A pair's (unordered): 7 to 10 across the two, which differ."
pub fn of_pair(network: &Network, timetable: &Timetable, one: Area, other: Area) -> Vec<Finding> {
    rising(network, timetable, |located| {
        located.far.is_some_and(|far| {
            let areas = (network.area_of(located.finding.station), network.area_of(far));
            areas == (one, other) || areas == (other, one)
        })
    })
}

fn rising(network: &Network, timetable: &Timetable, wanted: impl Fn(&Located) -> bool) -> Vec<Finding> {
    let found: BTreeSet<Finding> =
        located(network, timetable).iter().filter(|one| wanted(one)).map(|one| one.finding).collect();
    found.into_iter().collect()
}

fn located(network: &Network, timetable: &Timetable) -> Vec<Located> {
    let mut all = Vec::new();
    for station in network.stations.keys().copied() {
        let mut found = |rule, first: u32, second: u32, far| {
            all.push(Located { finding: Finding { station, rule, first, second }, far });
        };
        let visits = timetable.visits_at(station);
        for (t, visit) in &visits {
            if rule_1(visit) {
                found(1, t.0, 0, None);
            }
            for (u, other) in visits.iter().filter(|(u, _)| t < u) {
                if rule_2(visit, other) {
                    found(2, t.0, u.0, None);
                }
                if rule_3(network, visit, other) {
                    found(3, t.0, u.0, None);
                }
            }
        }
        for (before, relation) in timetable.relations_at(station).iter().enumerate() {
            // "In rule 4 the rank of the relation from 1."
            if !met(timetable, station, relation) {
                found(4, before as u32 + 1, 0, None);
            }
        }
        for (t, visit) in &visits {
            if let Some(link) = visit.out_link {
                let far = Some(link.next);
                if rule_5(network, *t, link) {
                    found(5, t.0, 0, None);
                }
                let others: Vec<Visit> = visits.iter().filter(|(u, _)| u != t).map(|(_, other)| *other).collect();
                if rule_6(network, visit, link, &others) {
                    found(6, t.0, 0, None);
                }
                if !timetable.out_answered(station, *t) {
                    found(7, t.0, 0, far);
                }
                if rule_9(timetable, station, *t, visit, link) {
                    found(9, t.0, 0, far);
                }
                for (u, other) in timetable.visits_at(link.next).iter().filter(|(u, _)| u != t) {
                    if rule_10(network, timetable, station, visit, link, *u, other) {
                        found(10, t.0, u.0, far);
                    }
                }
                if rule_11(network, visit, link) {
                    found(11, t.0, link.line.0, None);
                }
            }
            if let Some(link) = visit.in_link {
                if !timetable.in_answered(station, *t) {
                    found(8, t.0, 0, Some(link.previous));
                }
            }
        }
    }
    all
}

/// "Departure before arrival, or occurred with arrival pending."
fn rule_1(visit: &Visit) -> bool {
    visit.departure.time < visit.arrival.time || (visit.departure.occurred && visit.arrival.pending())
}

/// "t < u, same track, both: u's arrival is pending and earlier than t's departure + 1; the same with t and u exchanged."
/// W2: "if t, either of them, has arrived, its departure is pending, and u's arrival is pending and earlier than t's
/// departure + 1, the pair is found, smaller train first. The other cases of rule 2 remain."
fn rule_2(t: &Visit, u: &Visit) -> bool {
    let arrives_too_early = |one: &Visit, other: &Visit| one.arrival.pending() && one.arrival.time < other.departure.time + 1;
    let stands = |one: &Visit| one.arrival.occurred && one.departure.pending();
    let holds = |one: &Visit, other: &Visit| stands(one) && arrives_too_early(other, one);
    t.track == u.track && ((arrives_too_early(u, t) && arrives_too_early(t, u)) || holds(t, u) || holds(u, t))
}

/// "t < u leave on one line, either pending, departures closer than the headway."
fn rule_3(network: &Network, t: &Visit, u: &Visit) -> bool {
    let (Some(t_link), Some(u_link)) = (t.out_link, u.out_link) else { return false };
    t_link.line == u_link.line
        && (t.departure.pending() || u.departure.pending())
        && (t.departure.time - u.departure.time).abs() < network.headway
}

/// Rule 4 finds what isn't met.
fn met(timetable: &Timetable, station: Station, relation: &Relation) -> bool {
    let visit = |train: &Train| timetable.visit(station, *train).copied();
    match relation {
        // "All visit and stop, and for each two of which either departure is pending, earlier departure less later arrival
        // is at least the interval."
        Relation::Connection { interval, trains } => {
            let Some(visits) = trains.iter().map(visit).collect::<Option<Vec<Visit>>>() else { return false };
            visits.iter().all(Visit::stops)
                && each_two(&visits, |one, other| {
                    let overlap = one.departure.time.min(other.departure.time) - one.arrival.time.max(other.arrival.time);
                    (one.departure.occurred && other.departure.occurred) || overlap >= *interval
                })
        }
        // "All visit; of each two that stop, one arrives the interval or more after the other departs, or both arrivals
        // have occurred."
        Relation::Disconnection { interval, trains } => {
            let Some(visits) = trains.iter().map(visit).collect::<Option<Vec<Visit>>>() else { return false };
            let after = |one: &Visit, other: &Visit| one.arrival.time - other.departure.time >= *interval;
            each_two(&visits, |one, other| {
                !(one.stops() && other.stops())
                    || after(one, other)
                    || after(other, one)
                    || (one.arrival.occurred && other.arrival.occurred)
            })
        }
        // "Both visit and stop; if the departer's departure is pending, it is the interval or more after the arriver's
        // arrival."
        Relation::Dependency { interval, arriver, departer } => {
            let (Some(arriver), Some(departer)) = (visit(arriver), visit(departer)) else { return false };
            arriver.stops()
                && departer.stops()
                && (departer.departure.occurred || departer.departure.time - arriver.arrival.time >= *interval)
        }
    }
}

fn each_two(visits: &[Visit], holds: impl Fn(&Visit, &Visit) -> bool) -> bool {
    (0..visits.len()).all(|i| (i + 1..visits.len()).all(|j| holds(&visits[i], &visits[j])))
}

/// "Run below the line's least."; W3: "The least time is then that of a line and a train, and rule 5 follows it."
fn rule_5(network: &Network, t: Train, link: OutLink) -> bool {
    link.run < network.lines[&link.line].least_run(t)
}

/// "t's departure is pending; trains u have out-links on its line, an earlier departure and departure + run later than t's
/// departure. There are some, and they number the capacity or more, or one's departure + run isn't below t's."
fn rule_6(network: &Network, t: &Visit, link: OutLink, others: &[Visit]) -> bool {
    let ahead: Vec<Minute> = others
        .iter()
        .filter_map(|u| u.out_link.map(|u_link| (u, u_link)))
        .filter(|(_, u_link)| u_link.line == link.line)
        .filter(|(u, u_link)| u.departure.time < t.departure.time && u.departure.time + u_link.run > t.departure.time)
        .map(|(u, u_link)| u.departure.time + u_link.run)
        .collect();
    let crowded = ahead.len() >= network.lines[&link.line].capacity;
    let overtakes = ahead.iter().any(|end| *end >= t.departure.time + link.run);
    t.departure.pending() && !ahead.is_empty() && (crowded || overtakes)
}

/// "The out-link is answered, the far arrival is pending and isn't departure + run."
fn rule_9(timetable: &Timetable, station: Station, train: Train, visit: &Visit, link: OutLink) -> bool {
    timetable.out_answered(station, train)
        && timetable
            .visit(link.next, train)
            .is_some_and(|far| far.arrival.pending() && far.arrival.time != visit.departure.time + link.run)
}

/// "Line of kind 3, t's departure pending: u leaves the far station on it towards s, and neither arrives before t departs
/// nor departs after t's departure + run. u's arrival is that at s if its link is answered, else departure + run."
fn rule_10(
    network: &Network,
    timetable: &Timetable,
    station: Station,
    t: &Visit,
    link: OutLink,
    u: Train,
    opposing: &Visit,
) -> bool {
    let Some(u_link) = opposing.out_link else { return false };
    if u_link.line != link.line || u_link.next != station {
        return false;
    }
    let u_arrival = match timetable.visit(station, u) {
        Some(at_s) if timetable.out_answered(link.next, u) => at_s.arrival.time,
        _ => opposing.departure.time + u_link.run,
    };
    network.lines[&link.line].direction == Direction::EitherWay
        && t.departure.pending()
        && u_arrival >= t.departure.time
        && opposing.departure.time <= t.departure.time + link.run
}

/// W1: "A pending departure whose occupation, from departure up to but not including departure + run, shares a minute
/// with a closure of its line." However many closures do, it is one finding.
fn rule_11(network: &Network, visit: &Visit, link: OutLink) -> bool {
    visit.departure.pending() && network.closed(link.line, visit.departure.time, visit.departure.time + link.run)
}
