//! W5, "Recheck after one edit": what an edit makes stale in a list of findings, and the list's update.

use crate::edits::Edit;
use crate::findings::Finding;
use crate::network::Network;
use crate::railway::Station;
use std::collections::BTreeSet;

/// An entry of a list that is lent: any four numbers.
pub type Entry = [u32; 4];

impl Finding {
    pub fn entry(&self) -> Entry {
        [self.station.0, self.rule, self.first, self.second]
    }
}

/// "Given some other list (3 unless it rises)": strictly, by the four numbers.
pub fn rises(list: &[Entry]) -> bool {
    list.windows(2).all(|two| two[0] < two[1])
}

/// "It is enough to redo the findings at the stations that the edit names, and rules 7 to 10 at stations joined to those
/// by a line", "with delete train redoing all".
pub fn stale(network: &Network, edit: &Edit, entry: &Entry) -> bool {
    let Some(named) = edit.stations() else { return true };
    let (station, rule) = (Station(entry[0]), entry[1]);
    named.contains(&station) || ((7..=10).contains(&rule) && named.iter().any(|other| network.joined(*other, station)))
}

/// "That list's entries elsewhere together with the redone ones": `found` is the list worked out from the new sheet.
pub fn updated(network: &Network, edit: &Edit, list: &[Entry], found: &[Finding]) -> Vec<Entry> {
    let elsewhere = list.iter().copied().filter(|entry| !stale(network, edit, entry));
    let redone = found.iter().map(Finding::entry).filter(|entry| stale(network, edit, entry));
    elsewhere.chain(redone).collect::<BTreeSet<Entry>>().into_iter().collect()
}
