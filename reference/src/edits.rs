//! The edits and their part of a file.

use crate::number::{FileRefusal, Number, Reader, RANGE};
use crate::railway::{Line, Minute, Relation, Station, Track, Train, LAST_MINUTE};

/// The forms of files of edits and timetables. W6: "Old files are read as before by naming the earlier form when
/// reading, and their visits get mark 0; what is written is the new form". W7: "A report read in W6's earlier form
/// carries 2879."
#[derive(Clone, Copy, Debug, PartialEq, Eq)]
pub enum Form {
    Earlier,
    Newest,
}

/// The fields of edit 1, which 2, 3 and 6 share; W6: a stop mark "after its track in every edit that carries a track".
#[derive(Clone, Copy, Debug, PartialEq, Eq)]
pub struct Plan {
    pub station: Station,
    pub train: Train,
    pub track: Track,
    pub mark: bool,
    pub arrival: Minute,
    pub departure: Minute,
}

/// The further fields of edits 2 and 3: "then p, line, running time".
#[derive(Clone, Copy, Debug, PartialEq, Eq)]
pub struct Extension {
    pub neighbour: Station,
    pub line: Line,
    pub run: Minute,
}

/// The fields of edits 7 and 8. W7: they "now carry the present minute, 0..2879, as a last field".
#[derive(Clone, Copy, Debug, PartialEq, Eq)]
pub struct Report {
    pub station: Station,
    pub train: Train,
    pub time: Minute,
    pub present: Minute,
}

#[derive(Clone, Debug, PartialEq, Eq)]
pub enum Edit {
    Place(Plan),
    Prepend(Plan, Extension),
    Append(Plan, Extension),
    DeleteFirst { station: Station, train: Train, neighbour: Station },
    DeleteLast { station: Station, train: Train, neighbour: Station },
    Amend(Plan),
    ReportArrival(Report),
    ReportDeparture(Report),
    AddRelation { station: Station, relation: Relation },
    RemoveRelation { station: Station, relation: Relation },
    DeleteTrain { train: Train },
}

impl Edit {
    /// "Its stations s and p"; none for edit 11, which is of all stations.
    pub fn stations(&self) -> Option<Vec<Station>> {
        match self {
            Edit::Place(plan) | Edit::Amend(plan) => Some(vec![plan.station]),
            Edit::Prepend(plan, extension) | Edit::Append(plan, extension) => Some(vec![plan.station, extension.neighbour]),
            Edit::DeleteFirst { station, neighbour, .. } | Edit::DeleteLast { station, neighbour, .. } => {
                Some(vec![*station, *neighbour])
            }
            Edit::ReportArrival(report) | Edit::ReportDeparture(report) => Some(vec![report.station]),
            Edit::AddRelation { station, .. } | Edit::RemoveRelation { station, .. } => Some(vec![*station]),
            Edit::DeleteTrain { .. } => None,
        }
    }
}

pub fn read_station(reader: &mut Reader) -> Result<Number, FileRefusal> {
    reader.within(1..=16)
}

pub fn read_train(reader: &mut Reader) -> Result<Number, FileRefusal> {
    reader.within(1..=9999)
}

pub fn read_line(reader: &mut Reader) -> Result<Line, FileRefusal> {
    Ok(Line(reader.within(1..=32)?.value))
}

pub fn read_track(reader: &mut Reader) -> Result<Track, FileRefusal> {
    Ok(Track(reader.within(1..=8)?.value))
}

/// W6: "a stop mark, 0 or 1"; a file of the earlier form has none.
pub fn read_mark(reader: &mut Reader, form: Form) -> Result<bool, FileRefusal> {
    match form {
        Form::Earlier => Ok(false),
        Form::Newest => Ok(reader.within(0..=1)?.value == 1),
    }
}

pub fn read_time(reader: &mut Reader) -> Result<Minute, FileRefusal> {
    Ok(Minute::from(reader.within(0..=LAST_MINUTE as u32)?.value))
}

/// W7: "the present minute, 0..2879"; "A report read in W6's earlier form carries 2879."
fn read_present(reader: &mut Reader, form: Form) -> Result<Minute, FileRefusal> {
    match form {
        Form::Earlier => Ok(LAST_MINUTE),
        Form::Newest => read_time(reader),
    }
}

pub fn read_run(reader: &mut Reader) -> Result<Minute, FileRefusal> {
    Ok(Minute::from(reader.within(1..=240)?.value))
}

/// "A relation is kind (1, 2, 3), interval, count of trains, trains (rising, except arriver, departer, whose count is
/// 2)."
///
/// `compare` is told each number with whether it is the last one, after its own range has been tested. In a file of
/// edits relations have no order among each other, and it does nothing.
pub fn read_relation(
    reader: &mut Reader,
    compare: &mut dyn FnMut(Number, bool) -> Result<(), FileRefusal>,
) -> Result<Relation, FileRefusal> {
    let kind = reader.within(1..=3)?;
    compare(kind, false)?;
    let interval = reader.within(0..=240)?;
    compare(interval, false)?;
    let dependency = kind.value == 3;
    let count = reader.within(if dependency { 2..=2 } else { 2..=4 })?;
    compare(count, false)?;
    let mut trains: Vec<Train> = Vec::new();
    for rank in 1..=count.value {
        let number = read_train(reader)?;
        let train = Train(number.value);
        if !dependency && trains.last().is_some_and(|before| train <= *before) {
            return Err(number.refused(RANGE));
        }
        compare(number, rank == count.value)?;
        trains.push(train);
    }
    let interval = Minute::from(interval.value);
    Ok(match kind.value {
        1 => Relation::Connection { interval, trains: trains.into_iter().collect() },
        2 => Relation::Disconnection { interval, trains: trains.into_iter().collect() },
        _ => Relation::Dependency { interval, arriver: trains[0], departer: trains[1] },
    })
}

fn read_plan(reader: &mut Reader, form: Form) -> Result<Plan, FileRefusal> {
    Ok(Plan {
        station: Station(read_station(reader)?.value),
        train: Train(read_train(reader)?.value),
        track: read_track(reader)?,
        mark: read_mark(reader, form)?,
        arrival: read_time(reader)?,
        departure: read_time(reader)?,
    })
}

fn read_extension(reader: &mut Reader) -> Result<Extension, FileRefusal> {
    Ok(Extension { neighbour: Station(read_station(reader)?.value), line: read_line(reader)?, run: read_run(reader)? })
}

fn read_report(reader: &mut Reader, form: Form) -> Result<Report, FileRefusal> {
    Ok(Report {
        station: Station(read_station(reader)?.value),
        train: Train(read_train(reader)?.value),
        time: read_time(reader)?,
        present: read_present(reader, form)?,
    })
}

fn read_edit(reader: &mut Reader, form: Form) -> Result<Edit, FileRefusal> {
    let mut unordered = |_: Number, _: bool| Ok(());
    Ok(match reader.within(1..=11)?.value {
        1 => Edit::Place(read_plan(reader, form)?),
        2 => Edit::Prepend(read_plan(reader, form)?, read_extension(reader)?),
        3 => Edit::Append(read_plan(reader, form)?, read_extension(reader)?),
        4 => Edit::DeleteFirst {
            station: Station(read_station(reader)?.value),
            train: Train(read_train(reader)?.value),
            neighbour: Station(read_station(reader)?.value),
        },
        5 => Edit::DeleteLast {
            station: Station(read_station(reader)?.value),
            train: Train(read_train(reader)?.value),
            neighbour: Station(read_station(reader)?.value),
        },
        6 => Edit::Amend(read_plan(reader, form)?),
        7 => Edit::ReportArrival(read_report(reader, form)?),
        8 => Edit::ReportDeparture(read_report(reader, form)?),
        9 => Edit::AddRelation {
            station: Station(read_station(reader)?.value),
            relation: read_relation(reader, &mut unordered)?,
        },
        10 => Edit::RemoveRelation {
            station: Station(read_station(reader)?.value),
            relation: read_relation(reader, &mut unordered)?,
        },
        _ => Edit::DeleteTrain { train: Train(read_train(reader)?.value) },
    })
}

/// "Edits: count (0..1000), then kind and fields."
pub fn read(reader: &mut Reader, form: Form) -> Result<Vec<Edit>, FileRefusal> {
    let count = reader.within(0..=1000)?.value;
    (0..count).map(|_| read_edit(reader, form)).collect()
}
