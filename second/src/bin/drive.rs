//! Measures the library's datagram calls by themselves: no lines, no hexadecimal.
//!
//! It is linked with the first program's library (`bench` says how) and gives both programs' tables
//! the same datagrams in memory: the sender's, or with `--receiver` the receiver's. The answers, the
//! reply bytes and the records are compared before anything is measured. The reply buffer is lent
//! again and again and never cleared; the receiver's call has none.

use std::hint::black_box;
use std::process::ExitCode;
use std::thread;
use std::time::{Duration, Instant};

use second::line::{perform, Frame, ROOM};
use second::load::{Load, RemoteLoad, RemoteStep, LOADS, REMOTE_LOADS};
use second::packet;
use second::receiver::Receiver;
use second::refusal::Refusal;
use second::remote::{Remote, State};
use second::row::PLACES;
use second::stream::Stream;
use second::table::{Served, Table};

const RUNS: usize = 15;

/// How many tables are served in turn.
const TABLES: [usize; 3] = [1, 100, 10_000];

/// A table of 64 rows of eight numbers: in use, SSRC, state, deadline, PauseID, sequence number,
/// hold-off, repeats left.
type Rows = [[u32; 8]; PLACES];

/// A receiver's table of 64 rows of five numbers: in use, SSRC, state, reports left, believed PauseID.
type RemoteRows = [[u32; 5]; PLACES];

/// The case, and its values: of Done the length of the replies, n and u, in the receiver's call n and
/// u; of a refusal its place.
#[repr(C)]
#[derive(Debug, Default, PartialEq, Eq)]
struct Numbers {
    case: usize,
    first: usize,
    second: usize,
    third: usize,
}

impl Numbers {
    fn refused(refusal: Refusal) -> Numbers {
        Numbers {
            case: refusal.case.number().into(),
            first: refusal.place,
            ..Numbers::default()
        }
    }
}

#[link(name = "measured", kind = "static")]
extern "C" {
    fn measured_datagram(
        rows: *mut [u32; 8],
        row_count: usize,
        datagram: *const u8,
        length: usize,
        time: u32,
        reply: *mut u8,
        room: usize,
    ) -> Numbers;

    fn measured_remote_datagram(
        rows: *mut [u32; 5],
        row_count: usize,
        datagram: *const u8,
        length: usize,
    ) -> Numbers;
}

/// The first program's datagram call.
fn call_first(rows: &mut Rows, datagram: &Datagram, reply: &mut [u8; ROOM]) -> Numbers {
    let bytes = datagram.bytes.as_slice();
    // The three slices are whole and apart from each other.
    unsafe {
        measured_datagram(
            rows.as_mut_ptr(),
            rows.len(),
            bytes.as_ptr(),
            bytes.len(),
            datagram.time,
            reply.as_mut_ptr(),
            reply.len(),
        )
    }
}

/// This program's datagram call, with its replies written.
fn call_second(
    table: &mut Table,
    datagram: &Datagram,
    reply: &mut Vec<u8>,
) -> Result<Served, Refusal> {
    reply.clear();
    let served = table.datagram(&datagram.bytes, datagram.time, ROOM)?;
    packet::write_replies(&served.replies, reply);
    Ok(served)
}

struct Datagram {
    time: u32,
    bytes: Vec<u8>,
}

/// The streams that a load adds, and its datagrams; none of a load of local calls.
struct Work {
    adds: Vec<Vec<u8>>,
    datagrams: Vec<Datagram>,
}

impl Work {
    fn of(load: Load) -> Work {
        let mut work = Work {
            adds: Vec::new(),
            datagrams: Vec::new(),
        };
        let _ = load.each(|frame| match Frame::read(frame) {
            Some(Frame::Add(_)) => Ok(work.adds.push(frame.to_vec())),
            Some(Frame::Datagram { time, bytes }) => Ok(work.datagrams.push(Datagram {
                time,
                bytes: bytes.to_vec(),
            })),
            _ => Err(()),
        });
        work
    }

    fn table(&self) -> Table {
        let mut table = Table::default();
        for add in &self.adds {
            let frame = Frame::read(add).expect("a load adds with frames");
            perform(&mut table, ROOM, frame).expect("a load adds streams that can be added");
        }
        table
    }
}

fn rows_of(table: &Table) -> Rows {
    let mut rows = [[0; 8]; PLACES];
    for (row, stream) in rows.iter_mut().zip(table.records()) {
        *row = row_of(stream);
    }
    rows
}

fn row_of(stream: &Stream) -> [u32; 8] {
    let (state, deadline) = stream.state.numbers();
    [
        stream.in_use.into(),
        stream.ssrc,
        state.into(),
        deadline,
        stream.pause_id.into(),
        stream.sequence.into(),
        stream.hold_off,
        stream.repeats.into(),
    ]
}

/// Both calls on every datagram: the same answer, reply and records.
fn agree(work: &Work) -> bool {
    let mut table = work.table();
    let mut rows = rows_of(&table);
    let mut first_reply = [0; ROOM];
    let mut second_reply = Vec::new();
    work.datagrams.iter().all(|datagram| {
        let first = call_first(&mut rows, datagram, &mut first_reply);
        let second = match call_second(&mut table, datagram, &mut second_reply) {
            Ok(served) => Numbers {
                case: 0,
                first: second_reply.len(),
                second: served.n,
                third: served.u,
            },
            Err(refusal) => Numbers::refused(refusal),
        };
        first == second
            && first_reply[..second_reply.len()] == second_reply[..]
            && rows == rows_of(&table)
    })
}

/// The best of the runs; `prepare` is not measured.
fn best<T>(mut prepare: impl FnMut() -> T, mut run: impl FnMut(T)) -> Duration {
    (0..RUNS)
        .map(|_| time(prepare(), &mut run))
        .min()
        .unwrap_or_default()
}

fn time<T>(prepared: T, run: impl FnOnce(T)) -> Duration {
    let start = Instant::now();
    run(prepared);
    start.elapsed()
}

fn serve_first(tables: &mut [Rows], datagrams: &[Datagram], each: usize) {
    let mut reply = [0; ROOM];
    for turn in 0..each {
        for (rows, own) in tables.iter_mut().zip(datagrams.chunks_exact(each)) {
            black_box(call_first(rows, &own[turn], &mut reply));
        }
    }
}

fn serve_second(tables: &mut [Table], datagrams: &[Datagram], each: usize) {
    let mut reply = Vec::new();
    for turn in 0..each {
        for (table, own) in tables.iter_mut().zip(datagrams.chunks_exact(each)) {
            let _ = black_box(call_second(table, &own[turn], &mut reply));
        }
    }
}

/// Tables that are each at another place of one run over the datagrams, and serve the datagrams
/// that follow there in turn: table after table its first, then table after table its second. So
/// every datagram is served just once, on the records it was made for, whatever the number of
/// tables.
struct Turns {
    rows: Vec<Rows>,
    tables: Vec<Table>,
    each: usize,
}

impl Turns {
    fn over(work: &Work, tables: usize) -> Turns {
        let each = work.datagrams.len() / tables;
        let mut turns = Turns {
            rows: Vec::new(),
            tables: Vec::new(),
            each,
        };
        let mut table = work.table();
        for (number, datagram) in work.datagrams[..each * tables].iter().enumerate() {
            if number % each == 0 {
                turns.rows.push(rows_of(&table));
                turns.tables.push(table.clone());
            }
            let _ = table.datagram(&datagram.bytes, datagram.time, ROOM);
        }
        turns
    }

    fn calls(&self) -> usize {
        self.rows.len() * self.each
    }

    /// Nanoseconds of one call of the first program.
    fn first(&self, datagrams: &[Datagram]) -> f64 {
        let time = best(
            || self.rows.clone(),
            |mut rows| serve_first(&mut rows, datagrams, self.each),
        );
        time.as_nanos() as f64 / self.calls() as f64
    }

    /// Nanoseconds of one call of this program.
    fn second(&self, datagrams: &[Datagram]) -> f64 {
        let time = best(
            || self.tables.clone(),
            |mut tables| serve_second(&mut tables, datagrams, self.each),
        );
        time.as_nanos() as f64 / self.calls() as f64
    }

    /// The same of the first program, the tables dealt out to two threads.
    fn first_by_two(&self, datagrams: &[Datagram]) -> f64 {
        let half = self.rows.len() / 2;
        let time = best(
            || self.rows.clone(),
            |mut rows| {
                let (one, other) = rows.split_at_mut(half);
                let (mine, theirs) = datagrams.split_at(half * self.each);
                thread::scope(|scope| {
                    scope.spawn(|| serve_first(one, mine, self.each));
                    serve_first(other, theirs, self.each);
                });
            },
        );
        time.as_nanos() as f64 / self.calls() as f64
    }
}

/// The first program's datagram call of the receiver's side.
fn call_first_remote(rows: &mut RemoteRows, datagram: &[u8]) -> Numbers {
    // The two slices are whole and apart from each other.
    unsafe {
        measured_remote_datagram(
            rows.as_mut_ptr(),
            rows.len(),
            datagram.as_ptr(),
            datagram.len(),
        )
    }
}

fn remote_rows_of(receiver: &Receiver) -> RemoteRows {
    let mut rows = [[0; 5]; PLACES];
    for (row, remote) in rows.iter_mut().zip(receiver.records()) {
        *row = remote_row_of(remote);
    }
    rows
}

fn remote_row_of(remote: &Remote) -> [u32; 5] {
    let (state, left) = remote.state.numbers();
    [
        remote.in_use.into(),
        remote.ssrc,
        state.into(),
        left.into(),
        remote.pause_id.into(),
    ]
}

fn lend_first(rows: &mut RemoteRows, place: usize, (state, left): (u8, u8)) {
    rows[place][2] = state.into();
    rows[place][3] = left.into();
}

fn lend_second(receiver: &mut Receiver, place: usize, state: State) {
    if let Ok(records) = receiver.lent() {
        records[place].state = state;
    }
}

/// Both of the receiver's calls on every datagram: the same answer and records.
fn agree_remote(mut receiver: Receiver, steps: &[RemoteStep]) -> bool {
    let mut rows = remote_rows_of(&receiver);
    steps.iter().all(|step| match step {
        &RemoteStep::Lend {
            place,
            state,
            numbers,
        } => {
            lend_first(&mut rows, place, numbers);
            lend_second(&mut receiver, place, state);
            true
        }
        RemoteStep::Datagram(bytes) => {
            let first = call_first_remote(&mut rows, bytes);
            let second = match receiver.datagram(bytes) {
                Ok(counted) => Numbers {
                    first: counted.n,
                    second: counted.u,
                    ..Numbers::default()
                },
                Err(refusal) => Numbers::refused(refusal),
            };
            first == second && rows == remote_rows_of(&receiver)
        }
    })
}

fn serve_first_remote(mut rows: RemoteRows, steps: &[RemoteStep]) {
    for step in steps {
        match step {
            &RemoteStep::Lend { place, numbers, .. } => lend_first(&mut rows, place, numbers),
            RemoteStep::Datagram(bytes) => {
                black_box(call_first_remote(&mut rows, bytes));
            }
        }
    }
}

fn serve_second_remote(mut receiver: Receiver, steps: &[RemoteStep]) {
    for step in steps {
        match step {
            &RemoteStep::Lend { place, state, .. } => lend_second(&mut receiver, place, state),
            RemoteStep::Datagram(bytes) => {
                let _ = black_box(receiver.datagram(bytes));
            }
        }
    }
}

fn print_head() {
    println!("   ratio     first ns    second ns   one datagram call");
}

fn print_row(words: &str, first: f64, second: f64) {
    let ratio = first / second;
    println!("{ratio:8.2} {first:12.0} {second:12.0}   {words}");
}

/// One datagram call by itself, by load.
fn measure_load(load: Load) -> Result<(), String> {
    let work = Work::of(load);
    if work.datagrams.is_empty() {
        return Ok(());
    }
    if !agree(&work) {
        return Err(format!("{}: the two calls differ", load.name));
    }
    let turns = Turns::over(&work, 1);
    print_row(
        load.words,
        turns.first(&work.datagrams),
        turns.second(&work.datagrams),
    );
    Ok(())
}

/// One datagram call of the busy hour, by the number of tables.
fn measure_tables() {
    let work = Work::of(LOADS[0]);
    for tables in TABLES {
        let turns = Turns::over(&work, tables);
        print_row(
            &format!("tables in turn: {tables}"),
            turns.first(&work.datagrams),
            turns.second(&work.datagrams),
        );
        if tables > 1 {
            let time = turns.first_by_two(&work.datagrams);
            println!("         {time:12.0}                  the same on two threads");
        }
    }
}

/// One datagram call of the receiver's side by itself. The lending of records between the calls is
/// part of the time: a store or two, the same for both.
fn measure_remote_load(load: RemoteLoad) -> Result<(), String> {
    let (receiver, steps) = load.steps();
    if !agree_remote(receiver.clone(), &steps) {
        return Err(format!("{}: the receiver's two calls differ", load.name));
    }
    let mut first = Duration::MAX;
    let mut second = Duration::MAX;
    for _ in 0..RUNS {
        let rows = remote_rows_of(&receiver);
        first = first.min(time(rows, |rows| serve_first_remote(rows, &steps)));
        let receiver = receiver.clone();
        second = second.min(time(receiver, |own| serve_second_remote(own, &steps)));
    }
    let one = |time: Duration| time.as_nanos() as f64 / load.count as f64;
    print_row(load.words, one(first), one(second));
    Ok(())
}

fn measure_all() -> Result<(), String> {
    print_head();
    for load in LOADS {
        measure_load(load)?;
    }
    measure_tables();
    Ok(())
}

fn measure_all_remote() -> Result<(), String> {
    print_head();
    REMOTE_LOADS.into_iter().try_for_each(measure_remote_load)
}

fn main() -> ExitCode {
    let arguments: Vec<String> = std::env::args().skip(1).collect();
    let arguments: Vec<&str> = arguments.iter().map(String::as_str).collect();
    let done = match arguments.as_slice() {
        [] => measure_all(),
        ["--receiver"] => measure_all_remote(),
        ["--receiver", name] => RemoteLoad::named(name)
            .ok_or(format!("no load {name}"))
            .and_then(measure_remote_load),
        [name] => Load::named(name)
            .ok_or(format!("no load {name}"))
            .and_then(measure_load),
        _ => Err("usage: drive [--receiver] [LOAD]".into()),
    };
    match done {
        Ok(()) => ExitCode::SUCCESS,
        Err(why) => {
            eprintln!("drive: {why}");
            ExitCode::FAILURE
        }
    }
}
