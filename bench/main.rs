//! The proved library beside the desk in plain Rust, on the same inputs in one run. See bench/run and docs/PERFORMANCE.md.
//!
//! Each line: the input and its size, the time of a call of the library and of the Rust function in microseconds, and their ratio.
//! Times are medians of processor time; calls of the two are interleaved. All answers and buffers are compared; a difference ends the run.
//!
//! With `--cfg before` an earlier build of the library is timed too (bench/beside). A line then gives the times of the earlier build, of the
//! present one and of the Rust, the ratio of present to earlier, in how many samples the present was slower, and the ratio to the Rust. With
//! `--cfg before_through` the earlier build has `through` too, with `--cfg before_chain` it has `chain`, with `--cfg before_limit` its lists and
//! jobs take a limit, and with `--cfg before_edition` its sheets have an edition; lines of what it does not have are of the present library and the
//! Rust. So are lines with names that the earlier build does not have, and those of labels that its AP rewrites to other nodes.
//!
//! Outside the part `editions` (editions.rs) all sheets are of edition 1. The part `sets` has tables of its own kind (sets.rs).

mod chains;
mod desk;
mod earlier;
mod editions;
mod inputs;
mod library;
mod sets;
mod stack;

use desk::{Applied, Chained, Classed, Done, Listed, Results, Rewritten};
use desk::{E, FIRST, GENERAL, HIGHEST, NAMES, NODES, SET, SITE, SLOTS, TABLE, WORK};
use std::time::Duration;

type AskChain = fn(&[u8], &[u8], u32, u32, &mut [u8], &mut [u8], &mut [u8]) -> Chained;

/// The seven functions of a desk, and whether its lists and jobs take a limit and tell their rounds.
struct Desk {
    limited: bool,
    list: fn(&[u8], &[u8], u32, &mut [u8], &mut [u8]) -> Listed,
    apply: fn(&[u8], &[u8], u32, &mut [u8]) -> Applied,
    rewrite: fn(&[u8], &[u8], u32, &mut [u8]) -> Rewritten,
    through: fn(&[u8], u32, &mut [u8]) -> Rewritten,
    classes: fn(&[u8], &mut [u8]) -> Classed,
    chain: AskChain,
    job: fn(&[u8], u32, Results) -> Done,
}

const RUST: Desk = Desk {
    limited: true,
    list: desk::list,
    apply: desk::apply,
    rewrite: desk::rewrite,
    through: desk::through,
    classes: desk::classes,
    chain: desk::chain,
    job: desk::job,
};

// How many samples of a side there are, and about how long one takes. Two builds differ by little, so they get more samples; short ones,
// since the machine seldom changes its speed within a short pair.
const SAMPLES: usize = if cfg!(before) { 41 } else { 15 };
const SAMPLE: Duration = Duration::from_micros(if cfg!(before) { 400 } else { 800 });

/// Results and work buffers, for one side.
#[derive(Clone, PartialEq)]
struct Buffers {
    site: Vec<u8>,
    table: Vec<u8>,
    after: Vec<u8>,
    today: Vec<u8>,
    classes: Vec<u8>,
    chain: Vec<u8>,
    work: Vec<u8>,
}

impl Buffers {
    fn new() -> Buffers {
        let of = |length| vec![0xAA; length];
        Buffers { site: of(SITE), table: of(TABLE), after: of(SET), today: of(SET), classes: of(SLOTS), chain: of(SLOTS), work: of(WORK) }
    }

    fn results(&mut self) -> Results<'_> {
        let Buffers { site, table, after, today, classes, work, .. } = self;
        Results { site, table, after, today, classes, work }
    }
}

/// What is called. A list has a limit on its rounds; a job has the highest. A sheet has an edition behind it. A chain has a way and a start.
#[derive(Clone)]
enum Call {
    List(Vec<u8>, Vec<u8>, u32),
    Apply(Vec<u8>, Vec<u8>, u32),
    Rewrite(Vec<u8>, Vec<u8>, u32),
    Through(Vec<u8>, u32),
    Classes(Vec<u8>),
    Chain(Vec<u8>, Vec<u8>, u32, u32),
    Job(Vec<u8>, Vec<u8>, Vec<u8>, Vec<u8>, u32),
}

impl Call {
    fn list(site: Vec<u8>, cond: Vec<u8>) -> Call {
        Call::List(site, cond, HIGHEST)
    }

    fn apply(site: Vec<u8>, sheet: Vec<u8>) -> Call {
        Call::Apply(site, sheet, FIRST)
    }

    fn rewrite(cond: Vec<u8>, sheet: Vec<u8>) -> Call {
        Call::Rewrite(cond, sheet, FIRST)
    }

    fn through(sheet: Vec<u8>) -> Call {
        Call::Through(sheet, FIRST)
    }

    fn job(site: Vec<u8>, cond: Vec<u8>, sheet: Vec<u8>) -> Call {
        Call::job_of(site, cond, sheet, FIRST)
    }

    fn job_of(site: Vec<u8>, cond: Vec<u8>, sheet: Vec<u8>, edition: u32) -> Call {
        let file = inputs::job(&site, &cond, &sheet, edition);
        Call::Job(file, site, cond, sheet, edition)
    }

    fn library(&self, out: &mut Buffers) -> Vec<u32> {
        self.answer(&library::NOW, out)
    }

    fn before(&self, out: &mut Buffers) -> Vec<u32> {
        self.answer(&library::BEFORE, out)
    }

    fn rust(&self, out: &mut Buffers) -> Vec<u32> {
        self.answer(&RUST, out)
    }

    /// The answer's numbers: the reason, W and the counts, and last the rounds of a desk that tells them. Inlined, so that each side calls its
    /// functions directly.
    #[inline(always)]
    fn answer(&self, desk: &Desk, out: &mut Buffers) -> Vec<u32> {
        match self {
            Call::List(site, cond, limit) => {
                let r = (desk.list)(site, cond, *limit, &mut out.after, &mut out.work);
                told(desk, [r.reason, r.place, r.count, r.rounds], 1)
            }
            Call::Apply(site, sheet, edition) => {
                let r = (desk.apply)(site, sheet, *edition, &mut out.site);
                vec![r.reason, r.place]
            }
            Call::Rewrite(cond, sheet, edition) => {
                let r = (desk.rewrite)(cond, sheet, *edition, &mut out.table);
                vec![r.reason, r.place, r.nodes]
            }
            Call::Through(sheet, edition) => {
                let r = (desk.through)(sheet, *edition, &mut out.table);
                vec![r.reason, r.place, r.nodes]
            }
            Call::Classes(site) => {
                let r = (desk.classes)(site, &mut out.classes);
                vec![r.reason, r.place, r.count]
            }
            Call::Chain(site, goal, way, start) => {
                let r = (desk.chain)(site, goal, *way, *start, &mut out.chain, &mut out.after, &mut out.work);
                vec![r.reason, r.place, r.found, r.steps]
            }
            Call::Job(file, ..) => {
                let r = (desk.job)(file, HIGHEST, out.results());
                told(desk, [r.reason, r.place, r.after, r.today, r.nodes, r.classes, r.after_rounds, r.today_rounds], 2)
            }
        }
    }

    /// Slots and arcs of the site, nodes of the condition, edits of the sheet.
    fn size(&self) -> [Option<usize>; 4] {
        let slots = |site: &[u8]| Some(inputs::slots(site) as usize);
        let arcs = |site: &[u8]| Some(inputs::arcs(site) as usize);
        let nodes = |cond: &[u8]| Some(cond.len() / 6);
        let edits = |sheet: &[u8]| Some(sheet.len() / 4);
        match self {
            Call::List(site, cond, _) => [slots(site), arcs(site), nodes(cond), None],
            Call::Apply(site, sheet, _) => [slots(site), arcs(site), None, edits(sheet)],
            Call::Rewrite(cond, sheet, _) => [None, None, nodes(cond), edits(sheet)],
            Call::Through(sheet, _) => [None, None, None, edits(sheet)],
            Call::Classes(site) => [slots(site), arcs(site), None, None],
            Call::Chain(site, goal, ..) => [slots(site), arcs(site), nodes(goal), None],
            Call::Job(_, site, cond, sheet, _) => [slots(site), arcs(site), nodes(cond), edits(sheet)],
        }
    }

    /// What came of it, in a word or two.
    fn outcome(&self, answer: &[u32]) -> String {
        match self {
            _ if answer[0] != 0 => format!("refused {}", answer[0]),
            Call::List(..) if answer[3] > 0 => format!("{} listed, {} rounds", answer[2], answer[3]),
            Call::List(..) => format!("{} listed", answer[2]),
            Call::Apply(..) => "through".to_string(),
            Call::Rewrite(..) | Call::Through(..) => format!("{} nodes", answer[2]),
            Call::Classes(..) => format!("{} classes", answer[2]),
            Call::Chain(..) if answer[2] == 0 => "no chain".to_string(),
            Call::Chain(..) if answer[3] == 1 => "1 step".to_string(),
            Call::Chain(..) => format!("{} steps", answer[3]),
            Call::Job(..) => format!("{} nodes, {} classes", answer[4], answer[5]),
        }
    }
}

/// The numbers of an answer, without the rounds at the end if the desk does not tell them.
fn told<const N: usize>(desk: &Desk, numbers: [u32; N], rounds: usize) -> Vec<u32> {
    numbers[..if desk.limited { N } else { N - rounds }].to_vec()
}

/// A side of a measurement: whom it asks, what, and where the results go. Each has memory of its own, which may start
/// elsewhere on a line of the cache than another side's, and does so in all samples of a row.
struct Side {
    ask: fn(&Call, &mut Buffers) -> Vec<u32>,
    call: Call,
    out: Buffers,
}

impl Side {
    /// The library, or the two builds of it, and the Rust.
    fn all(call: &Call, two_builds: bool) -> Vec<Side> {
        let side = |ask| Side { ask, call: call.clone(), out: Buffers::new() };
        let mut sides = vec![side(Call::library), side(Call::rust)];
        if two_builds {
            sides.insert(1, Side { ask: Call::before, call: earlier::call(call), out: earlier::buffers(&Buffers::new()) });
        }
        sides
    }

    fn answer(&mut self) -> Vec<u32> {
        (self.ask)(&self.call, &mut self.out)
    }
}

/// The sides' results are the same.
fn same(sides: &[Side]) -> bool {
    match sides {
        [now, rust] => now.out == rust.out,
        [now, before, rust] => now.out == rust.out && before.out == earlier::buffers(&now.out),
        _ => unreachable!("two sides or three"),
    }
}

#[repr(C)]
struct Clock {
    seconds: i64,
    nanoseconds: i64,
}

extern "C" {
    fn clock_gettime(clock: i32, time: *mut Clock) -> i32;
}

/// The processor time of this thread, on Linux: what other programs do at the same time does not count.
fn now() -> Duration {
    const THREAD: i32 = 3;
    let mut time = Clock { seconds: 0, nanoseconds: 0 };
    // Safety: `time` is a timespec of a 64-bit Linux.
    assert_eq!(unsafe { clock_gettime(THREAD, &mut time) }, 0);
    Duration::new(time.seconds as u64, time.nanoseconds as u32)
}

/// The time of one of so many turns, in seconds.
fn time(turns: u32, mut f: impl FnMut()) -> f64 {
    let start = now();
    (0..turns).for_each(|_| f());
    (now() - start).as_secs_f64() / turns as f64
}

fn median(values: &[f64]) -> f64 {
    let mut values = values.to_vec();
    values.sort_by(f64::total_cmp);
    values[values.len() / 2]
}

fn title(text: &str) {
    title_of(text, cfg!(before));
}

fn title_of(text: &str, two_builds: bool) {
    println!("\n{text}");
    let (what, outcome, times) = ("input", "outcome", times_title("µs", two_builds));
    println!("{what:44} slots   arcs nodes edits  {outcome:26} {times}");
}

fn times_title(unit: &str, two_builds: bool) -> String {
    if two_builds {
        format!(" before {unit}      now {unit}     Rust {unit} now/before slower now/Rust")
    } else {
        format!("library {unit}     Rust {unit} ratio")
    }
}

/// The columns of times and ratios, from the times of each side. Two builds are compared sample by sample, since the ratio of their medians
/// varies more from run to run.
fn columns(times: &[Vec<f64>]) -> String {
    match times {
        [now, rust] => {
            let (now, rust) = (median(now), median(rust));
            format!("{now:>10.1}  {rust:>10.1} {:>5.2}", now / rust)
        }
        [now, before, rust] => {
            let ratios: Vec<f64> = now.iter().zip(before).map(|(now, before)| now / before).collect();
            let slower = format!("{}/{}", ratios.iter().filter(|&&ratio| ratio > 1.0).count(), ratios.len());
            let (now, before, rust, ratio) = (median(now), median(before), median(rust), median(&ratios));
            format!("{before:>10.2}  {now:>10.2}  {rust:>10.2} {ratio:>10.3} {slower:>6} {:>8.2}", now / rust)
        }
        _ => unreachable!("two sides or three"),
    }
}

/// The side that is sampled as the `n`th of so many sides: all in turn, the Rust last. Two builds take turns at going first.
fn turn(n: usize, sides: usize) -> usize {
    let (round, side, libraries) = (n / sides, n % sides, sides - 1);
    if side < libraries { (side + round) % libraries } else { side }
}

/// So many samples of each side.
fn samples(count: usize, sides: usize, mut sample: impl FnMut(usize) -> f64) -> Vec<Vec<f64>> {
    let mut times = vec![Vec::new(); sides];
    for side in (0..count * sides).map(|n| turn(n, sides)) {
        times[side].push(sample(side));
    }
    times
}

fn measure(what: &str, call: Call) {
    measure_of(what, call, cfg!(before));
}

fn measure_of(what: &str, call: Call, two_builds: bool) {
    measure_answer(what, call, two_builds, 0);
}

/// The sides after a call, and their answers, which are the same.
fn compared(what: &str, call: &Call, two_builds: bool) -> (Vec<Side>, Vec<Vec<u32>>) {
    let mut sides = Side::all(call, two_builds);
    let answers: Vec<Vec<u32>> = sides.iter_mut().map(Side::answer).collect();
    assert!(answers.iter().all(|answer| answers[0].starts_with(answer)) && same(&sides), "{what}: the sides differ, {answers:?}");
    (sides, answers)
}

/// Measures a call that is answered with this reason.
fn measure_answer(what: &str, call: Call, two_builds: bool, reason: u32) {
    let (mut sides, answers) = compared(what, &call, two_builds);
    assert_eq!(answers[0][0], reason, "{what}: another reason");
    let mut sample = |side: usize, turns| time(turns, || drop(std::hint::black_box(sides[side].answer())));
    let once = sample(0, 1);
    let turns = (SAMPLE.as_secs_f64() / once).clamp(1.0, 1000.0) as u32;
    let count = if once > 0.03 { 5 } else { SAMPLES };
    let times = samples(count, answers.len(), |side| sample(side, turns) * 1e6);
    let [slots, arcs, nodes, edits] = call.size().map(|n| n.map_or("-".to_string(), |n| n.to_string()));
    let (outcome, columns) = (call.outcome(&answers[0]), columns(&times));
    println!("{what:44} {slots:>5} {arcs:>6} {nodes:>5} {edits:>5}  {outcome:26} {columns}");
}

/// The name of a row, and what is called.
type Row = (String, Call);

/// Compares the sides on all rows of some tables, and then measures the rows.
fn measure_tables<const N: usize>(tables: [(&str, Vec<Row>); N], two_builds: bool) {
    tables.iter().flat_map(|(_, rows)| rows).for_each(|(what, call)| drop(compared(what, call, two_builds)));
    for (name, rows) in tables {
        title_of(name, two_builds);
        rows.into_iter().for_each(|(what, call)| measure_of(&what, call, two_builds));
    }
}

/// Whether there is an earlier build, with all the names.
fn all_names() -> bool {
    cfg!(before) && earlier::names() == NAMES
}

/// Whether there is an earlier build, whose AP makes the same nodes of a label.
fn same_labels() -> bool {
    cfg!(before) && earlier::same_labels()
}

fn listing() {
    let (sparse, dense) = (inputs::random(SLOTS, 2), inputs::full(SLOTS));
    title("Listing: nodes, on a sparse and on a dense site");
    for n in [64, 128, 256, 512, 1024, NODES] {
        measure("one path: nots, diamonds, boxes; sparse", Call::list(sparse.clone(), inputs::line(n)));
        measure("one path: nots, diamonds, boxes; dense", Call::list(dense.clone(), inputs::line(n)));
        measure("shared: ors, ands, diamonds, boxes; sparse", Call::list(sparse.clone(), inputs::mixed(n, E + 1)));
        measure("shared: ors, ands, diamonds, boxes; dense", Call::list(dense.clone(), inputs::mixed(n, E + 1)));
    }
    title("Listing: paths, each node the or of the one before with itself");
    for k in [1, 10, 100, 1000, 2000] {
        measure(&format!("2^{k} paths"), Call::list(sparse.clone(), inputs::shared(k + 1)));
    }
    title("Listing: one loop, along one way");
    for (what, way) in [("link 0", 0), ("reverse of link 0", 8), ("link 4", 4), ("reverse of link 4", 12)] {
        measure(&format!("mu along {what}; sparse"), Call::list(sparse.clone(), inputs::reach(way)));
        measure(&format!("mu along {what}; dense"), Call::list(dense.clone(), inputs::reach(way)));
    }
    title("Listing: nested loops, mu and nu in turn, on a chain");
    for (depth, sizes) in [(1, [16, 64, 256]), (2, [16, 64, 256]), (3, [16, 32, 64])] {
        for n in sizes {
            measure(&format!("{depth} deep"), Call::list(inputs::chain(n), inputs::nested(depth)));
        }
    }
    limits();
}

/// Rounds and limits: a limit that is just enough, and limits that are not; small bodies at the end of a long table; and a long body, which is the
/// most that a round can take.
fn limits() {
    let measure = |what: &str, call, reason| measure_answer(what, call, cfg!(before_limit), reason);
    let (chain, dense) = (inputs::chain(SLOTS), inputs::full(SLOTS));
    title_of("Listing: limits, on a chain", cfg!(before_limit));
    for limit in [100, 1_000, 10_000] {
        measure(&format!("2 deep, limit {limit}"), Call::List(chain.clone(), inputs::nested(2), limit), 15);
    }
    measure("2 deep, limit 65792", Call::List(chain.clone(), inputs::nested(2), 65_792), 0);
    measure("16 deep, highest limit", Call::list(chain.clone(), inputs::nested(16)), 15);
    measure("2^19 paths to a loop, highest limit", Call::list(chain.clone(), inputs::shared_loop(19)), 0);
    measure("2^2000 paths to a loop, highest limit", Call::list(chain.clone(), inputs::shared_loop(2000)), 15);
    title_of("Listing: loops at the end of a table, on a chain", cfg!(before_limit));
    for n in [16, 128, NODES] {
        measure("1 deep, three nodes in the body", Call::list(chain.clone(), inputs::behind(n, 1)), 0);
        measure("2 deep", Call::list(chain.clone(), inputs::behind(n, 2)), 0);
    }
    title_of("Listing: loops 3 deep around 1,990 diamonds, on a dense site", cfg!(before_limit));
    for limit in [10, 100] {
        measure(&format!("limit {limit}"), Call::List(dense.clone(), inputs::around(1990), limit), 15);
    }
}

/// The worst list that is known, once for each side, in seconds. Some take a quarter of an hour.
fn worst() {
    println!("\nListing: loops 3 deep around 1,990 diamonds, on a dense site, highest limit; seconds");
    let call = Call::list(inputs::full(SLOTS), inputs::around(1990));
    for (what, ask) in [("library", Call::library as fn(&Call, &mut Buffers) -> Vec<u32>), ("Rust", Call::rust)] {
        let mut out = Buffers::new();
        let seconds = time(1, || assert_eq!(ask(&call, &mut out)[0], 15));
        println!("{what:10} {seconds:>10.1}");
    }
}

fn applying() {
    let (sparse, dense) = (inputs::random(SLOTS, 2), inputs::full(SLOTS));
    title("Applying: edits, on a sparse and on a dense site");
    for n in [1, 2, 4, 8, 16, 32, 64] {
        measure("all but DS and AS; sparse", Call::apply(sparse.clone(), inputs::small_edits(n)));
        measure("all but DS and AS; dense", Call::apply(dense.clone(), inputs::small_edits(n)));
        measure("DS and AS; sparse", Call::apply(sparse.clone(), inputs::slots_gone(n)));
        measure("DS and AS; dense", Call::apply(dense.clone(), inputs::slots_gone(n)));
    }
    title_of("Applying: many names", all_names());
    let site = inputs::named(sparse, |k| (k <= 40) as usize);
    measure_of("DS of a slot with 40 names; sparse", Call::apply(site, vec![8, 1, 0, 0]), all_names());
}

fn rewriting() {
    title("Rewriting: nodes");
    for n in [64, 128, 256, 512, 1024, NODES - 1] {
        measure("no edit", Call::rewrite(inputs::mixed(n, E + 1), Vec::new()));
        if n < 1500 {
            measure("AP 64 times, another label", Call::rewrite(inputs::mixed(n, E + 1), inputs::labels(64, 1)));
            measure("DT1 of link 0, one way in 17", Call::rewrite(inputs::mixed(n, E + 1), inputs::cuts(1)));
        }
        if n < 600 {
            measure("DS, ways 0 to 15", Call::rewrite(inputs::mixed(n, E), inputs::slots_gone(1)));
        }
    }
    title("Rewriting: edits, 64 nodes");
    for k in [1, 2, 3, 4] {
        measure("DT1 of link 0, one way in 17", Call::rewrite(inputs::mixed(64, E + 1), inputs::cuts(k)));
    }
    let measure = |what, n, edits| measure_of(what, Call::rewrite(inputs::mixed(n, E + 1), inputs::labels(edits, 0)), same_labels());
    title_of("Rewriting: nodes, AP", same_labels());
    for n in [64, 128, 256, 512, 1024] {
        measure("AP, one label", n, 1);
        measure("AP 64 times, one label", n, 64);
    }
    title_of("Rewriting: edits, AP, 64 nodes", same_labels());
    for k in [1, 4, 16, 64] {
        measure("AP, one label", 64, k);
    }
}

/// Each edit passes over the table that the edits behind it have made, so the time grows with edits times nodes.
fn going_through() {
    let measure = |what, call| measure_of(what, call, cfg!(before_through));
    title_of("Through: edits of one kind", cfg!(before_through));
    for k in [1, 8, 64] {
        measure("CN1, which adds no node", Call::through(inputs::moves(k)));
    }
    for k in [1, 2, 4, 8, 16, 32, 64] {
        measure("AT of links 0 to 3", Call::through(inputs::links(k, 0)));
    }
    for k in [1, 2, 4, 8, 16, 31] {
        measure("AT of links 4 to 7", Call::through(inputs::links(k, GENERAL)));
    }
    for k in [1, 2, 4, 8, 16, 32, 42] {
        measure("AS", Call::through(inputs::slots_added(k)));
    }
    for k in [1, 2, 3, 4, 5] {
        measure("DS", Call::through(inputs::slots_removed(k)));
    }
    title_of("Through: all of these, mixed", cfg!(before_through));
    for k in [1, 2, 4, 8, 16, 32, 64] {
        measure("DS, AS, CN1, AP, AT of links 0 to 7", Call::through(inputs::plan(k)));
    }
}

fn classing() {
    title("Classes: slots, on sparse and on dense sites");
    for n in [16, 32, 64, 128, 256] {
        measure("a chain", Call::Classes(inputs::chain(n)));
        measure("a chain and 2 random arcs a slot and link", Call::Classes(inputs::random(n, 2)));
        measure("a chain and half of all arcs", Call::Classes(inputs::random(n, n * 7 / 10)));
        measure("a chain and all arcs", Call::Classes(inputs::full(n)));
    }
    title("Classes: rounds, all slots, no label, no name");
    measure("all arcs by links 0 to 3", Call::Classes(inputs::uniform()));
    measure("link 4 a chain, 128 rounds", Call::Classes(inputs::rounds(false)));
    measure("both, 128 rounds", Call::Classes(inputs::rounds(true)));
    title_of("Classes: many names", all_names());
    let site = inputs::named(inputs::bare(SLOTS), |k| 5 * k);
    measure_of("47 names, each at its own slot; no arc", Call::Classes(site), all_names());
}

fn jobs() {
    let sites = [("16 slots", inputs::random(16, 2)), ("sparse", inputs::random(SLOTS, 2)), ("dense", inputs::full(SLOTS))];
    title("Jobs");
    for (what, site) in &sites {
        let job = |cond, sheet| Call::job(site.clone(), cond, sheet);
        measure(&format!("R, DT1; {what}"), job(inputs::reach(4), inputs::cuts(1)));
        measure(&format!("512 nodes, DS; {what}"), job(inputs::mixed(512, E), inputs::slots_gone(1)));
        measure(&format!("1,024 nodes, 64 AP, another label; {what}"), job(inputs::mixed(1024, E + 1), inputs::labels(64, 1)));
    }
    title_of("Jobs: AP, of a label that the condition has", same_labels());
    for (what, site) in &sites {
        let measure = |name, cond, sheet| measure_of(&format!("{name}; {what}"), Call::job(site.clone(), cond, sheet), same_labels());
        measure("R, 16 edits", inputs::reach(4), inputs::small_edits(16));
        measure("1,024 nodes, 64 AP", inputs::mixed(1024, E + 1), inputs::labels(64, 0));
    }
    title_of("Jobs: loops in loops, highest limit", cfg!(before_limit));
    for (depth, reason) in [(2, 0), (16, 15)] {
        let job = Call::job(inputs::chain(SLOTS), inputs::nested(depth), inputs::cuts(1));
        measure_answer(&format!("{depth} deep, DT1; a chain"), job, cfg!(before_limit), reason);
    }
}

fn all() {
    listing();
    applying();
    rewriting();
    going_through();
    classing();
    chains::show();
    jobs();
    editions::show();
    sets::show();
    stack::show();
}

fn main() {
    match std::env::args().nth(1).as_deref() {
        None => all(),
        Some("list") => listing(),
        Some("apply") => applying(),
        Some("rewrite") => rewriting(),
        Some("through") => going_through(),
        Some("classes") => classing(),
        Some("chain") => chains::show(),
        Some("job") => jobs(),
        Some("editions") => editions::show(),
        Some("sets") => sets::show(),
        Some("stack") => stack::show(),
        Some("worst") => worst(),
        Some(other) => {
            eprintln!("{other} is none of list, apply, rewrite, through, classes, chain, job, editions, sets, stack and worst");
            std::process::exit(2);
        }
    }
}
