//! What the program `play` prints with `--climbs` against the reference: the turns of each climb with
//! what they find, the statements that wait, and the rows of the cycles.

use pahmozil_tests::expression::Expressions;
use pahmozil_tests::generate;
use pahmozil_tests::papers;
use pahmozil_tests::play::{Order, TextPaper};
use pahmozil_tests::program::{Program, MOST_DEPTH};
use pahmozil_tests::random::Random;
use pahmozil_tests::reference;
use pahmozil_tests::shown::{compare, Entry, Expected, Shown, Turn, Worked};
use pahmozil_tests::statement::Statement::{Dly, Par, Seq, Whl};
use pahmozil_tests::tally::Tally;
use std::fs;
use std::panic::catch_unwind;
use std::path::{Path, PathBuf};

/// How much was compared, so that a test cannot pass by comparing little.
#[derive(Debug, Default)]
struct Compared {
    cycles: usize,
    climbs: usize,
    turns: usize,
    waits: usize,
    /// Children entered that stay, where the leaves are numbered that they mark.
    marks: usize,
    /// The same where the leaves are counted.
    counted_marks: usize,
    /// Rows that do not list all statements.
    cut_rows: usize,
    /// Papers that begin refuses, and those that are refused after a cycle or more.
    refused_at_begin: usize,
    refused_later: usize,
}

impl Compared {
    fn meet(&mut self, shown: &Shown, expected: &Expected) {
        let worked = expected.cycles.len();
        self.cycles += worked;
        self.refused_at_begin += usize::from(expected.last.is_none());
        self.refused_later += usize::from(expected.number != 0 && worked > 0);
        let rows = shown.cycles.iter().map(|cycle| &cycle.row);
        self.cut_rows += rows.filter(|row| row.active.more > 0).count();
        let entries = shown.cycles.iter().flat_map(|cycle| &cycle.entries);
        entries.for_each(|entry| self.meet_entry(entry));
    }

    fn meet_entry(&mut self, entry: &Entry) {
        self.climbs += usize::from(entry.completes);
        self.waits += usize::from(!entry.completes);
        self.turns += entry.turns.len();
        let numbered = |turn: &&Turn| !turn.marked.items.is_empty();
        let counted = |turn: &&Turn| turn.marked.more > 0;
        self.marks += entry.turns.iter().filter(numbered).count();
        self.counted_marks += entry.turns.iter().filter(counted).count();
    }
}

/// The comparisons of a test.
struct Test {
    /// Where each paper is written for as long as it is played.
    file: PathBuf,
    tally: Tally,
    compared: Compared,
}

impl Test {
    fn new(name: &str) -> Test {
        let folder = Path::new(env!("CARGO_TARGET_TMPDIR")).join("climbs_shown");
        fs::create_dir_all(&folder).expect("the folder can be made");
        Test {
            file: folder.join(format!("{name}.paper")),
            tally: Tally::new(&format!("climbs shown, {name}")),
            compared: Compared::default(),
        }
    }

    /// The cycles that are worked.
    fn compare(&mut self, paper: &TextPaper) -> Vec<Worked> {
        let (shown, expected) = compare(paper, &paper.play_climbs(&self.file));
        self.tally.meet(expected.number);
        self.compared.meet(&shown, &expected);
        expected.cycles
    }

    /// By ascending, by descending and by random entries.
    fn compare_orders(&mut self, random: &mut Random, program: &Program, values: &[u16]) {
        let cycles = random.between(1, 6);
        let book = book(random, program, values, cycles);
        for order in [Order::Up, Order::Down, book] {
            self.compare(&TextPaper {
                program: program.clone(),
                values: values.to_vec(),
                cycles: cycles as u16,
                order,
            });
        }
    }

    fn demand(&self, numbers: &[u16], least: usize) {
        println!("{:?}", self.compared);
        self.tally.demand(numbers, least);
    }
}

/// A book made for this paper. It may be wrong.
fn book(random: &mut Random, program: &Program, values: &[u16], cycles: usize) -> Order {
    match reference::begun(program, values) {
        Ok(start) => by_book(generate::schedule(random, program, &start, cycles)),
        Err(_) => Order::Up,
    }
}

/// A text without entries is played in ascending order.
fn by_book(book: Vec<u16>) -> Order {
    if book.is_empty() {
        Order::Up
    } else {
        Order::Book(book)
    }
}

/// As many cycles as a run asks, by its book.
fn run_of(paper: &papers::Paper, run: &papers::Run) -> TextPaper {
    TextPaper {
        program: paper.program.clone(),
        values: paper.values.clone(),
        cycles: run.cycles,
        order: by_book(run.schedule.clone()),
    }
}

/// All runs of the sample papers.
fn sample_runs() -> Vec<TextPaper> {
    let papers = papers::all();
    let runs = papers
        .iter()
        .flat_map(|paper| paper.runs.iter().map(move |run| run_of(paper, run)));
    runs.collect()
}

fn is_sample(cycle: &papers::Cycle, program: &Program, worked: &Worked) -> bool {
    let from = *program == cycle.program && worked.before == cycle.before;
    from && worked.climbs == cycle.climbs && worked.after == cycle.after
}

/// The cycles of which every turn was worked by hand are among them.
#[test]
fn sample_papers() {
    let mut test = Test::new("samples");
    let mut played = Vec::new();
    for paper in sample_runs() {
        let cycles = test.compare(&paper).into_iter();
        played.extend(cycles.map(|worked| (paper.program.clone(), worked)));
    }
    for cycle in papers::cycles() {
        let mut played = played.iter();
        let met = played.any(|(program, worked)| is_sample(&cycle, program, worked));
        assert!(met, "{}", cycle.name);
    }
    test.demand(&[0, 7, 8, 9, 10], 1);
}

#[test]
fn random_programs() {
    let random = &mut Random::new(1101);
    let mut test = Test::new("random");
    while test.tally.total() < 3_000 {
        let shape = generate::shape(random);
        let program = generate::program(random, &shape);
        let values = generate::values(random, &program.widths);
        test.compare_orders(random, &program, &values);
    }
    test.demand(&[0, 7, 8, 9, 10], 100);
    let Compared {
        waits,
        refused_at_begin,
        refused_later,
        ..
    } = test.compared;
    assert!(waits > 1_000 && refused_at_begin > 50 && refused_later > 100);
}

/// Programs in which climbs take many turns.
#[test]
fn climbing_programs() {
    let random = &mut Random::new(1102);
    let mut test = Test::new("climbing");
    while test.tally.total() < 1_500 {
        let most = random.pick(&[10, 40, 100, 300]);
        let nodes = random.between(1, most);
        let levels = random.pick(&[3, 8, 16, MOST_DEPTH]);
        let (program, _) = generate::climbing(random, nodes, levels);
        test.compare_orders(random, &program, &[1, 0]);
    }
    test.demand(&[0, 7], 50);
    assert!(test.compared.turns > 20_000);
}

/// WHL 1 {SEQ{DLY; PAR{DLY; DLY; ..}}}
fn wide(threads: usize) -> Program {
    let mut exprs = Expressions::new();
    let one = exprs.number(1);
    let body = Seq(vec![Dly, Par(vec![Dly; threads])]);
    Program::new(exprs, Whl(one, Box::new(body)), 0, 0)
}

/// More leaves are marked, and more threads at work, than a line has room for.
#[test]
fn wide_programs() {
    let mut test = Test::new("wide");
    for threads in 2..=100 {
        let program = wide(threads);
        for order in [Order::Up, Order::Down] {
            let cycles = 3;
            test.compare(&TextPaper {
                program: program.clone(),
                values: vec![],
                cycles,
                order,
            });
        }
    }
    test.demand(&[0], 100);
    let Compared {
        marks,
        counted_marks,
        cut_rows,
        ..
    } = test.compared;
    assert!(marks > 100 && counted_marks > 100 && cut_rows > 50);
}

/// The text without one of its lines.
fn without(text: &str, out: usize) -> String {
    let lines = text.lines().enumerate().filter(|(at, _)| *at != out);
    lines.map(|(_, line)| format!("{line}\n")).collect()
}

/// Whichever line is left out, from the head of the table to the answer, the comparison fails.
fn miss_each_line(paper: &TextPaper, file: &Path) {
    let printed = paper.play_climbs(file);
    let starting = |start: &str| printed.lines().position(|line| line.starts_with(start));
    let first = starting("cycle").expect("a table");
    let last = starting("Number ").expect("an answer");
    compare(paper, &printed);
    for out in first..=last {
        let less = without(&printed, out);
        let failed = catch_unwind(|| compare(paper, &less)).is_err();
        assert!(failed, "not missed: line {out} of {printed}");
    }
}

/// With climbs through a PAR and a loop, and with statements that wait.
#[test]
fn a_line_that_is_left_out() {
    let test = Test::new("left_out");
    for paper in [papers::thread_loop(), papers::delayed_out()] {
        let run = paper.runs.last().expect("each has a run");
        miss_each_line(&run_of(&paper, run), &test.file);
    }
}
