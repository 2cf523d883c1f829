//! `paper_sizes`, `paper_read` and `paper_write` against the reference, on random programs and
//! files, right and damaged.

use pahmozil_tests::answer::Answer;
use pahmozil_tests::compare;
use pahmozil_tests::file::{Buffers, Sizes};
use pahmozil_tests::generate;
use pahmozil_tests::items::Items;
use pahmozil_tests::paper;
use pahmozil_tests::program::Program;
use pahmozil_tests::random::Random;
use pahmozil_tests::reference;
use pahmozil_tests::tally::Tally;

/// The fewest inputs that a call is compared on, and the fewest for each number.
const LEAST: usize = 200_000;
const LEAST_OF_EACH: usize = 2_000;

fn some_program(random: &mut Random) -> Program {
    let shape = if random.percent(30) {
        generate::shape(random)
    } else {
        generate::small_shape(random)
    };
    generate::program(random, &shape)
}

/// What was met by sizes: the counts of an accepted program, those of a refused one, or none.
#[derive(Debug, Default)]
struct Counted {
    accepted: usize,
    refused: usize,
    none: usize,
}

impl Counted {
    /// The counts, and the number that reading gave.
    fn meet(&mut self, sizes: Sizes, number: u16) {
        match number {
            12 => {
                assert_eq!(sizes, Sizes::default());
                self.none += 1;
            }
            0 | 13 => self.accepted += 1,
            _ => self.refused += 1,
        }
    }

    fn demand(&self) {
        println!("sizes: {self:?}");
        let least = [self.accepted, self.refused, self.none];
        assert!(least.iter().all(|&times| times >= 20_000));
        assert!(least.iter().sum::<usize>() >= LEAST);
    }
}

#[test]
fn random_files_read() {
    let random = &mut Random::new(1101);
    let tally = &mut Tally::new("read");
    let items = &mut Items::new("read");
    let counted = &mut Counted::default();
    for _ in 0..240_000 {
        let program = generate::any_program(random);
        let (program, values) = generate::laid_out(random, program);
        let damaged = random.percent(25);
        let file = if damaged {
            generate::damage_file(random, &program, &values)
        } else {
            reference::bytes(&program, &values)
        };
        let sizes = compare::sizes(&file);
        // Where the file is refused, there is room for what it was made from.
        let room = match sizes == Sizes::default() {
            true => Sizes::of(&program),
            false => sizes,
        };
        let buffers = generate::buffers(random, room);
        let number = compare::read(&file, &buffers);
        tally.meet(number);
        counted.meet(sizes, number);
        if !damaged {
            items.meet(&program, number);
        }
    }
    tally.demand(&[0, 12, 1, 2, 3, 4, 11, 13], LEAST_OF_EACH);
    assert!(tally.total() >= LEAST);
    counted.demand();
    items.demand_named();
}

/// As many values as there are variables, or more or fewer.
fn some_values(random: &mut Random, program: &Program) -> Vec<u16> {
    let vars = program.vars.min(300) as usize;
    let length = match random.below(20) {
        0 => vars + 1,
        1 => vars.saturating_sub(1),
        2 => random.pick(&[0, vars + 5, 2 * vars]),
        _ => vars,
    };
    (0..length).map(|_| random.word()).collect()
}

/// Bytes for a file of this length, enough of them or too few, with anything in them.
fn some_bytes(random: &mut Random, need: usize) -> Vec<u8> {
    let length = match random.below(12) {
        0 => need - 1,
        1 => random.pick(&[0, 1, 15, need / 2, need - 2, need - 16]),
        2..=5 => need,
        6..=8 => need + random.between(1, 3),
        _ => need + random.between(1, 100),
    };
    (0..length).map(|_| random.word() as u8).collect()
}

#[test]
fn random_programs_written() {
    let random = &mut Random::new(1102);
    let tally = &mut Tally::new("write");
    let items = &mut Items::new("write");
    for _ in 0..220_000 {
        let program = generate::any_program(random);
        let values = some_values(random, &program);
        let need = reference::bytes(&program, &values).len();
        let lent = some_bytes(random, need);
        let number = compare::write(&program, &values, &lent);
        tally.meet(number);
        items.meet(&program, number);
    }
    tally.demand(&[0, 1, 2, 3, 4, 11, 5, 13], LEAST_OF_EACH);
    assert!(tally.total() >= LEAST);
    items.demand();
}

const NO_FAULT: Answer = Answer { number: 0, item: 0 };

/// What was written is read as it was, into buffers as long as sizes tells.
#[test]
fn written_then_read() {
    let random = &mut Random::new(1103);
    for _ in 0..20_000 {
        let program = some_program(random);
        let values: Vec<u16> = (0..program.vars).map(|_| random.word()).collect();
        let mut file = vec![0xa5; reference::bytes(&program, &values).len()];
        assert_eq!(paper::write(&program, &values, &mut file), NO_FAULT);
        let sizes = paper::sizes(&file);
        assert_eq!(sizes, Sizes::of(&program));
        let mut buffers = Buffers::filled(sizes, 0xa5a5);
        assert_eq!(paper::read(&file, &mut buffers), NO_FAULT);
        assert_eq!(buffers.paper(sizes), (program, values));
    }
}

/// What was read is written as the same bytes.
#[test]
fn read_then_written() {
    let random = &mut Random::new(1104);
    for _ in 0..20_000 {
        let program = some_program(random);
        let (program, values) = generate::laid_out(random, program);
        let file = reference::bytes(&program, &values);
        let sizes = paper::sizes(&file);
        let mut buffers = Buffers::filled(sizes, 0xa5a5);
        assert_eq!(paper::read(&file, &mut buffers), NO_FAULT);
        let (again, values_again) = buffers.paper(sizes);
        let mut written = vec![0xa5; file.len()];
        let answer = paper::write(&again, &values_again, &mut written);
        assert_eq!((answer, written), (NO_FAULT, file));
    }
}
