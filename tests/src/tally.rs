//! How often each number was met, so that a comparison cannot pass by meeting few of them.

/// The greatest number that a call gives.
const MOST: u16 = 13;

pub struct Tally {
    name: String,
    times: [usize; MOST as usize + 1],
}

impl Tally {
    pub fn new(name: &str) -> Tally {
        Tally {
            name: name.to_string(),
            times: [0; MOST as usize + 1],
        }
    }

    pub fn meet(&mut self, number: u16) {
        self.times[number as usize] += 1;
    }

    pub fn total(&self) -> usize {
        self.times.iter().sum()
    }

    pub fn times(&self, number: u16) -> usize {
        self.times[number as usize]
    }

    pub fn print(&self) {
        println!("{}: {} cases", self.name, self.total());
        for (number, times) in self.times.iter().enumerate() {
            if *times > 0 {
                println!("  number {number}: {times}");
            }
        }
    }

    /// Prints, then demands that each of these numbers was met so often.
    pub fn demand(&self, numbers: &[u16], least: usize) {
        self.print();
        for &number in numbers {
            let times = self.times(number);
            assert!(
                times >= least,
                "{}: number {number} met only {times} times",
                self.name
            );
        }
    }
}
