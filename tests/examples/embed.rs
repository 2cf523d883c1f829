//! The same as `examples/embed.c`, through the safe wrapper of `player.rs`.

use pahmozil_tests::player;
use pahmozil_tests::program::{Program, State};

fn main() {
    let swap = Program {
        exprs: vec![1, 0, 0, 1, 1, 0],
        nodes: vec![2, 65535, 3, 0, 0, 3, 0, 2, 0, 1, 3, 0, 3, 1, 0],
        widths: vec![12, 12],
        vars: 2,
        chans: 0,
    };
    for book in [[1, 2], [2, 1]] {
        let mut state = State {
            values: vec![3, 7],
            marks: vec![0; 3],
            counts: vec![0; 3],
        };
        let begun = player::begin(&swap, &state.values, &mut state.marks, &mut state.counts);
        if begun.number != 0 {
            println!("begin: number {}", begun.number);
            continue;
        }
        let (answer, worked) = player::run(&swap, &mut state, &book, 5);
        println!(
            "book {},{}: number {}, worked {}, values {} {}",
            book[0], book[1], answer.number, worked, state.values[0], state.values[1]
        );
    }
}
