//! The same as `examples/files.c`, through the safe wrappers of `paper.rs` and `player.rs`.

use pahmozil_tests::file::{Buffers, Sizes};
use pahmozil_tests::paper;
use pahmozil_tests::player;
use pahmozil_tests::program::{Program, State};

fn main() {
    let counter = Program {
        exprs: vec![0, 1, 0, 1, 0, 0, 2, 1, 0],
        nodes: vec![7, 65535, 2, 0, 0, 3, 0, 2, 0, 2],
        widths: vec![12],
        vars: 1,
        chans: 0,
    };
    let mut file = [0; 58];
    let answer = paper::write(&counter, &[4094], &mut file);
    println!("write: number {}", answer.number);
    if answer.number == 0 {
        read(&file);
        read(&file[..57]);
    }
}

fn read(file: &[u8]) {
    let sizes = paper::sizes(file);
    let mut buffers = Buffers::filled(sizes, 0);
    let answer = paper::read(file, &mut buffers);
    println!(
        "read {} bytes: number {}, item {}",
        file.len(),
        answer.number,
        answer.item
    );
    if answer.number == 0 {
        println!(
            "nodes {}, expressions {}, variables {}, channels {}, v0 {}",
            sizes.nodes, sizes.exprs, sizes.vars, sizes.chans, buffers.values[0]
        );
        play(sizes, buffers);
    }
}

fn play(sizes: Sizes, read: Buffers) {
    let (program, values) = read.paper(sizes);
    let mut state = State {
        values,
        marks: vec![0; program.node_count()],
        counts: vec![0; program.node_count()],
    };
    let begun = player::begin(&program, &state.values, &mut state.marks, &mut state.counts);
    if begun.number != 0 {
        println!("begin: number {}", begun.number);
        return;
    }
    let (answer, worked) = player::run(&program, &mut state, &[1, 1], 2);
    println!(
        "run: number {}, worked {}, v0 {}",
        answer.number, worked, state.values[0]
    );
}
