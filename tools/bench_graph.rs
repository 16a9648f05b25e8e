//! A plain breadth-first search over the pairs that the program `bench` marks, to hold its times against.
//! Build it with `rustc -O`. It prints how many places are marked, and on standard error the best time.
use std::collections::VecDeque;
use std::hint::black_box;
use std::time::Instant;

const ROUNDS: usize = 9;

/// Marks what is reached from the marked places: adjacency by counting, then a queue.
fn search(places: usize, pairs: usize, pair: impl Fn(usize) -> Option<(usize, usize)>, marks: &mut [bool]) {
    let in_range = |number| pair(number).filter(|&(from, to)| from < places && to < places);
    let mut starts = vec![0usize; places + 1];
    for number in 0..pairs {
        if let Some((from, _)) = in_range(number) {
            starts[from + 1] += 1;
        }
    }
    for place in 0..places {
        starts[place + 1] += starts[place];
    }
    let mut ends = starts.clone();
    let mut targets = vec![0usize; starts[places]];
    for number in 0..pairs {
        if let Some((from, to)) = in_range(number) {
            targets[ends[from]] = to;
            ends[from] += 1;
        }
    }
    let mut queue: VecDeque<usize> = (0..places).filter(|&place| marks[place]).collect();
    while let Some(place) = queue.pop_front() {
        for &to in &targets[starts[place]..starts[place + 1]] {
            if !marks[to] {
                marks[to] = true;
                queue.push_back(to);
            }
        }
    }
}

fn measure(name: &str, places: usize, pairs: usize, pair: impl Fn(usize) -> Option<(usize, usize)>) {
    let mut marks = vec![false; places];
    let mut best = u128::MAX;
    for _ in 0..ROUNDS {
        marks.fill(false);
        if let Some(first) = marks.first_mut() {
            *first = true;
        }
        let start = Instant::now();
        search(black_box(places), black_box(pairs), &pair, &mut marks);
        best = best.min(start.elapsed().as_micros());
    }
    let marked = marks.iter().filter(|&&marked| marked).count();
    println!("{name}: {marked} of {places} places marked");
    eprintln!("{name}: {best} microseconds");
}

fn main() {
    let places = black_box(65_536);
    measure("chain", places, places - 1, |number| (number + 1 < places).then(|| (places - 2 - number, places - 1 - number)));
    let places = black_box(512);
    measure("dense", places, places * places, |number| Some((number / places, number % places)));
    measure("empty", 0, 0, |_| None);
}
