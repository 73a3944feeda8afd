//! How long slice_order takes to fill its list, beside plain loops in C.
//!
//! The filling is the call less the same call without room, which counts the same days and gives error 9; a loop is taken less the
//! same loop over no entry. The filling is a small part of the call, so that each round has a difference of its own, and which of
//! the two is measured first changes from round to round.

use crate::bench::ranges::Ranges;
use crate::bench::slices::{Buffer, ENTRIES};
use crate::bench::times::Times;
use crate::library::{Date, SliceResult};

/// What is filled is a matter of how many days there are, and not of whose.
const NYSE: u32 = 0;

type Loop = unsafe extern "C" fn(*mut u32, usize, u32, u32);

// Of fill.c.
unsafe extern "C" {
    fn fill_slices_o2(out: *mut u32, count: usize, per_day: u32, remainder: u32);
    fn fill_slices_o3(out: *mut u32, count: usize, per_day: u32, remainder: u32);
    fn fill_constant_o2(out: *mut u32, count: usize, per_day: u32, remainder: u32);
    fn fill_constant_o3(out: *mut u32, count: usize, per_day: u32, remainder: u32);
}

const LOOPS: [(&str, Loop); 4] = [
    ("`per_day + (i < remainder)`, -O2", fill_slices_o2),
    ("`per_day + (i < remainder)`, -O3", fill_slices_o3),
    ("`per_day`, -O2", fill_constant_o2),
    ("`per_day`, -O3", fill_constant_o3),
];

pub fn run(rounds: usize) {
    println!("\nThe filling of slice_order, NYSE, beside plain loops that cc compiled, {rounds} rounds:\n");
    println!("| Inputs | Entries | Loop | Loop, median | least | Filling, median | least | Filling / loop, medians | least |");
    println!("|---|---|---|---|---|---|---|---|---|");
    for Ranges { title, library, .. } in Ranges::all() {
        let lists: Vec<List> = library.into_iter().map(List::new).collect();
        let entries: usize = lists.iter().map(|list| list.entries(ENTRIES)).sum();
        let mean = entries as f64 / lists.len() as f64;
        let [filling, loops @ ..] = measure(rounds, &lists);
        for ((name, _), plain) in LOOPS.iter().zip(loops) {
            println!(
                "| {title} | {mean:.1} | {name} | {:.1} | {:.1} | {:.1} | {:.1} | {:.2} | {:.2} |",
                plain[0],
                plain[1],
                filling[0],
                filling[1],
                filling[0] / plain[0],
                filling[1] / plain[1]
            );
        }
    }
}

/// A date range, and how its days are sliced.
struct List {
    range: [Date; 2],
    slices: SliceResult,
}

impl List {
    /// The loops fill the same, or one value.
    fn new(range: [Date; 2]) -> List {
        let buffer = Buffer::new();
        let slices = buffer.slice(NYSE, &range, ENTRIES);
        let list = List { range, slices };
        let count = list.entries(ENTRIES);
        let (due, constant) = (buffer.lend(count).to_vec(), vec![slices.per_day; count]);
        for ((_, fill), due) in LOOPS.iter().zip([&due, &due, &constant, &constant]) {
            let buffer = Buffer::new();
            list.fill(*fill, &mut buffer.lend(count));
            assert_eq!(*buffer.lend(count), *due);
        }
        list
    }

    /// Those that there is room for.
    fn entries(&self, room: usize) -> usize {
        room.min(self.slices.count as usize)
    }

    #[inline]
    fn fill(&self, fill: Loop, out: &mut [u32]) {
        let SliceResult {
            per_day, remainder, ..
        } = self.slices;
        unsafe { fill(out.as_mut_ptr(), out.len(), per_day, remainder) }
    }
}

/// Of the call and of each loop: the median of the differences, and the difference of the least times.
fn measure(rounds: usize, lists: &[List]) -> [[f64; 2]; 1 + LOOPS.len()] {
    let buffer = Buffer::new();
    let mut times = [(); 1 + LOOPS.len()].map(|()| [Times::default(), Times::default()]);
    for round in 0..rounds {
        let [call, loops @ ..] = &mut times;
        for side in [round % 2, 1 - round % 2] {
            let room = [ENTRIES, 0][side];
            call[side].measure(lists, |it| buffer.slice(NYSE, &it.range, room));
            for (times, (_, fill)) in loops.iter_mut().zip(LOOPS) {
                times[side].measure(lists, |it| {
                    it.fill(fill, &mut buffer.lend(it.entries(room)))
                });
            }
        }
    }
    times.map(|[filled, nothing]| {
        let median = filled.less(&nothing).median();
        [median, filled.least() - nothing.least()]
    })
}
