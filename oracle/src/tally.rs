//! Counts of what was compared and what differs.

use std::fmt::Debug;

/// Differences shown of each tally; all are counted. The first is the smallest input, as inputs come in order.
const SHOWN: u64 = 3;

pub struct Tally {
    name: String,
    compared: u64,
    differ: u64,
}

impl Tally {
    pub fn new(name: impl Into<String>) -> Tally {
        Tally {
            name: name.into(),
            compared: 0,
            differ: 0,
        }
    }

    /// The answer of the library beside the one that is due.
    #[inline]
    pub fn compare<T: PartialEq + Debug>(
        &mut self,
        input: &(impl Debug + ?Sized),
        library: T,
        due: T,
    ) {
        self.compared += 1;
        if library != due {
            self.show(&input, &library, &due);
        }
    }

    #[cold]
    fn show(&mut self, input: &dyn Debug, library: &dyn Debug, due: &dyn Debug) {
        self.differ += 1;
        if self.differ <= SHOWN {
            println!("{} at {input:?}:", self.name);
            println!("    the library: {library:?}");
            println!("    due:         {due:?}");
        }
    }

    /// Prints the counts. Whether nothing differs, and as many were compared as were meant.
    pub fn close(self, meant: u64) -> bool {
        println!(
            "{}: {} compared, {} differ",
            self.name, self.compared, self.differ
        );
        if self.compared != meant {
            println!("    not the {meant} comparisons that were meant");
        }
        self.differ == 0 && self.compared == meant && meant > 0
    }
}
