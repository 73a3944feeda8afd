//! Slices of an order on any numbers at all: what the library answers, and what the original's count makes.

use crate::call::ranges::RangeCall;
use crate::library::{slice_order, Date};
use crate::numbers::{of_slices, Numbers, OnNumbers};
use crate::original::slices::Slices;

/// Every entry of a buffer before a call.
const UNTOUCHED: u32 = 0xA5A5_A5A5;

/// The call takes the market, the quantity, the start, the end and the room of its buffer; every entry of that is UNTOUCHED
/// before, and the answer has them all after its fields.
#[derive(Clone, Copy)]
pub struct SliceOrder;

impl OnNumbers for SliceOrder {
    fn name(self) -> &'static str {
        "slice_order"
    }

    fn library(self, input: &[u32]) -> Numbers {
        let &[market, quantity, y, m, d, end_y, end_m, end_d, room] = input else {
            panic!("not what slice_order takes: {input:?}");
        };
        let date = |year, month, day| Date { year, month, day };
        let (start, end) = (date(y, m, d), date(end_y, end_m, end_d));
        let mut buffer = vec![UNTOUCHED; room as usize];
        let answer = slice_order(market, quantity, start, end, &mut buffer);
        [of_slices(answer), buffer].concat()
    }

    /// Error 1 is that of its count. It has no buffer: slices that do not fit are there too.
    fn original(self, input: &[u32]) -> Option<Numbers> {
        let counted = RangeCall::CountTradingDays.original(&range(input))?;
        let (error, count, date) = (counted[0], counted[1], &counted[2..]);
        if error != 0 {
            return Some(answer([error, 0, 0, 0], date, vec![], input));
        }
        let slices = Slices::new(input[1], count);
        let fields = [0, count, slices.per_day, slices.remainder];
        Some(answer(fields, date, slices.list, input))
    }

    /// 9 has the number of days with it, and the others nothing.
    fn error(self, number: u32, input: &[u32]) -> Numbers {
        let count = match number {
            9 => count(&range(input)),
            _ => 0,
        };
        answer([number, count, 0, 0], &[0, 0, 0], vec![], input)
    }
}

/// With the date, and what is written to the buffer of the input.
fn answer(fields: [u32; 4], date: &[u32], mut buffer: Numbers, input: &[u32]) -> Numbers {
    buffer.resize(buffer.len().max(input[8] as usize), UNTOUCHED);
    [&fields, date, &buffer].concat()
}

/// What the count takes of an input: the market, the start and the end.
fn range(input: &[u32]) -> Numbers {
    [&input[..1], &input[2..8]].concat()
}

/// How many trading days there are by the original, from a start to an end of a market.
pub fn count(range: &[u32]) -> u32 {
    let answer = RangeCall::CountTradingDays.original(range);
    answer.expect("a count")[1]
}
