//! Slices of orders, drawn the same in every run: they add up to the order, the first days carry one more until the remainder is
//! spent, and nothing else is written.

mod days;

use days::answered_days;
use trading_calendar::CalendarError::*;
use trading_calendar::*;

/// Date ranges drawn for each market.
const DRAWN: usize = 200;
/// Every entry of a buffer before a call.
const UNTOUCHED: u32 = 0xA5A5_A5A5;

#[test]
fn orders_of_every_market() {
    let mut random = Random(1);
    let (mut sliced, mut refused) = (0, 0);
    for market in Market::ALL {
        let calendar = TradingCalendar::new(market).unwrap();
        for [start, end] in random.ranges() {
            let order = |quantity| Order {
                calendar,
                quantity,
                start,
                end,
            };
            let count = calendar.count_trading_days(start, end).unwrap();
            for quantity in random.quantities(count as u32) {
                if count == 0 {
                    order(quantity).check_none();
                    refused += 1;
                } else {
                    order(quantity).check(count);
                    sliced += 1;
                }
            }
        }
    }
    println!("{sliced} orders sliced, {refused} without a trading day");
    assert!(sliced > 4000 && refused > 1000);
}

struct Order {
    calendar: TradingCalendar,
    quantity: u32,
    start: NaiveDate,
    end: NaiveDate,
}

impl Order {
    fn slice(&self, out: &mut [u32]) -> Result<Slices> {
        let (quantity, start, end) = (self.quantity, self.start, self.end);
        self.calendar.slice_order(quantity, start, end, out)
    }

    fn to_vec(&self) -> Result<Vec<u32>> {
        let (quantity, start, end) = (self.quantity, self.start, self.end);
        self.calendar.slice_order_to_vec(quantity, start, end)
    }

    /// Over so many days, with a buffer that is one short, one over, and exact.
    fn check(&self, count: usize) {
        let mut short = vec![UNTOUCHED; count - 1];
        assert_eq!(self.slice(&mut short), Err(BufferTooSmall(count)));
        assert!(short.iter().all(|&entry| entry == UNTOUCHED));

        let list = self.to_vec().unwrap();
        assert_eq!(list.len(), count);
        let slices = slices_of(&list, self.quantity);
        for room in [count, count + 1] {
            let mut out = vec![UNTOUCHED; room];
            assert_eq!(self.slice(&mut out), Ok(slices));
            let (written, rest) = out.split_at(count);
            assert_eq!(written, list);
            assert!(rest.iter().all(|&entry| entry == UNTOUCHED));
        }
    }

    fn check_none(&self) {
        let mut out = [UNTOUCHED];
        assert_eq!(self.slice(&mut out), Err(NoTradingDayInRange));
        assert_eq!(out, [UNTOUCHED]);
        assert_eq!(self.to_vec(), Err(NoTradingDayInRange));
    }
}

/// What is due with the list, which adds up to the quantity, never grows, and has entries that differ by one at most.
fn slices_of(list: &[u32], quantity: u32) -> Slices {
    let (first, last) = (list[0], list[list.len() - 1]);
    let sum: u64 = list.iter().copied().map(u64::from).sum();
    assert_eq!(sum, u64::from(quantity));
    assert!(list.windows(2).all(|days| days[0] >= days[1]));
    assert!(first - last <= 1);
    Slices {
        count: list.len(),
        per_day: last,
        remainder: list.iter().filter(|&&shares| shares > last).count() as u32,
    }
}

/// splitmix64
struct Random(u64);

impl Random {
    fn next(&mut self) -> u64 {
        self.0 = self.0.wrapping_add(0x9E37_79B9_7F4A_7C15);
        let mut bits = self.0;
        bits = (bits ^ bits >> 30).wrapping_mul(0xBF58_476D_1CE4_E5B9);
        bits = (bits ^ bits >> 27).wrapping_mul(0x94D0_49BB_1331_11EB);
        bits ^ bits >> 31
    }

    fn below(&mut self, end: usize) -> usize {
        (self.next() % end as u64) as usize
    }

    /// All of 2020 to 2030, and of its days any two, in any order, or two of the same week.
    fn ranges(&mut self) -> Vec<[NaiveDate; 2]> {
        let days: Vec<_> = answered_days().collect();
        let last = days.len() - 1;
        let mut ranges = vec![[days[0], days[last]]];
        for _ in 0..DRAWN {
            let [start, any] = [(); 2].map(|()| self.below(days.len()));
            let near = last.min(start + self.below(7));
            let end = [any, near][self.below(2)];
            ranges.push([days[start], days[end]]);
        }
        ranges
    }

    /// The least and the most, and around multiples of the count.
    fn quantities(&mut self, count: u32) -> [u32; 8] {
        let drawn = self.next() as u32;
        let multiple = drawn - drawn.checked_rem(count).unwrap_or(0);
        let [below, above] = [multiple.saturating_sub(1), multiple.saturating_add(1)];
        [0, 1, count, below, multiple, above, drawn, u32::MAX]
    }
}
