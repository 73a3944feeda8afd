//! Days that are good for several markets, for each of the 31 sets: a day that comes back is one on which every market trades, and
//! none comes back exactly where there is no such day. Which of several it is stays open.

mod days;

use days::answered_days;
use trading_calendar::CalendarError::*;
use trading_calendar::*;

/// How many days a date range has: few, so that there may be none that is good, or a year.
const LENGTHS: [usize; 15] = [1, 2, 3, 4, 5, 6, 7, 8, 9, 10, 11, 12, 13, 14, 366];

/// All sets, in the order of their bytes: the first is empty.
fn sets() -> Vec<MarketSet> {
    let mut sets = vec![MarketSet::default()];
    for market in Market::ALL {
        let with_it: Vec<_> = sets.iter().map(|&set| set | market.into()).collect();
        sets.extend(with_it);
    }
    sets
}

/// A day, and the markets that trade then.
#[derive(Clone, Copy, PartialEq)]
struct Day {
    date: NaiveDate,
    trading: MarketSet,
}

impl Day {
    fn new(date: NaiveDate) -> Day {
        let trades = |market: &Market| {
            let calendar = TradingCalendar::new(*market).unwrap();
            calendar.is_trading_day(date).unwrap()
        };
        let trading = Market::ALL.into_iter().filter(trades).collect();
        Day { date, trading }
    }

    fn is_good_for(&self, set: MarketSet) -> bool {
        self.trading | set == self.trading
    }
}

fn all_days() -> Vec<Day> {
    answered_days().map(Day::new).collect()
}

/// The first and the last.
fn ends(range: &[Day]) -> [NaiveDate; 2] {
    [range[0], range[range.len() - 1]].map(|day| day.date)
}

#[test]
fn sets_are_bytes() {
    let sets = sets();
    assert_eq!(sets.len(), 32);
    for (bits, set) in (0..).zip(sets) {
        let markets: Vec<Market> = set.iter().collect();
        let numbers = (0..5).filter(|number| bits >> number & 1 == 1);
        let due: Vec<Market> = numbers.map(|it| Market::try_from(it).unwrap()).collect();
        assert_eq!((set.bits(), &markets), (bits, &due));
        assert_eq!((set.len(), set.is_empty()), (due.len(), due.is_empty()));
        let again: MarketSet = markets.into_iter().rev().chain(due).collect();
        assert_eq!(again, set);
    }
}

#[test]
fn sets_of_markets() {
    let mut set = MarketSet::from([]);
    assert_eq!(
        (set, format!("{set:?}").as_str()),
        (MarketSet::default(), "{}")
    );
    set.extend([Market::TSE, Market::NASDAQ]);
    assert_eq!(set, MarketSet::from([Market::NASDAQ, Market::TSE]));
    assert_eq!(format!("{set:?}"), "{NASDAQ, TSE}");
    let codes: Vec<&str> = MarketSet::from(Market::ALL)
        .iter()
        .map(|it| it.code())
        .collect();
    assert_eq!(codes, ["NYSE", "NASDAQ", "LSE", "TSE", "TSX"]);
}

#[test]
fn a_day_comes_back_exactly_where_there_is_one() {
    let days = all_days();
    let (mut found, mut none) = (0, 0);
    for &set in &sets()[1..] {
        for range in LENGTHS.iter().flat_map(|&length| days.windows(length)) {
            let [start, end] = ends(range);
            let mut good = range.iter().filter(|day| day.is_good_for(set));
            match set.common_trading_day(start, end).unwrap() {
                Some(date) => {
                    found += 1;
                    assert!(
                        good.any(|day| day.date == date),
                        "{set:?} {start} {end} {date}"
                    );
                }
                None => {
                    none += 1;
                    assert!(good.next().is_none(), "{set:?} {start} {end}");
                }
            }
        }
    }
    println!("{found} days, {none} times none");
    assert!(found > 1_000_000 && none > 50_000);
}

#[test]
fn a_set_of_one_has_a_day_exactly_where_the_count_is_above_0() {
    let days = all_days();
    for market in Market::ALL {
        let calendar = TradingCalendar::new(market).unwrap();
        for range in LENGTHS.iter().flat_map(|&length| days.windows(length)) {
            let [start, end] = ends(range);
            let day = MarketSet::from(market)
                .common_trading_day(start, end)
                .unwrap();
            let count = calendar.count_trading_days(start, end).unwrap();
            assert_eq!(day.is_some(), count > 0, "{market} {start} {end}");
        }
    }
}

/// Also where the start is after 2030 or the end before 2020, which is no error here.
#[test]
fn none_if_the_start_is_after_the_end() {
    let date = |year, month, day| NaiveDate::from_ymd_opt(year, month, day).unwrap();
    let days: Vec<NaiveDate> = answered_days().collect();
    let near = days.windows(2).map(|days| [days[1], days[0]]);
    let far = [
        [date(2030, 12, 31), date(2020, 1, 1)],
        [date(2031, 1, 1), date(2030, 12, 31)],
        [date(2020, 1, 1), date(2019, 12, 31)],
        [NaiveDate::MAX, NaiveDate::MIN],
    ];
    for [start, end] in near.chain(far) {
        for set in &sets()[1..] {
            assert_eq!(
                set.common_trading_day(start, end),
                Ok(None),
                "{set:?} {start} {end}"
            );
        }
    }
}

#[test]
fn dates_outside_2020_to_2030_and_the_empty_set() {
    let dates = [(2019, 12, 31), (2020, 1, 1), (2030, 12, 31), (2031, 1, 1)];
    let [before, first, last, after] =
        dates.map(|(year, month, day)| NaiveDate::from_ymd_opt(year, month, day).unwrap());
    let outside = [
        [before, first],
        [before, before],
        [before, after],
        [last, after],
        [after, after],
        [NaiveDate::MIN, last],
        [first, NaiveDate::MAX],
    ];
    for [start, end] in outside {
        for set in &sets()[1..] {
            let due = Err(DateOutOfRange(start));
            assert_eq!(set.common_trading_day(start, end), due, "{set:?} {end}");
        }
    }
    for [start, end] in outside.into_iter().chain([[first, last], [last, first]]) {
        let day = MarketSet::default().common_trading_day(start, end);
        assert_eq!(day, Err(InvalidMarketSet));
    }
}
