//! The texts of sessions and hours are those of the original.

use trading_calendar::*;

fn hours(market: Market, month: u32, day: u32) -> String {
    let date = NaiveDate::from_ymd_opt(2025, month, day).unwrap();
    TradingCalendar::new(market)
        .unwrap()
        .trading_hours(date)
        .to_string()
}

#[test]
fn hours_of_a_date() {
    let us = "Regular 09:30 - 16:00, Pre-Market 04:00 - 09:30, After-Hours";
    let eve = format!("2025-12-24: {us} 13:00 - 20:00 (Early Close: 13:00)");
    assert_eq!(
        hours(Market::NYSE, 3, 10),
        format!("2025-03-10: {us} 16:00 - 20:00")
    );
    assert_eq!(hours(Market::NASDAQ, 12, 24), eve);
    assert_eq!(
        hours(Market::LSE, 12, 24),
        "2025-12-24: Regular 08:00 - 16:30"
    );
    assert_eq!(
        hours(Market::TSE, 12, 24),
        "2025-12-24: Regular 09:00 - 15:00"
    );
    assert_eq!(
        hours(Market::TSX, 12, 24),
        "2025-12-24: Regular 09:30 - 16:00"
    );
}

#[test]
fn a_session_over_midnight() {
    let time = |seconds| NaiveTime::try_from(seconds).unwrap();
    let session = Session::new(time(72_000), time(14_459)).unwrap();
    assert_eq!(session.to_string(), "20:00 - 04:00");
    assert_eq!(session.end.to_string(), "04:00:59");
    assert!(session.contains(time(0)) && !session.contains(time(43_200)));
}
