// QuantLib's calendars behind C functions, for quantlib.rs. Each function that is measured does one call of QuantLib.
#include <cstdint>
#include <new>
#include <ql/time/calendars/canada.hpp>
#include <ql/time/calendars/japan.hpp>
#include <ql/time/calendars/unitedkingdom.hpp>
#include <ql/time/calendars/unitedstates.hpp>
#include <type_traits>

using namespace QuantLib;

// Rust holds dates by value.
static_assert(sizeof(Date) == 8 && std::is_trivially_destructible<Date>::value, "a date is 8 bytes");

extern "C" {

// Whether this build has the slower dates, which have a time of the day.
bool quantlib_has_microseconds() {
#ifdef QL_HIGH_RESOLUTION_DATE
    return true;
#else
    return false;
#endif
}

// 0 NYSE, 1 NASDAQ, 2 LSE, 3 TSE, 4 TSX.
const Calendar *quantlib_calendar(uint32_t market) {
    static const Calendar calendars[] = {UnitedStates(UnitedStates::NYSE), UnitedStates(UnitedStates::NYSE),
                                         UnitedKingdom(UnitedKingdom::Exchange), Japan(), Canada(Canada::TSX)};
    return &calendars[market];
}

void quantlib_make_date(Date *date, uint32_t year, uint32_t month, uint32_t day) {
    new (date) Date(static_cast<Day>(day), static_cast<Month>(month), static_cast<Year>(year));
}

bool quantlib_is_business_day(const Calendar *calendar, const Date *date) { return calendar->isBusinessDay(*date); }

// advance(date, 1, Days) answers the same, and is slower.
void quantlib_next_business_day(const Calendar *calendar, const Date *date, Date *next) {
    *next = calendar->adjust(*date + 1, Following);
}

uint32_t quantlib_business_days_between(const Calendar *calendar, const Date *from, const Date *to) {
    return static_cast<uint32_t>(calendar->businessDaysBetween(*from, *to, true, true));
}
}
