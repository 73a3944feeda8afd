/* The slices of the plain calendar: day by day, each takes its part of the shares that are left. */
#include "plain_calendar.h"

/* The part is that of one day among those left, rounded up. */
static void hand_out(uint32_t quantity, uint32_t days, uint32_t *slices) {
    uint64_t left = quantity;
    for (; days > 0; days--) {
        uint64_t part = (left + days - 1) / days;
        *slices++ = (uint32_t)part;
        left -= part;
    }
}

/* How many shares the days have above a number of shares each. */
static uint32_t shares_above(uint32_t each, const uint32_t *slices, uint32_t days) {
    uint32_t above = 0;
    for (uint32_t i = 0; i < days; i++) above += slices[i] - each;
    return above;
}

/* The last day has the shares per day; what the days have above them is the remainder. */
tc_slice_result plain_slice_order(uint32_t market, uint32_t quantity, uint32_t start_year, uint32_t start_month, uint32_t start_day,
                                  uint32_t end_year, uint32_t end_month, uint32_t end_day, uint32_t *out, size_t out_length) {
    tc_count_result days = plain_count_trading_days(market, start_year, start_month, start_day, end_year, end_month, end_day);
    tc_slice_result answer = {.error = days.error, .count = days.count, .date = days.date};

    if (answer.error != 0) return answer;
    if (answer.count == 0) {
        answer.error = 11;
    } else if (answer.count > out_length) {
        answer.error = 9;
    } else {
        hand_out(quantity, answer.count, out);
        answer.per_day = out[answer.count - 1];
        answer.remainder = shares_above(answer.per_day, out, answer.count);
    }
    return answer;
}
