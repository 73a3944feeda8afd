/* The common days of the plain calendar: row after row of the table, until every market of the set trades. */
#include "plain_calendar.h"

static int all_trade(uint8_t markets, int row) {
    int members = 0, trading = 0;
    for (uint32_t market = 0; market < MARKETS; market++) {
        if ((markets >> market & 1) == 0) continue;
        members++;
        trading += plain_trades(market, row);
    }
    return trading == members;
}

int plain_common_row(uint8_t markets, int row, int last) {
    while (row <= last && !all_trade(markets, row)) row++;
    return row;
}

/* The first error that applies, or 0. */
static uint32_t error_of(uint8_t markets, tc_date start, tc_date end) {
    if (markets == 0 || markets >= 1 << MARKETS) return 12;
    if (plain_row_of(start) < 0 || plain_row_of(end) < 0) return 5;
    return start.year < 2020 || end.year > 2030 ? 1 : 0;
}

tc_optional_date_result plain_common_trading_day(uint8_t markets, uint32_t start_year, uint32_t start_month, uint32_t start_day,
                                                 uint32_t end_year, uint32_t end_month, uint32_t end_day, tc_date answered) {
    tc_date start = {start_year, start_month, start_day}, end = {end_year, end_month, end_day};
    tc_optional_date_result answer = {.error = error_of(markets, start, end)};
    int first = plain_row_of(start), last = plain_row_of(end), row = plain_row_of(answered);

    if (answer.error == 1) answer.date = start;
    if (answer.error != 0) return answer;
    if (row < first || last < row || !all_trade(markets, row)) row = plain_common_row(markets, first, last);
    if (row <= last) {
        answer.found = 1;
        answer.date = plain_date(row);
    }
    return answer;
}
