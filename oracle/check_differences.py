#!/usr/bin/env python3
"""Checks the dates and hours in docs/DIFFERENCES.md against the stored answers and against the calendars of other programs.

usage: check_differences.py [REPOSITORY [PAGE]]

A line of a table has: date, weekday, what the document says, what the answer is here, the document, the programs that confirm
it. "Document says" and "here" begin with the answer: trades, closed, holiday or no holiday. In the tables of other years date and
weekday are one cell, and the programs that say otherwise follow after "not". Where the last cell is empty, the programs are those
of the sentence "Confirmed by Q29 EC where the last column is empty.", a line of its own below the heading. It is there once if a
last cell is empty, and else not. No other text around the tables is read, nor are words after an answer's colon.
A line of hours has: markets, days, a first input, what the document says, what the answer is here, the document, the programs.
Days are "24 and 31 December of 2020, 2024 to 2027" or, for the days with a session among them, "2020-01-01 to 2024-11-04". Hours
are "no session" or sessions as "09:00 to 11:30, 12:30 to 15:00"; here they are the regular session of trading_hours, up to the
early close if there is one. A first input, "2020-12-24 at 45000", is the first of the days and a second at which the two differ.
Hours here are computed by [hours] and [early-close], and compared with the stored answers of trading_hours. Of the hours that no
program has, the first input and the answer of is_open, open or closed, are checked.
A program that is not installed, or not in the version that the page names, is reported as not compared. Beside the programs stand
"rules", the public rules computed here for 2020 to 2030; LSE's proclaimed days and the moved holidays of the Tokyo Games are data
there, so that for these lines it is no second derivation.
Exit status 1 means that something is wrong, each told by a line "WRONG": a table that is missing, a line with a wrong date,
weekday, input, answer here, document or "Confirmed by", or with a cell too few or too many, an empty last cell and no sentence,
or the reverse, a code that the table of sources does not have, a program that differs on a day that no line and no gap explains,
a gap that is none, stored hours that are not those taken for the answers here, or that no program was compared.
"""
import re
import shutil
import subprocess
import sys
from datetime import date, timedelta
from pathlib import Path

ROOT = Path(__file__).resolve().parent.parent
STORED = "crates/replay/data/holidays.txt"
STORED_HOURS = "crates/replay/data/hours.txt"
PAGE = "docs/DIFFERENCES.md"

FIRST, LAST = date(2020, 1, 1), date(2030, 12, 31)
YEARS = range(FIRST.year, LAST.year + 1)
DAYS = [FIRST + timedelta(n) for n in range((LAST - FIRST).days + 1)]
WEEKDAYS = [d for d in DAYS if d.weekday() < 5]
WEEKENDS = [d for d in DAYS if d.weekday() >= 5]

MARKETS = ["NYSE", "NASDAQ", "LSE", "TSE", "TSX"]
DATE_TABLES = {"NYSE and NASDAQ": ["NYSE", "NASDAQ"], "LSE": ["LSE"], "TSE": ["TSE"], "TSX": ["TSX"]}
WEEKEND_TABLES = {"TSE, weekends": ["TSE"]}
OTHER_YEARS = {f"Other years, {market}": market for market in MARKETS if market != "NASDAQ"}
HOURS = "Hours, 2020 to 2030"
OTHER_HOURS = "Other years, hours"
UNCONFIRMED_HOURS = "Hours that no program has"
LINE_TABLES = [*DATE_TABLES, *WEEKEND_TABLES, *OTHER_YEARS, HOURS, OTHER_HOURS]
SENTENCE = re.compile(r"Confirmed by ([A-Z0-9]+(?: [A-Z0-9]+)*) where the last column is empty\.")
MONTHS = ["January", "February", "March", "April", "May", "June", "July", "August", "September", "October", "November", "December"]

# [hours]: regular sessions, and from when until when the US is open with what comes before and after them
US = ("NYSE", "NASDAQ")
REGULAR = {"NYSE": ("09:30", "16:00"), "NASDAQ": ("09:30", "16:00"), "LSE": ("08:00", "16:30"), "TSE": ("09:00", "15:00"),
           "TSX": ("09:30", "16:00")}
US_EARLY_CLOSE = "13:00"
US_OPEN = ("04:00", "20:00")
NO_SESSION = "no session"


def days(text):
    return {date.fromisoformat(word) for word in text.split()}


# Days on which a program does not know what the document says, or has an answer of its own, by code and market.
SUSPENSION = days("2020-10-01")  # not a holiday: trading was suspended for the day
GAPS = {
    ("Q29", "NYSE"): days("2025-01-09"),  # older than this closing
    ("Q29", "TSE"): SUSPENSION,
    ("Q44", "TSE"): SUSPENSION,
    ("H97", "TSE"): SUSPENSION,
    ("TD", "NYSE"): days("2025-01-09"),
    ("TD", "TSX"): days("2021-12-28 2027-12-28"),  # 27 December twice, where the 25th is a Saturday
    ("W17", "LSE"): days("2023-05-08"),
    # no substitute holiday and no citizens' holiday from 2024 on
    ("W17", "TSE"): SUSPENSION | days(
        "2024-02-12 2024-05-06 2024-08-12 2024-09-23 2024-11-04 2025-02-24 2025-05-06 2025-11-24 2026-05-06 2026-09-22"
        " 2027-03-22 2029-02-12 2029-04-30 2029-09-24 2030-05-06 2030-08-12 2030-11-04"),
    ("H10", "LSE"): days("2022-05-30 2022-06-02 2022-06-03 2022-09-19 2023-05-08"),  # of 2020
    # of 2020: not the moves of 2021, and no substitute of 23 February
    ("H10", "TSE"): SUSPENSION | days(
        "2021-07-19 2021-07-22 2021-07-23 2021-08-08 2021-08-09 2021-08-11 2021-10-11 2025-02-24"),
    # of single closings, the rules below have LSE's alone
    ("rules", "NYSE"): days("2025-01-09"),
    ("rules", "NASDAQ"): days("2025-01-09"),
    ("rules", "TSE"): SUSPENSION,
}


class Source:
    """The closed weekdays of a program by market; for some markets also its holidays on weekends, and its hours.

    The closed weekdays are those of the years that were asked for, from the market's first year to the last year. Hours are its
    sessions by day or, where it has no more than that, the closing times of its early closes.
    """

    def __init__(self, program, version, first_year=FIRST.year, last_year=9999):
        self.program, self.version, self.code = program, version, None
        self.closed, self.weekend = {}, {}
        self.hours, self.early = {}, {}
        self.first_year = {market: first_year for market in MARKETS}
        self.last_year = last_year


def weekdays_of(years):
    days_of_years = (date(year, 1, 1) + timedelta(n) for year in years for n in range(366))
    return {d for d in days_of_years if d.year in years and d.weekday() < 5}


# --- programs ---------------------------------------------------------------------------------------------------------------


def quantlib(years):
    import QuantLib as ql

    source = Source("QuantLib", ql.__version__, 1901)
    calendars = {
        "NYSE": ql.UnitedStates(ql.UnitedStates.NYSE),
        "LSE": ql.UnitedKingdom(ql.UnitedKingdom.Exchange),
        "TSE": ql.Japan(),
        "TSX": ql.Canada(ql.Canada.TSX),
    }
    asked = {d for d in weekdays_of(years) if d.year >= 1901}
    for market, calendar in calendars.items():
        source.closed[market] = {d for d in asked if calendar.isHoliday(ql.Date(d.day, d.month, d.year))}
    return source


def exchange_calendars(years):
    import exchange_calendars as ec

    source = Source("exchange-calendars", ec.__version__, 1970)
    source.first_year["TSE"] = 1997
    # XNAS is another name of XNYS there
    for market, code in {"NYSE": "XNYS", "NASDAQ": "XNAS", "LSE": "XLON", "TSE": "XTKS", "TSX": "XTSE"}.items():
        first = source.first_year[market]
        calendar = ec.get_calendar(code, start=f"{first}-01-01", end=f"{max(years)}-12-31")
        source.closed[market] = {d for d in weekdays_of(years) if d.year >= first} - {s.date() for s in calendar.sessions}
        source.hours[market] = sessions_of(calendar)
    return source


def sessions_of(calendar):
    """By date, in local time."""
    moments = [calendar.schedule[name].dt.tz_convert(calendar.tz).dt.strftime("%H:%M")
               for name in ("open", "break_start", "break_end", "close")]
    sessions = {}
    for session, opens, break_start, break_end, closes in zip(calendar.sessions, *moments):
        has_break = isinstance(break_start, str)
        sessions[session.date()] = (f"{opens} to {break_start}, {break_end} to {closes}" if has_break else f"{opens} to {closes}")
    return sessions


def python_holidays(years):
    """Public holidays, and from later versions on those of two exchanges.

    Public holidays are compared where the exchange closes on them: LSE on the bank holidays of England, TSE on the national
    holidays. TSE's own 31 December and 2 and 3 January are added. The federal holidays of the US and the public holidays of
    Ontario are not compared, as NYSE and TSX have lists of their own.
    """
    import holidays

    source = Source("python-holidays", holidays.__version__)
    if hasattr(holidays, "financial_holidays"):
        source.first_year.update({"NYSE": 1863, "LSE": 1872, "TSE": 1949})
        england = holidays.country_holidays("GB", subdiv="ENG", years=years)
        japan = set(holidays.country_holidays("JP", years=YEARS))
        tse = set(holidays.financial_holidays("XJPX", years=[year for year in years if year >= 1949]))
        source.closed["NYSE"] = weekdays_of(years) & set(holidays.financial_holidays("XNYS", years=years))
        half_days = holidays.financial_holidays("XNYS", years=years, categories=("half_day",))
        source.early["NYSE"] = {d: closing_time(name) for d, name in half_days.items()}
    else:
        source.last_year = LAST.year
        england = holidays.England(years=YEARS)
        japan = set(holidays.Japan(years=YEARS))
        tse = japan | year_end_of_tse()
    source.closed["LSE"] = weekdays_of(years) & set(england)
    source.closed["TSE"] = weekdays_of(years) & tse
    source.weekend["TSE"] = set(WEEKENDS) & (japan | year_end_of_tse())
    return source


def closing_time(name):
    """That of a half day, from a name as "Christmas Eve (markets close at 1:00pm)"."""
    hour, minute, half = re.search(r"close at (\d+):(\d\d)(am|pm)", name).groups()
    return f"{int(hour) % 12 + (12 if half == 'pm' else 0):02}:{minute}"


def workalendar(years):
    """Public holidays, as above; the calendar of the banks of Japan has 31 December and 2 and 3 January itself."""
    import workalendar as wa
    from workalendar.asia.japan import JapanBank
    from workalendar.europe.united_kingdom import UnitedKingdom

    source = Source("workalendar", wa.__version__, last_year=LAST.year)
    japan = {d for year in YEARS for d, _ in JapanBank().holidays(year)}
    source.closed["LSE"] = set(WEEKDAYS) & {d for year in YEARS for d, _ in UnitedKingdom().holidays(year)}
    source.closed["TSE"] = set(WEEKDAYS) & japan
    source.weekend["TSE"] = set(WEEKENDS) & (japan | year_end_of_tse())
    return source


def time_date(years):
    """The R package, by Rscript."""
    if not shutil.which("Rscript"):
        raise ImportError("no Rscript")
    calls = {"NYSE": "holidayNYSE", "LSE": "holidayLONDON", "TSX": "holidayTSX"}
    asked = ",".join(map(str, sorted(year for year in years if year >= 1950)))
    program = 'library(timeDate); cat(as.character(packageVersion("timeDate")), "\\n")\n' + "\n".join(
        f'cat("{market}", format({call}(c({asked}))), "\\n")' for market, call in [*calls.items(), ("early", "earlyCloseNYSE")])
    run = subprocess.run(["Rscript", "-e", program], capture_output=True, text=True)
    if run.returncode != 0:
        raise ImportError("Rscript has no timeDate")
    lines = [line.split() for line in run.stdout.splitlines() if line.strip()]
    source = Source("timeDate", lines[0][0], 1950)
    source.early["NYSE"] = early_closes(lines.pop()[1:])
    for market, *words in lines[1:]:
        source.closed[market] = weekdays_of(years) & days(" ".join(words))
    return source


def early_closes(words):
    """Of the words date, time, date, time and so on. A date with two times is left out."""
    times = {}
    for day, time in zip(words[::2], words[1::2]):
        times.setdefault(date.fromisoformat(day), set()).add(time[:5])
    return {day: found.pop() for day, found in times.items() if len(found) == 1}


PROGRAMS = [quantlib, exchange_calendars, python_holidays, workalendar, time_date]


# --- the public rules, computed ---------------------------------------------------------------------------------------------


def nth(year, month, weekday, n):
    first = date(year, month, 1)
    return first + timedelta((weekday - first.weekday()) % 7 + 7 * (n - 1))


def last_monday(year, month):
    day = date(year, month, 31)
    return day - timedelta(day.weekday())


def easter(year):
    """By the epact: the Sunday after the Paschal full moon."""
    golden = year % 19 + 1
    century = year // 100 + 1
    epact = (11 * golden + 20 + (8 * century + 5) // 25 - 5 - (3 * century // 4 - 12)) % 30
    if epact == 24 or (epact == 25 and golden > 11):
        epact += 1
    moon = 44 - epact
    moon = moon + 30 if moon < 21 else moon
    full = date(year, 3, 1) + timedelta(moon - 1)
    return full + timedelta(6 - full.weekday() if full.weekday() != 6 else 7)


def year_end_of_tse():
    return {date(y, m, d) for y in YEARS for m, d in ((1, 2), (1, 3), (12, 31))}


def rules_us(year):
    """Saturday to Friday, Sunday to Monday; a New Year's Day on a Saturday is not made up for; Juneteenth from 2022 on."""
    closed = {nth(year, 1, 0, 3), nth(year, 2, 0, 3), last_monday(year, 5), nth(year, 9, 0, 1), nth(year, 11, 3, 4),
              easter(year) - timedelta(2)}
    for month, day in ((1, 1), (6, 19), (7, 4), (12, 25)):
        d = date(year, month, day)
        if (month == 6 and year < 2022) or (month == 1 and d.weekday() == 5):
            continue
        closed.add(d + timedelta({5: -1, 6: 1}.get(d.weekday(), 0)))
    return closed


def two_days_of_december(year):
    """25 and 26 December, or for each the first weekday after it that is free."""
    taken = []
    for day in (date(year, 12, 25), date(year, 12, 26)):
        while day.weekday() > 4 or day in taken:
            day += timedelta(1)
        taken.append(day)
    return set(taken)


def monday_rule(day):
    return day + timedelta({5: 2, 6: 1}.get(day.weekday(), 0))


UK_MOVED = {"2020-05-04": "2020-05-08", "2022-05-30": "2022-06-02"}
UK_ADDED = days("2022-06-03 2022-09-19 2023-05-08")


def rules_uk(year):
    closed = {monday_rule(date(year, 1, 1)), easter(year) - timedelta(2), easter(year) + timedelta(1), nth(year, 5, 0, 1),
              last_monday(year, 5), last_monday(year, 8)} | two_days_of_december(year)
    moved = {date.fromisoformat(UK_MOVED.get(str(d), str(d))) for d in closed}
    return moved | {d for d in UK_ADDED if d.year == year}


def rules_canada(year):
    may_24 = date(year, 5, 24)
    return {monday_rule(date(year, 1, 1)), nth(year, 2, 0, 3), easter(year) - timedelta(2), may_24 - timedelta(may_24.weekday()),
            monday_rule(date(year, 7, 1)), nth(year, 8, 0, 1), nth(year, 9, 0, 1), nth(year, 10, 0, 2)} | two_days_of_december(year)


VERNAL_21 = {2022, 2023, 2027}
AUTUMNAL_22 = {2020, 2024, 2028}
OLYMPIC = {2020: ((7, 23), (8, 10), (7, 24)), 2021: ((7, 22), (8, 8), (7, 23))}  # marine, mountain and sports day


def national_holidays(year):
    """The National Holidays Act of Japan: holidays, then substitutes (art. 3, par. 2), then days between two (par. 3)."""
    named = {date(year, m, d) for m, d in ((1, 1), (2, 11), (2, 23), (4, 29), (5, 3), (5, 4), (5, 5), (11, 3), (11, 23))}
    named |= {nth(year, 1, 0, 2), nth(year, 9, 0, 3)}
    named |= {date(year, 3, 21 if year in VERNAL_21 else 20), date(year, 9, 22 if year in AUTUMNAL_22 else 23)}
    if year in OLYMPIC:
        named |= {date(year, m, d) for m, d in OLYMPIC[year]}
    else:
        named |= {nth(year, 7, 0, 3), date(year, 8, 11), nth(year, 10, 0, 2)}
    substitutes = set()
    for d in named:
        if d.weekday() == 6:
            while d in named:
                d += timedelta(1)
            substitutes.add(d)
    one = timedelta(1)
    between = {d + one for d in named if d + 2 * one in named and d + one not in named}
    return named | substitutes | between


def last_weekday_to(day):
    return day - timedelta(max(0, day.weekday() - 4))


def public_close(market, day):
    """When a session ends: early before Christmas and, at LSE, New Year; in the US also about two other holidays."""
    eve = date(day.year, 12, 24)
    if market == "LSE":
        return "12:30" if day in (last_weekday_to(eve), last_weekday_to(date(day.year, 12, 31))) else "16:30"
    if market == "TSE":
        return "15:30" if day >= date(2024, 11, 5) else "15:00"
    if market == "TSX":
        return "13:00" if day == eve else "16:00"
    before_holiday = day in (date(day.year, 7, 3), eve) and day.weekday() < 4
    return "13:00" if before_holiday or day == nth(day.year, 11, 3, 4) + timedelta(1) else "16:00"


def public_hours(market, day):
    until_close = "09:00 to 11:30, 12:30" if market == "TSE" else REGULAR[market][0]
    return f"{until_close} to {public_close(market, day)}"


def public_rules():
    source = Source("public rules, computed", "", last_year=LAST.year)
    source.code = "rules"
    source.closed["NYSE"] = {d for y in YEARS for d in rules_us(y)}
    source.closed["NASDAQ"] = set(source.closed["NYSE"])
    source.closed["LSE"] = {d for y in YEARS for d in rules_uk(y)}
    source.closed["TSX"] = {d for y in YEARS for d in rules_canada(y)}
    tse = {d for y in YEARS for d in national_holidays(y)} | year_end_of_tse()
    source.closed["TSE"] = tse & set(WEEKDAYS)
    source.weekend["TSE"] = tse & set(WEEKENDS)
    for market, closed in source.closed.items():
        source.hours[market] = {d: public_hours(market, d) for d in WEEKDAYS if d not in closed}
    return source


# --- the repository and the page --------------------------------------------------------------------------------------------


def stored_holidays(path):
    """The stored holidays by market, and the years that they are of. Rows that are wrong on purpose stand at the end."""
    holidays, years = {market: set() for market in MARKETS}, {market: set() for market in MARKETS}
    rows, _, _ = path.read_text().partition("# wrong on purpose")
    for number, year, numbers in re.findall(r"^holidays(?:_any_year)? ([0-4]) (\d+) = ([\d ]+)$", rows, re.MULTILINE):
        market = MARKETS[int(number)]
        years[market].add(int(year))
        holidays[market] |= {date(int(year), n // 100, n % 100) for n in map(int, numbers.split())}
    return holidays, years


def is_early_close(market, day):
    """[early-close]: the three rules of the Rust, on trading days or not."""
    return market in US and (day == nth(day.year, 11, 3, 4) + timedelta(1)
                             or ((day.month, day.day) == (7, 3) and (day + timedelta(1)).weekday() < 5)
                             or ((day.month, day.day) == (12, 24) and day.weekday() < 5))


def hours_here(market, day):
    """The regular session of trading_hours, up to the early close if there is one."""
    opens, closes = REGULAR[market]
    return f"{opens} to {US_EARLY_CLOSE if is_early_close(market, day) else closes}"


def open_hours_here(market, day):
    """From when until when is_open_at holds: the sessions of the US follow each other without a break."""
    return " to ".join(US_OPEN) if market in US else hours_here(market, day)


def clock(second):
    """09:30, or 09:30:01."""
    text = f"{second // 3600:02}:{second // 60 % 60:02}"
    return f"{text}:{second % 60:02}" if second % 60 else text


def session(start, end):
    return f"{clock(start)} to {clock(end)}"


def stored_hours(path):
    """The stored answers of trading_hours: market, date, regular session up to the early close, from when until when open."""
    rows, _, _ = path.read_text().partition("# wrong on purpose")
    for number, *words in re.findall(r"^trading_hours ([0-4]) (\d+) (\d+) (\d+) = 0 ([\d ]+)$", rows, re.MULTILINE):
        year, month, day = map(int, words[:3])
        (_, _, _, has_before, before, _, opens, closes, has_after, _, after, has_early, early) = map(int, words[3].split())
        closes = early if has_early else closes
        whole = session(before if has_before else opens, after if has_after else closes)
        yield MARKETS[int(number)], date(year, month, day), session(opens, closes), whole


def sessions_in(cell):
    """The sessions, or that there is none, with which a cell begins; None if it begins with neither."""
    one = r"\d\d:\d\d to \d\d:\d\d"
    found = re.match(rf"{one}(, {one})*|{NO_SESSION}", cell)
    return found.group() if found else None


def is_inside(text, second):
    """Whether a second of the day is in the sessions: starts are, ends are not."""
    sessions = re.findall(r"(\d\d):(\d\d) to (\d\d):(\d\d)", text)
    return any(60 * (60 * h + m) <= second < 60 * (60 * end_h + end_m) for h, m, end_h, end_m in (map(int, s) for s in sessions))


def numbers_in(text):
    """Of a list as `2020, 2021, 2024 to 2027 and 2030`."""
    ends = [[int(word) for word in part.split(" to ")] for part in re.split(", | and ", text)]
    return [n for first, *last in ends for n in range(first, (last or [first])[0] + 1)]


def days_in(cell):
    """The days of a line of hours in order, and whether they are a range, of which the days with a session are meant."""
    in_range = re.fullmatch(r"(\d{4}-\d\d-\d\d) to (\d{4}-\d\d-\d\d)", cell)
    if in_range:
        first, last = map(date.fromisoformat, in_range.groups())
        return [first + timedelta(n) for n in range((last - first).days + 1)], True
    listed = re.fullmatch(rf"([\d, and]+) ({'|'.join(MONTHS)}) of ([\d, andto]+)", cell)
    if not listed:
        raise ValueError(cell)
    month = MONTHS.index(listed[2]) + 1
    return sorted(date(year, month, day) for year in numbers_in(listed[3]) for day in numbers_in(listed[1])), False


def input_in(cell):
    """A date and a second."""
    day, second = re.fullmatch(r"(\d{4}-\d\d-\d\d) at (\d{1,5})", cell).groups()
    return date.fromisoformat(day), int(second)


def answer_in(cell):
    """The answer with which a cell begins."""
    found = re.match(r"trades|closed|holiday|no holiday", cell)
    return found.group() if found else cell


def cells(line):
    return [cell.strip() for cell in line.strip().removeprefix("|").removesuffix("|").split("|")]


def read_page(path):
    """The table below each heading, as lists of cells, and the codes that sentences there have for empty last cells."""
    tables, sentences, heading = {}, {}, ""
    for line in path.read_text().splitlines():
        sentence = SENTENCE.fullmatch(line)
        if re.match("#+ ", line):
            heading = line.lstrip("#").strip()
        elif sentence:
            sentences.setdefault(heading, []).append(sentence[1])
        elif line.startswith("|"):
            tables.setdefault(heading, []).append(cells(line))
    return tables, sentences


def lines_in(tables, report):
    """The lines below the two header lines, but for those with a cell too few or too many, which are wrong."""
    lines = {}
    for name, (header, *rows) in tables.items():
        lines[name] = [row for row in rows[1:] if len(row) == len(header)]
        for row in rows[1:]:
            if len(row) != len(header):
                report.error(f"{name}, {' | '.join(row)}: {len(row)} cells, not {len(header)}")
    return lines


def fill_in_codes(tables, sentences, report):
    """Puts the codes of a table's sentence into its empty last cells."""
    for name in [*LINE_TABLES, *sorted(set(sentences) - set(LINE_TABLES))]:
        empty = [row for row in tables.get(name, []) if not row[-1] and name in LINE_TABLES]
        named = sentences.get(name, [])
        if len(named) != (1 if empty else 0):
            report.error(f"{name}: {len(empty)} lines whose last cell is empty, and {len(named)} sentences for them")
        for row in empty:
            row[-1] = " ".join(named)


def source_codes(tables):
    """The table of sources: code, program, version."""
    return {(row[1], row[2]): row[0] for row in tables.get("Sources", [])}


def load_programs(codes, years):
    sources = []
    for load in PROGRAMS:
        try:
            source = load(years)
        except ImportError as problem:
            print(f"not compared: {load.__name__} ({problem})")
            continue
        source.code = codes.get((source.program, source.version))
        if source.code is None:
            print(f"not compared: {source.program} {source.version}, which the page does not name")
        else:
            sources.append(source)
    return sources


# --- checks -----------------------------------------------------------------------------------------------------------------


class Report:
    def __init__(self):
        self.errors = 0

    def error(self, text):
        self.errors += 1
        print("WRONG:", text)


def answer_here(kind, market, day, holidays):
    if kind == "date":
        return "closed" if day in holidays[market] else "trades"
    return "holiday" if day in holidays[market] else "no holiday"


def answer_of(source, kind, market, day):
    """The answer of a program, or None where it has no such calendar."""
    if kind == "date":
        if market not in source.closed or not source.first_year[market] <= day.year <= source.last_year:
            return None
        return "closed" if day in source.closed[market] else "trades"
    return ("holiday" if day in source.weekend[market] else "no holiday") if market in source.weekend else None


def confirmers(sources, kind, markets, day, says, here, report):
    """Codes of the programs that say what the document says, that do not know it, and that contradict it."""
    confirm, unknown, contradict = set(), set(), set()
    for source in sources:
        answers = {market: answer_of(source, kind, market, day) for market in markets}
        answers = {market: answer for market, answer in answers.items() if answer is not None}
        if not answers:
            continue
        if all(answer == says for answer in answers.values()):
            confirm.add(source.code)
        elif all(day in GAPS.get((source.code, market), ()) and answer == here for market, answer in answers.items()):
            unknown.add(source.code)
        else:
            contradict.add(source.code)
            report.error(f"{source.code} contradicts {'/'.join(markets)} {day}: {answers}, not {says}")
    return confirm, unknown, contradict


def codes_in(cell):
    return set(cell.split())


def check_documents(tables, report):
    """Every document of a line is one of the table of documents."""
    known = {row[0] for row in tables.get("Documents", [])}
    for name in LINE_TABLES:
        for row in tables.get(name, []):
            for document in set(row[-2].split(", ")) - known:
                report.error(f"{name}, {row[0]} {row[1]}: no document has the name {document}")


def day_in(text, years, report):
    """The date, or None where it is none, or not of these years."""
    try:
        day = date.fromisoformat(text)
    except ValueError:
        day = None
    if day is None or day.year not in years:
        report.error(f"{text} is no date that belongs there")
        return None
    return day


def check_line(row, kind, markets, holidays, sources, verdicts, report):
    day = day_in(row[0], YEARS, report)
    if day is None:
        return None
    says, here = answer_in(row[2]), answer_in(row[3])
    place = f"{'/'.join(markets)} {day}"
    if row[1] != day.strftime("%a") or (day.weekday() < 5) != (kind == "date"):
        report.error(f"{place} is a {day.strftime('%a')}")
    if says == here:
        report.error(f"{place}: no difference")
    for market in markets:
        if answer_here(kind, market, day, holidays) != here:
            report.error(f"{place}: the answer here is not {here}")
    confirm, unknown, contradict = confirmers(sources, kind, markets, day, says, here, report)
    for verdict, codes in (("confirms", confirm), ("does not know", unknown), ("contradicts", contradict)):
        for code in codes:
            verdicts.setdefault(code, {}).setdefault(verdict, []).append(day)
    named = codes_in(row[5])
    compared = {source.code for source in sources}
    if named & compared != confirm - {"rules"}:
        report.error(f"{place}: confirmed by {sorted(confirm - {'rules'})}, the page has {sorted(named & compared)}")
    return day


def check_table(name, kind, markets, rows, holidays, sources, report):
    verdicts = {}
    lines = [check_line(row, kind, markets, holidays, sources, verdicts, report) for row in rows]
    listed = [day for day in lines if day]
    if listed != sorted(set(listed)):
        report.error(f"{name}: the dates are not in order, or one is there twice")
    print(f"{name}: lines {len(rows)}")
    for code, days_by_verdict in sorted(verdicts.items()):
        confirmed = days_by_verdict.pop("confirms", [])
        others = [f"{verdict} {' '.join(map(str, found))}" for verdict, found in days_by_verdict.items()]
        which = "all" if len(confirmed) == len(rows) else f"{len(confirmed)}, all but those that follow"
        print(f"  {code} confirms " + "; ".join([which, *others]))
    return set(listed)


def check_complete(kind, market, listed, holidays, sources, report):
    """Every day on which a program differs from the answers here is a line or a gap."""
    for source in sources:
        if answer_of(source, kind, market, FIRST) is None:
            continue
        compared = WEEKDAYS if kind == "date" else WEEKENDS
        differing = {d for d in compared if answer_of(source, kind, market, d) != answer_here(kind, market, d, holidays)}
        gaps = GAPS.get((source.code, market), set())
        for d in sorted(differing - listed - gaps):
            report.error(f"{source.code} {market} {d}: {answer_of(source, kind, market, d)}, neither a line nor a gap")
        own = differing - listed
        print(f"  {market}, {kind}: {source.code} compared on {len(compared)} days, differs on {len(differing)}"
              + (f", {len(own)} of them a gap of its own: {' '.join(map(str, sorted(own)))}" if own else ""))


def check_gaps(listed, holidays, sources, report):
    """A gap is a line that the program does not know, or a day without a line on which it differs."""
    for source in sources:
        for market in MARKETS:
            for day in sorted(GAPS.get((source.code, market), ())):
                kind = "date" if day.weekday() < 5 else "weekend"
                differs = answer_of(source, kind, market, day) != answer_here(kind, market, day, holidays)
                if differs == (day in listed[market]):
                    report.error(f"{source.code} {market} {day}: named as a gap, and is none")


def check_other_line(row, market, holidays, years, sources, report):
    """The answer here, who confirms the line, and who says otherwise."""
    text, _, weekday = row[0].partition(" ")
    day, says, here = day_in(text, years - set(YEARS), report), answer_in(row[1]), answer_in(row[2])
    if day is None:
        return
    if weekday != day.strftime("%a") or says == here or answer_here("date", market, day, holidays) != here:
        report.error(f"{market} {day}: not a {weekday}, no difference, or the answer here is not {here}")
    yes, _, no = row[-1].partition(" not ")
    answers = {source.code: answer_of(source, "date", market, day) for source in sources}
    confirm = {code for code, answer in answers.items() if answer == says}
    against = {code for code, answer in answers.items() if answer not in (says, None)}
    if codes_in(yes) & set(answers) != confirm or codes_in(no) & set(answers) != against:
        report.error(f"{market} {day}: confirmed by {sorted(confirm)}, not by {sorted(against)}; the page has {row[-1]}")


def check_other_years(tables, holidays, years, sources, report):
    for name, market in OTHER_YEARS.items():
        rows = tables.get(name, [])
        for row in rows:
            check_other_line(row, market, holidays, years[market], sources, report)
        if not rows or len({row[0] for row in rows}) != len(rows):
            report.error(f"{name}: no lines, or one is there twice")
        print(f"{name}: {len(rows)} lines")


def hours_of(source, market, day):
    """The sessions of a program, its closing time where it has no more, or None where it does not say."""
    answer = answer_of(source, "date", market, day)
    if answer is None or (day.weekday() > 4 and market not in source.hours):
        return None
    if market in source.hours:
        return source.hours[market].get(day, NO_SESSION)
    if answer == "closed":
        return NO_SESSION
    return source.early[market].get(day, REGULAR[market][1]) if market in source.early else None


def is_same(answer, hours):
    """A program that has a closing time alone is asked for no more."""
    return answer == hours or hours.endswith(f"to {answer}")


def says_hours(source, markets, dates, in_range, hours):
    """Whether a program has these hours on all these days, or None where it does not say; in a range, on those with a session."""
    answers = [hours_of(source, market, day) for market in markets for day in dates]
    answers = [answer for answer in answers if answer and not (in_range and answer == NO_SESSION)]
    return all(is_same(answer, hours) for answer in answers) if answers else None


def check_first_input(row, dates, says, here, report):
    """The first of the dates, and a second in the one and not in the other."""
    day, second = input_in(row[2])
    if day != min(dates, default=None) or is_inside(says, second) == is_inside(here, second):
        report.error(f"{row[0]}, {row[1]}: {row[2]} is not the first day, or shows nothing")


def check_hours_line(row, years, sources, rules, report):
    """Returns the markets and the days that the line explains."""
    place, markets = f"{row[0]}, {row[1]}", row[0].split(", ")
    dates, in_range = days_in(row[1])
    says, here = sessions_in(row[3]), sessions_in(row[4])
    if not dates or {d.year for d in dates} - years or set(markets) - set(MARKETS) or None in (says, here) or says == here:
        report.error(f"{place}: no such market, no such days, or no difference")
        return set()
    if any(hours_here(market, day) != here for market in markets for day in dates):
        report.error(f"{place}: the answer here is not {here}")
    check_first_input(row, [d for d in dates if d in rules.hours[markets[0]]] if in_range else dates, says, here, report)
    verdicts = {source.code: says_hours(source, markets, dates, in_range, says) for source in [*sources, rules]}
    yes, _, no = row[6].partition(" not ")
    for verdict, cell in ((True, yes), (False, no)):
        found = {code for code, said in verdicts.items() if said is verdict}
        if codes_in(cell) & {source.code for source in sources} != found - {"rules"} or (not verdict and "rules" in found):
            report.error(f"{place}: {'confirmed' if verdict else 'contradicted'} by {sorted(found)}, the page has {row[6]}")
    return {(market, day) for market in markets for day in dates}


def check_hours_table(name, rows, years, sources, rules, report):
    explained = set()
    for row in rows:
        try:
            explained |= check_hours_line(row, years, sources, rules, report)
        except (ValueError, AttributeError, LookupError) as problem:
            report.error(f"{name}, {' | '.join(row[:3])}: cannot be read ({problem})")
    if not rows:
        report.error(f"no table below the heading {name}")
    print(f"{name}: {len(rows)} lines")
    return explained


def differs_in_hours(source, market, day):
    """Other sessions than here, or an early close here and no session there."""
    answer = hours_of(source, market, day)
    if answer == NO_SESSION:
        return is_early_close(market, day)
    return answer is not None and not is_same(answer, hours_here(market, day))


def check_hours_complete(market, explained, sources, report):
    """Every day on which a program has other hours than here has a line."""
    for source in sources:
        if market not in source.hours and market not in source.early:
            continue
        compared = [d for d in DAYS if hours_of(source, market, d) is not None]
        differing = [d for d in compared if differs_in_hours(source, market, d)]
        for d in differing:
            if (market, d) not in explained:
                report.error(f"{source.code} {market} {d}: {hours_of(source, market, d)}, no line explains it")
        print(f"  {market}, hours: {source.code} compared on {len(compared)} days, differs on {len(differing)}")


def check_unconfirmed_line(row, holidays, report):
    """The answer of is_open at the first input: open or closed."""
    day, second = input_in(row[1])
    for market in row[0].split(", "):
        trades = day.year in YEARS and day.weekday() < 5 and day not in holidays[market]
        answer = "open" if trades and is_inside(open_hours_here(market, day), second) else "closed"
        if not trades or not row[3].startswith(answer):
            report.error(f"{market} {row[1]}: no trading day, or {answer} here")


def check_unconfirmed_hours(rows, holidays, report):
    for row in rows:
        try:
            check_unconfirmed_line(row, holidays, report)
        except (ValueError, AttributeError, LookupError) as problem:
            report.error(f"{UNCONFIRMED_HOURS}, {' | '.join(row[:2])}: cannot be read ({problem})")
    if not rows:
        report.error(f"no table below the heading {UNCONFIRMED_HOURS}")
    print(f"{UNCONFIRMED_HOURS}: {len(rows)} lines")


def check_stored_hours(path, report):
    """The stored answers of trading_hours have the hours that are taken for the answers here."""
    count = 0
    for market, day, regular, whole in stored_hours(path):
        count += 1
        if (regular, whole) != (hours_here(market, day), open_hours_here(market, day)):
            report.error(f"{market} {day}: the stored hours are {regular}, in all {whole}")
    if count == 0:
        report.error("no stored answer of trading_hours")
    print(f"stored hours: {count} answers of trading_hours")


def check_hours(tables, root, holidays, sources, rules, report):
    check_stored_hours(root / STORED_HOURS, report)
    explained = check_hours_table(HOURS, tables.get(HOURS, []), set(YEARS), sources, rules, report)
    for market in MARKETS:
        check_hours_complete(market, explained, [*sources, rules], report)
    check_unconfirmed_hours(tables.get(UNCONFIRMED_HOURS, []), holidays, report)
    others = set(range(1, 10000)) - set(YEARS)
    check_hours_table(OTHER_HOURS, tables.get(OTHER_HOURS, []), others, sources, rules, report)


def check_codes(tables, codes, compared, report):
    """Every code in the last column is one of the table of sources."""
    known = set(codes.values())
    for name in LINE_TABLES:
        used = {code for row in tables.get(name, []) for part in row[-1].split(" not ") for code in codes_in(part)}
        for code in sorted(used - known):
            report.error(f"{name}: no source has the code {code}")
        if used - compared:
            print(f"{name}: not compared with {' '.join(sorted(used - compared))}")


def check_date_tables(tables, holidays, sources, report):
    """Returns the days with a line, by market."""
    listed_days = {market: set() for market in MARKETS}
    for kind, group in (("date", DATE_TABLES), ("weekend", WEEKEND_TABLES)):
        listed = {market: set() for market in MARKETS}
        for name, markets in group.items():
            if name not in tables:
                report.error(f"no table below the heading {name}")
                continue
            found = check_table(name, kind, markets, tables[name], holidays, sources, report)
            for market in markets:
                listed[market] |= found
                listed_days[market] |= found
        for market in MARKETS:
            check_complete(kind, market, listed[market], holidays, sources, report)
    return listed_days


def other_years_in(tables):
    """The years of the lines of other years."""
    by_date = {int(row[0][:4]) for name in OTHER_YEARS for row in tables.get(name, [])}
    return by_date | {int(year) for row in tables.get(OTHER_HOURS, []) for year in re.findall(r"\b\d{4}\b", row[1])}


def main():
    root = Path(sys.argv[1]) if len(sys.argv) > 1 else ROOT
    page = Path(sys.argv[2]) if len(sys.argv) > 2 else root / PAGE
    report = Report()
    holidays, stored_years = stored_holidays(root / STORED)
    tables, sentences = read_page(page)
    tables = lines_in(tables, report)
    fill_in_codes(tables, sentences, report)
    codes = source_codes(tables)
    programs = load_programs(codes, set(YEARS) | other_years_in(tables))
    rules = public_rules()
    sources = programs + [rules]
    print("compared:", ", ".join(f"{s.code} = {s.program} {s.version}".strip() for s in sources))
    check_codes(tables, codes, {source.code for source in programs}, report)
    check_documents(tables, report)
    listed_days = check_date_tables(tables, holidays, sources, report)
    check_gaps(listed_days, holidays, sources, report)
    check_hours(tables, root, holidays, programs, rules, report)
    check_other_years(tables, holidays, stored_years, programs, report)
    if not programs:
        report.error("no program was compared")
    print(f"{report.errors} wrong")
    return 1 if report.errors else 0


if __name__ == "__main__":
    sys.exit(main())
