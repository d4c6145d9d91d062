#!/usr/bin/env python3
"""Writes the rows of TABLE in crates/book_examples/src/recurring.rt: RECURRENCE FROM TO = DAY DAY ..

Raw days come from dateutil's rrule; only the moves from weekends and the cut at a range are made here. With --check FILE each row is
looked for in that file instead, and those that it lacks are printed.
"""
import datetime
import json
import sys

from dateutil.rrule import DAILY, MONTHLY, WEEKLY, YEARLY, rrule

FREQUENCIES = {"daily": DAILY, "weekly": WEEKLY, "monthly": MONTHLY, "yearly": YEARLY}
DAY = datetime.timedelta(days=1)


def at(text):
    return datetime.datetime.strptime(text, "%Y-%m-%d")


def moved(day, mode):
    """A Saturday or Sunday as the Friday before or the Monday after."""
    while mode and day.weekday() > 4:
        day += DAY if mode == "after" else -DAY
    return day


def dates(recurrence, first, last):
    rule = {"interval": recurrence.get("interval", 1), "until": at("2199-12-31")}
    patterns = [pattern["value"] for pattern in recurrence.get("patterns", [])]
    if patterns:
        rule["bymonthday"] = patterns
    if recurrence.get("endMode") == "after_n_occurrences":
        del rule["until"]
        rule["count"] = recurrence["endOccurrences"]
    if recurrence.get("endMode") == "on_date":
        rule["until"] = at(recurrence["endDate"])
    mode = recurrence.get("weekendSolveMode", "after") if recurrence.get("skipWeekend") else ""
    raw = rrule(FREQUENCIES[recurrence["frequency"]], dtstart=at(recurrence["start"]), **rule)
    days = {moved(day, mode) for day in raw.xafter(at(first) - 10 * DAY, inc=True) if day <= at(last) + 10 * DAY} \
        if "count" in rule or recurrence.get("endMode") == "on_date" else \
        {moved(day, mode) for day in raw.between(at(first) - 10 * DAY, at(last) + 10 * DAY, inc=True)}
    return [day.strftime("%Y%m%d") for day in sorted(days) if at(first) <= day <= at(last)]


def made(start, frequency, interval=1, patterns=(), weekends="", count=0, end=""):
    recurrence = {"start": start, "frequency": frequency}
    if interval != 1:
        recurrence["interval"] = interval
    if patterns:
        recurrence["patterns"] = [{"type": "day", "value": value} for value in patterns]
    if weekends:
        recurrence.update({"skipWeekend": True, "weekendSolveMode": weekends})
    if count:
        recurrence.update({"endMode": "after_n_occurrences", "endOccurrences": count})
    if end:
        recurrence.update({"endMode": "on_date", "endDate": end})
    return recurrence


ROWS = [
    (made("2024-01-01", "daily"), "2024-02-20", "2024-03-10"),
    (made("2024-01-01", "daily", 3), "2024-12-20", "2025-01-31"),
    (made("2024-02-28", "daily", 17, weekends="before"), "2024-02-01", "2024-12-31"),
    (made("2024-02-28", "daily", 17, weekends="after"), "2024-02-01", "2024-12-31"),
    (made("2023-11-05", "daily", 1000), "2023-01-01", "2060-12-31"),
    (made("2024-03-29", "daily", weekends="after", end="2024-04-14"), "2024-03-01", "2024-05-01"),
    (made("2024-03-29", "daily", weekends="before", count=12), "2024-03-01", "2024-05-01"),
    (made("1970-01-01", "weekly"), "1970-01-01", "1970-04-30"),
    (made("2024-03-30", "weekly", weekends="before"), "2024-03-01", "2024-06-30"),
    (made("2024-03-31", "weekly", 2, weekends="after"), "2024-03-01", "2024-10-31"),
    (made("2024-03-30", "weekly", 3, count=7), "2024-01-01", "2030-12-31"),
    (made("2099-12-26", "weekly", 5, end="2101-01-01"), "2100-01-01", "2110-12-31"),
    (made("2024-01-31", "monthly"), "2024-01-01", "2026-12-31"),
    (made("2024-01-31", "monthly", patterns=[-1]), "2024-01-01", "2025-12-31"),
    (made("2024-01-31", "monthly", patterns=[-1], weekends="before"), "2024-01-01", "2025-12-31"),
    (made("2024-01-15", "monthly", patterns=[31, -1, 15], count=25), "2024-01-01", "2030-12-31"),
    (made("2024-01-20", "monthly", 2, patterns=[10, 20]), "2024-01-01", "2025-06-30"),
    (made("2024-05-29", "monthly", 4, patterns=[29, 30, 31], weekends="after"), "2024-01-01", "2027-12-31"),
    (made("2023-06-30", "monthly", 7, weekends="before", end="2031-01-01"), "2020-01-01", "2040-12-31"),
    (made("2024-01-31", "monthly", 1000), "2000-01-01", "2199-12-31"),
    (made("2199-10-31", "monthly", patterns=[1, -1]), "2199-01-01", "2199-12-31"),
    (made("2024-02-29", "yearly"), "2024-01-01", "2120-12-31"),
    (made("2096-02-29", "yearly", 2, weekends="after"), "2090-01-01", "2199-12-31"),
    (made("2000-02-29", "yearly", 3, weekends="before", count=9), "2000-01-01", "2199-12-31"),
    (made("2021-12-25", "yearly", weekends="before", end="2039-12-25"), "2020-01-01", "2050-12-31"),
    (made("2021-07-04", "yearly", 10, weekends="after"), "2020-01-01", "2199-12-31"),
]


def table():
    """The rows, with their days as YYYYMMDD."""
    lines = []
    for recurrence, first, last in ROWS:
        text = json.dumps(recurrence, separators=(",", ":"))
        days = " ".join(dates(recurrence, first, last))
        lines.append(f"{text} {first.replace('-', '')} {last.replace('-', '')} = {days}")
    return lines


def main():
    lines = table()
    if len(sys.argv) == 3 and sys.argv[1] == "--check":
        with open(sys.argv[2], encoding="utf-8") as kept:
            text = kept.read()
        wrong = [line for line in lines if line not in text]
        for line in wrong:
            print(line)
        return 1 if wrong else 0
    print("\n".join(lines))
    return 0


sys.exit(main())
