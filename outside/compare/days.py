"""Every day of Python's calendar, one to a line, as YYYYMMDD.

The calendar of `datetime` has the years 1 to 9999 and is the Gregorian one throughout, also before that was in use: it is ISO 8601's.
"""
import sys
from datetime import date

days = map(date.fromordinal, range(date.min.toordinal(), date.max.toordinal() + 1))
sys.stdout.writelines(day.isoformat().replace("-", "") + "\n" for day in days)
