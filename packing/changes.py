"""CHANGELOG.md: the day of the version, what it changes, and what has changed since."""
import calendar
import re
import time

from contents import version
from packing.repository import Refused, content


def entry():
    """Returns the day of the version, as YYYY-MM-DD, and the points of its entry, after those that came later.

    Its entry has to be the first, or the second after that of a version that is not yet released.
    """
    name = re.escape(version())
    coming = r"(?:# chipfire [\d.]+ \(not yet released\)\n(.*?))?"
    pattern = rf"{coming}^# chipfire {name}, (\d{{4}}-\d\d-\d\d)\n(.*?)(?=^# |\Z)"
    fit = re.match(pattern, content("CHANGELOG.md").decode(), re.MULTILINE | re.DOTALL)
    if fit is None:
        raise Refused(f"CHANGELOG.md does not begin with version {version()} and its day")
    points = re.split(r"^- ", f"{fit[1] or ''}{fit[3]}", flags=re.MULTILINE)[1:]
    return fit[2], [" ".join(it.split()) for it in points]


def seconds():
    """Returns the begin of the version's day, in seconds since 1970: the date of all that is packed."""
    return calendar.timegm(time.strptime(entry()[0], "%Y-%m-%d"))
