"""The checks of dbapi20 on types and their constructors."""
from __future__ import annotations

import datetime
import time

import pytest

import cubetree as driver


def test_Date() -> None:
    day = datetime.date(2002, 12, 25)
    assert driver.Date(2002, 12, 25) == day
    assert driver.DateFromTicks(time.mktime((2002, 12, 25, 23, 59, 59, 0, 0, -1))) == day


def test_Time() -> None:
    moment = datetime.time(13, 45, 30)
    assert driver.Time(13, 45, 30) == moment
    assert driver.TimeFromTicks(time.mktime((2001, 1, 1, 13, 45, 30, 0, 0, -1))) == moment


def test_Timestamp() -> None:
    moment = datetime.datetime(2002, 12, 25, 13, 45, 30)
    assert driver.Timestamp(2002, 12, 25, 13, 45, 30) == moment
    assert driver.TimestampFromTicks(time.mktime((2002, 12, 25, 13, 45, 30, 0, 0, -1))) == moment


def test_ticks_are_local_time(monkeypatch: pytest.MonkeyPatch) -> None:
    """9 hours east of UTC, the second of January 1970 begins 15 hours after the epoch."""
    with monkeypatch.context() as patch:
        patch.setenv("TZ", "JST-9")
        time.tzset()
        assert driver.DateFromTicks(15 * 3600 - 1) == datetime.date(1970, 1, 1)
        assert driver.DateFromTicks(15 * 3600) == datetime.date(1970, 1, 2)
        assert driver.TimeFromTicks(15 * 3600 + 61) == datetime.time(0, 1, 1)
        assert driver.TimestampFromTicks(0) == datetime.datetime(1970, 1, 1, 9)
    time.tzset()


def test_Binary() -> None:
    assert driver.Binary(b"Something") == b"Something"
    assert driver.Binary(b"") == b""


def test_BINARY() -> None:
    assert driver.BINARY not in (driver.STRING, driver.NUMBER)


def test_DATETIME() -> None:
    assert driver.DATETIME not in (driver.STRING, driver.NUMBER)


def test_ROWID() -> None:
    assert driver.ROWID not in (driver.STRING, driver.NUMBER)
