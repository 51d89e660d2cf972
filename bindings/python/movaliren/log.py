"""A formatter for the module logging."""

import datetime
import logging
import time
from collections.abc import Mapping
from typing import Any, Literal

from ._movaliren import Description, iso8601_at


class Formatter(logging.Formatter):
    """Writes the time of a record by ISO 8601 with three decimals and the offset of local time, or by a description in the
    syntax of strftime, the `datefmt`. With a `zone`, a tzinfo as zoneinfo has it, it is the time there. All else is that of
    logging.Formatter, so that logging.config.dictConfig takes it by its `class`.

        handler.setFormatter(movaliren.Formatter("{asctime} {message}", style="{"))
    """

    def __init__(
        self, fmt: str | None = None, datefmt: str | None = None, style: Literal["%", "{", "$"] = "%", validate: bool = True, *,
        defaults: Mapping[str, Any] | None = None, zone: datetime.tzinfo | None = None, decimals: int = 3,
    ) -> None:
        super().__init__(fmt, datefmt, style, validate, defaults=defaults)
        self._description = None if datefmt is None else Description.strftime(datefmt)
        self._zone, self._decimals = zone, decimals
        # A zone or a number of decimals that is wrong is refused here, and not at the first record.
        self._offset_of(0), iso8601_at(0, decimals=decimals)

    def _offset_of(self, second: int) -> int | datetime.timedelta | None:
        if self._zone is None:
            return time.localtime(second).tm_gmtoff
        return datetime.datetime.fromtimestamp(second, self._zone).utcoffset()

    def formatTime(self, record: logging.LogRecord, datefmt: str | None = None) -> str:
        second, nanosecond = int(record.created // 1), int(record.msecs) * 1_000_000
        offset = self._offset_of(second)
        if self._description is not None:
            return self._description.format_at(second, nanosecond, offset)
        return iso8601_at(second, nanosecond, offset, self._decimals)
