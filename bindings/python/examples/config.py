"""Logs by a configuration: a line of each kind."""

import logging.config

logging.config.dictConfig({
    "version": 1,
    "formatters": {
        "local": {"class": "movaliren.Formatter", "format": "{asctime} {levelname} {message}", "style": "{"},
        "utc": {"()": "movaliren.Formatter", "fmt": "%(asctime)s %(message)s", "zone": "ext://datetime.timezone.utc", "decimals": 6},
    },
    "handlers": {
        "screen": {"class": "logging.StreamHandler", "formatter": "local"},
        "audit": {"class": "logging.StreamHandler", "formatter": "utc"},
    },
    "root": {"handlers": ["screen", "audit"], "level": "INFO"},
})
logging.info("opened")
