"""A line of a log with the time of now, in UTC with milliseconds."""

import datetime
import logging
import sys

import movaliren

handler = logging.StreamHandler(sys.stdout)
handler.setFormatter(movaliren.Formatter("%(asctime)s %(message)s", zone=datetime.timezone.utc))
logging.basicConfig(handlers=[handler], level=logging.INFO)
logging.info("opened")
