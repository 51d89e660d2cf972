import datetime

import movaliren

now = datetime.datetime.now().astimezone()
print(movaliren.iso8601(now, decimals=3), "started")
