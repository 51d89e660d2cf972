"""A value that a format refuses, and a text that is no description, are told."""

import movaliren

try:
    movaliren.rfc3339_at(253_402_300_800)
except movaliren.Error as error:
    print(f"no text: {error}")
try:
    movaliren.Description.strftime("at %Q")
except movaliren.DescriptionError as error:
    print(f"no description: {error}")
