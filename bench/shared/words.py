"""Words of the program on standard error, as the table of docs/FORMATS.md has them.

For the scripts of bench/ and examples/ that compare those words.

Needs: Python 3.8 or later.

Prints: nothing.
"""
import os
import re

FORMATS = os.path.abspath(os.path.join(__file__, "../../../docs/FORMATS.md"))


def words_before(place):
    """The words behind which a line follows that is written so in the table."""
    with open(FORMATS, encoding="utf-8") as table:
        for line in table:
            cells = line.split("|")
            if line.startswith("| `") and f"`{place}`" in cells[1]:
                return re.match(r" `([^`]*)`", cells[1])[1]
    raise LookupError(f"{FORMATS} has no words before {place}")


CANNOT_LISTEN = words_before("port: N")
