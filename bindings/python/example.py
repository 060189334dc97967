"""Writes a line, and prints each line of a text, and each fault."""

# [lines_in_python]
import line_protocol

text = line_protocol.Builder().measurement("disk usage").tag("host", "a").field("free", 42.5).close_line().build() + "m 5\n"
for item in line_protocol.parse(text):
    if isinstance(item, line_protocol.Line):
        print(item.measurement, item.tags, item.fields, item.timestamp)
    else:
        print("a fault:", item.kind.name, item.text)
# [end]

# [writing_in_python]
import line_protocol

try:
    line_protocol.write(line_protocol.Line("login", {"user": "guest\npayments"}, {"ok": True}))
except line_protocol.NotAdmitted as refused:
    print(refused)
# [end]

# [sums_in_python]
from collections import Counter

import line_protocol


def sums(text, field):
    """The sum of a field over the lines of each series, by the key of the series."""
    totals = Counter()
    for item in line_protocol.parse(text):
        if isinstance(item, line_protocol.Line):
            totals[line_protocol.key(item)] += dict(item.fields).get(field, 0)
    return totals


print(sums("cpu,host=a,az=b n=1i\ncpu,az=b,host=a n=2i\ncpu n=4i\n", "n"))
# [end]
