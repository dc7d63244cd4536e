"""Whether the network of docs/dial.md keeps the rules of the law, for numbers of 0 to 64 keys, and so the law its promises.

Calls that find nothing due are left out: they change nothing that the law speaks of. It takes some minutes.
"""

import sys

from end import End, Nothing
from law import answer_of, broken_premises, broken_promises, run
from make import MOST_KEYS, PROFILE, carried, merged, script


def ends_of(keys):
    calls, _ = script([place % 16 for place in range(keys)])
    near = End(PROFILE)
    calls = [call for call in calls if not isinstance(answer_of(near, call), Nothing)]
    return run(PROFILE, merged(calls, carried(calls)))


broken = 0
for keys in range(MOST_KEYS + 1):
    ends = ends_of(keys)
    for place in broken_premises(ends) + broken_promises(ends):
        print(f"with {keys} keys: {place}", file=sys.stderr)
        broken += 1
if broken:
    sys.exit(1)
print(f"numbers of 0 to {MOST_KEYS} keys keep every premise, and every promise holds")
