"""python3 stack.py PLAYED REPORT: no call that play.c made took more stack on the board than report.txt says of its function."""
import re
import sys

bounds = dict(re.findall(r'^stack (\w+): (\d+)$', open(sys.argv[2]).read(), flags=re.M))
for name, function, found in re.findall(r'^# (.*): (\w+) \d+ \d+ \d+ (\d+)$', open(sys.argv[1]).read(), flags=re.M):
    if int(found) > int(bounds[function]):
        sys.exit(f'stack: {name} took {found} bytes, {bounds[function]} are said of {function}')
