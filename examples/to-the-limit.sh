#!/bin/sh
# Writes a schedule in which one thread enters one object 65,536 times: examples/to-the-limit.sh | ./replay | tail -n 2
if ! command -v awk >/dev/null; then
    echo "to-the-limit: awk is not found" >&2
    exit 1
fi
awk 'BEGIN {
    print "L 1 1 0"
    for (depth = 1; depth <= 65536; depth++) {
        print "E 1 1"
        steps = depth <= 64 ? 1 : depth == 65 ? 3 : 2
        for (step = 1; step <= steps; step++) print "S 1"
    }
}'
