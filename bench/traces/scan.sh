#!/bin/sh
# scan.sh: 200,000 accesses: in each 1,000 first 800 skewed ones to 399 keys, which a fixed sequence draws,
# and then 200 to keys that never return. Needs awk alone.
set -eu
awk 'BEGIN {
    x = 1
    for (at = 0; at < 200000; at++) {
        x = x * 16807 % 2147483647; y = x; x = x * 16807 % 2147483647
        print (at % 1000 < 800) ? "often" int(400 * (x / 2147483647) * (y / 2147483647)) : "once" at
    }
}'
