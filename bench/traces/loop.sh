#!/bin/sh
# loop.sh: 120 keys in turn, 1,000 times. Needs awk alone.
set -eu
awk 'BEGIN { for (at = 0; at < 120000; at++) print at % 120 }'
