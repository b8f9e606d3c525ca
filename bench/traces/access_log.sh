#!/bin/sh
# access_log.sh LOG..: the paths that were asked for, without their queries, of logs in the Common Log
# Format or the Combined one, in the order of the lines. Needs awk alone.
set -eu
[ $# -gt 0 ] || {
    echo "usage: access_log.sh LOG.." >&2
    exit 2
}
# A line is: HOST - USER [TIME] "METHOD PATH HTTP/1.1" STATUS BYTES ..
for log; do
    awk -F'"' '{
        if (split($2, request, " ") < 2) next
        sub(/[?#].*/, "", request[2])
        print request[2]
    }' <"$log"
done
