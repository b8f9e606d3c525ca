#!/bin/sh
# file_pages.sh [ROWS]: the 4 KB pages of files that sqlite3 reads and writes, as FILE:PAGE, while it
# inserts ROWS rows (100000), builds an index, selects as many rows by it, which a fixed sequence draws,
# and scans the table. SQLite's own cache has 10 pages, so that most lookups reach the files. Needs
# strace and sqlite3.
set -eu
rows=${1:-100000}
work=$(mktemp -d)
trap 'rm -rf "$work"' EXIT
trap 'exit 1' HUP INT TERM
cat >"$work/sql" <<SQL
PRAGMA cache_size = 10;
CREATE TABLE t (k INTEGER, v TEXT);
WITH RECURSIVE n(i) AS (SELECT 1 UNION ALL SELECT i + 1 FROM n WHERE i < $rows)
INSERT INTO t SELECT i * 7919 % $rows, hex(zeroblob(40)) FROM n;
CREATE INDEX by_k ON t (k);
WITH RECURSIVE n(i, x) AS (SELECT 1, 1 UNION ALL SELECT i + 1, x * 16807 % 2147483647 FROM n WHERE i < $rows)
SELECT count(v) FROM n CROSS JOIN t ON k = x % $rows;
SELECT count(v) FROM t;
SQL
strace -f -y -s 0 -e trace=pread64,pwrite64 -o "$work/calls" \
    sqlite3 -batch "$work/database" <"$work/sql" >"$work/output"
# A line is: PID CALL(FD<PATH>, ""..., BYTES, OFFSET) = ..; (deleted) may follow PATH>.
sed -n 's/^[0-9]* *p[a-z]*64([0-9]*<.*\/\([^/>]*\)>.*, \([0-9]*\), \([0-9]*\)) *= .*/\1 \2 \3/p' "$work/calls" |
    awk '{ for (at = $3 - $3 % 4096; at < $3 + $2; at += 4096) printf "%s:%d\n", $1, at / 4096 }'
