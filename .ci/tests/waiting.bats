# What is seen of a build that takes long, and what ends it.
load helper

# Ends a command by a signal while rt proves a crate.
end_by() {
    local signal=$1 whom=$2 crate=$3
    shift 3
    echo "$signal $whom in $crate: $*"
    touch "$state/hold_$crate"
    : >"$state/calls"
    start_in_group "$@"
    until_true began "$crate"
    sleep 0.2
    kill -"$signal" -- "$whom$group"
    until_true is_gone "$group"
    for file in "$state"/rt_*; do
        until_true is_gone "$(cat "$file")"
    done
    rm "$state/hold_$crate"
    local status=0
    wait "$group" || status=$?
    cat "$state/err"
    [ "$status" = $((128 + $(kill -l "$signal"))) ]
    [ "$(sed 1d "$state/err")" = 'stopped; proved crates are kept' ]
    lacks_path "$copy/crates/clock2q_program/out/made"
    lacks_path "$state/tmp/*"
}

@test "a signal ends rt while it proves a library, and proved crates are kept" {
    end_by INT - clock2q_handles "$copy/clock2q"
    calls 'end clock2q_count' 1
    end_by TERM '' clock2q_handles "$copy/clock2q"
    calls 'begin clock2q_count' 0
    end_by HUP - clock2q_handles "$copy/clock2q"
    end_by TERM - clock2q_handles "$copy/clock2q"
    end_by INT '' clock2q_handles "$copy/clock2q"
}

@test "a signal ends rt while it builds the program" {
    end_by TERM '' clock2q_program "$copy/clock2q"
    end_by INT - clock2q_program "$copy/clock2q"
    builds 1
    calls 'begin clock2q_command' 0
    echo changed >"$copy/crates/clock2q_program/src/lib.rt"
    end_by INT - clock2q_program "$copy/clock2q"
    builds 1
    [[ $output == *changed* ]]
}

@test "a signal ends the rt of make" {
    end_by INT - clock2q_program make
    end_by TERM '' clock2q_program make
    builds 1
    calls 'begin clock2q_command' 0
}

# A Python for which a second counts as ten minutes.
make_fast() {
    mkdir -p "$state/fast"
    cat >"$state/fast/python3" <<FAST
#!/bin/sh
exec $python -c "
import runpy, sys, time
real = time.monotonic
time.monotonic = lambda: 600 * real()
sys.argv = sys.argv[1:]
sys.path[0] = sys.argv[0].rpartition('/')[0]
runpy.run_path(sys.argv[0], run_name='__main__')" "\$@"
FAST
    chmod +x "$state/fast/python3"
}

# Runs the script with a terminal for standard error.
start_on_terminal() {
    alone "$python" -c '
import os, pty, subprocess, sys
ours, terminal = pty.openpty()
subprocess.Popen(sys.argv[1:], stdin=subprocess.DEVNULL, stdout=subprocess.DEVNULL, stderr=terminal)
os.close(terminal)
try:
    while True:
        os.write(1, os.read(ours, 1000))
except OSError:
    pass' "$copy/clock2q" >"$state/out" 2>&1
}

# The lines that show one crate alone, after some minutes.
LINE='[0-9]* of [0-9]* crates left, [0-9]*[1-9] min, proving clock2q_queues'
shown() { tr '\r' '\n' <"$state/out" | grep -a "$LINE$"; }
shown_twice() { [ "$(grep -c "^$LINE$" "$state/err")" -ge 2 ]; }

@test "a terminal shows in one line what is left" {
    make_fast
    path=$state/fast:$tools
    touch "$state/hold_clock2q_queues" "$state/out"
    start_on_terminal &
    until_true shown
    rm "$state/hold_clock2q_queues"
    wait
    grep -qx "$LINE" <<<"$(shown | tail -n 1 | sed 's/.*K//')"
    [ "$(wc -l <"$state/out")" = 1 ] # it is rewritten in place
    [ "$(tail -c 4 "$state/out")" = $'\r\033[K' ]
}

@test "without a terminal a line every five minutes says what is left" {
    start 0 clock2q
    [[ $stderr != *' min, proving'* ]]
    rm -rf "$copy"/crates/*/out
    make_fast
    touch "$state/hold_clock2q_queues"
    path=$state/fast:$tools alone "$copy/clock2q" >/dev/null 2>"$state/err" &
    until_true shown_twice
    rm "$state/hold_clock2q_queues"
    wait
    [ "$(wc -l <"$state/err")" -lt 100 ]
}

@test "a second start waits, and says so" {
    touch "$state/hold_clock2q_cache"
    alone "$copy/clock2q" >"$state/one" 2>&1 &
    until_true began clock2q_cache
    alone "$copy/clock2q" >"$state/two" 2>"$state/err" &
    sleep "0.$((RANDOM % 10))"
    until_true grep -q 'waiting: another build' "$state/err"
    rm "$state/hold_clock2q_cache"
    wait
    [ "$(grep -c waiting "$state/err")" = 1 ]
    calls 'begin clock2q_cache' 1
    for file in one two; do
        grep -q 'text of clock2q_program' "$state/$file"
    done
    builds 0
}

@test "a start waits for an rt in a crate's folder, and says so" {
    touch "$state/hold_other"
    flock "$copy/crates/clock2q_count" sh -c 'while [ -e "$1" ]; do sleep 0.02; done' sh "$state/hold_other" 3>&- &
    alone "$copy/clock2q" >"$state/out" 2>"$state/err" &
    until_true grep -q 'waiting: another build or rt is at work in /.*/clock2q_count$' "$state/err"
    rm "$state/hold_other"
    wait
    [ "$(grep -c waiting "$state/err")" = 1 ]
    grep -q 'text of clock2q_program' "$state/out"
}
