# What the tests of the scripts share. Each test has a copy of the scripts and crates that the suite made, and a folder
# for what the substitute for rt notes.
bats_require_minimum_version 1.5.0

setup() { setup_copy; }
setup_copy() {
    state=$BATS_TEST_TMPDIR/state
    mkdir -p "$state/tmp"
    : >"$state/calls"
    copy=$BATS_TEST_TMPDIR/copy
    cp -r "$scripts" "$copy"
    cd "$copy"
}

# Lets the substitute go on that a failed test holds.
teardown() {
    rm -f "$state"/hold_*
    wait
}

# Becomes a command that has nothing but the tools, or what `path` has.
become() {
    exec env -i PATH="${path-$tools}" RT_STATE="$state" TMPDIR="$state/tmp" HOME="$state" MAKEFLAGS="${flags-}" CDPATH="${cdpath-}" \
        "$@" <"${input-/dev/null}" 3>&-
}
alone() { (become "$@"); }

# start STATUS SCRIPT [ARGUMENT..]: runs a script of the copy. Fails unless it ends with the status.
start() {
    local expected=$1 script=$2
    shift 2
    echo "$script $*"
    run "-$expected" --separate-stderr alone "$copy/$script" "$@"
}

# The same with a target of make.
start_make() {
    local expected=$1
    shift
    echo "make $*"
    run "-$expected" --separate-stderr alone make --no-print-directory -C "$copy" "$@"
}

# The same with a script of .ci, with the substitute before the rt that may be there.
start_ci() {
    path=$tools:$(dirname "$python"):$PATH start "$1" ".ci/$2" "${@:3}"
}

# Starts the built script again. Fails unless rt runs as often as this.
builds() {
    : >"$state/calls"
    start 0 clock2q
    calls 'begin run' "$1"
}

calls() { [ "$(grep -c -x -e "$1" "$state/calls")" = "$2" ]; }
began() { grep -qx "begin $1" "$state/calls"; }
ended() { grep -qx "end $1" "$state/calls"; }
is_gone() { ! kill -0 "$1" 2>/dev/null; }
lacks_path() { ! compgen -G "$1"; }
until_true() {
    for _ in $(seq 600); do
        "$@" && return
        sleep 0.05
    done
    return 1
}

# Starts a command as a terminal does, in a group of its own where no signal is ignored, whatever the caller of
# this test ignores. Its output is in files.
start_in_group() {
    become "$python" -c '
import os, signal, sys
for each in (signal.SIGINT, signal.SIGHUP, signal.SIGTERM):
    signal.signal(each, signal.SIG_DFL)
os.setsid()
os.execvp(sys.argv[1], sys.argv[1:])' "$@" >"$state/out" 2>"$state/err" &
    group=$!
}

# A script in the copy that prints its name, and its arguments between < and >.
print_instead() {
    mkdir -p "$copy/${1%/*}"
    printf '#!/bin/sh\nprintf "%s"\nprintf " <%%s>" "$@"\n' "$1" >"$copy/$1"
    chmod +x "$copy/$1"
}

# A crate with a proof, over one that is a static library by its line, and with an edit for each word that
# the substitute reads.
make_edits() {
    mkdir -p "$copy"/crates/{low,static}/{src,must-fail-gate} "$copy"/crates/low/{proofs/put,must-fail-more} "$copy/.ci"
    find "$top/.ci" -maxdepth 1 -type f -exec cp {} "$copy/.ci" \;
    cp "$top/HANDLES" "$copy"
    printf 'static staticlib: low\nlow:\n' >"$copy/crates.txt"
    echo good >"$copy/crates/low/src/lib.rt"
    echo good >"$copy/crates/static/src/lib.rt"
    printf 'returns-clause-value g c = here\n' >"$copy/crates/low/proofs/put/Answers.antt"
    for word in bad together resting noted; do
        edit_to "$word" >"$copy/crates/low/must-fail-gate/$word.edit"
    done
    for word in elsewhere gone missed unread good2; do
        edit_to "$word" >"$copy/crates/low/must-fail-more/$word.edit"
    done
    edit_to bad >"$copy/crates/static/must-fail-gate/static_bad.edit"
    cp -r "$copy/crates/low/proofs" "$copy/crates/static"
}
edit_to() { printf 'refused by: put, value\nfile: src/lib.rt\nold: good\nnew: %s\n' "$1"; }

# Edits, and a substitute for rattle, which would change a file with the word ragged, and checks as that for rt does.
make_kit() {
    make_edits
    mkdir -p "$state/kit/bin"
    cat >"$state/kit/bin/rattle" <<'END'
#!/bin/sh
case $1 in
fmt) shift 2 && ! grep -l ragged "$@" ;;
check) echo "$*" >>"$RT_STATE/rattle" && exec rt check ;;
esac
END
    chmod +x "$state/kit/bin/rattle"
}
