# What ./clock2q and make build, and when.
load helper

@test "a build is made once, and run" {
    printf 'new 2\n' >"$state/input"
    input=$state/input
    start 0 clock2q-simulate 'a b' "c'd" ''
    [[ $output == "arguments: <a b> <c'd> <>"*'new 2'* ]]
    [[ $output != *'stored input'* ]] # the stored run isn't shown
    [[ $stderr == *minutes* && $stderr != *'what rt said'* ]]
    lacks_path "$state/tmp/*"
    start 0 clock2q
    calls 'begin clock2q_cache' 1 # for both programs
    builds 0
    [ ! "$stderr" ]
}

@test "make builds both programs, and nothing anew" {
    start 0 clock2q
    start 0 clock2q-simulate 2
    : >"$state/calls"
    start_make 0
    [[ ! $output && ! $stderr ]]
    [ ! -s "$state/calls" ]
    flags=Bki # flags of a make around it don't count
    builds 0
    unset flags
    echo again >"$copy/crates/clock2q_cache/src/lib.rt"
    start_make 0
    calls 'begin run' 2
}

@test "a later start takes a tenth of a second" {
    cp -r "$top"/crates/clock2q_{cache,directory,handles,queues}/{src,proofs} "$copy/crates/clock2q_cache"
    start 0 clock2q
    TIMEFORMAT='%U %S'
    for _ in {1..10}; do
        { time alone "$copy/clock2q" >/dev/null 2>&1; } 2>&1
    done | awk '{ took = $1 + $2 } NR == 1 || took < least { least = took } END { print least; exit least > 0.1 }'
}

@test "a source that is saved while the program is built is in the next one" {
    touch "$state/hold_linked"
    alone "$copy/clock2q" >/dev/null 2>&1 &
    until_true ended clock2q_program
    echo "saved meanwhile" >"$copy/crates/clock2q_cache/src/lib.rt"
    rm "$state/hold_linked"
    wait
    builds 1
    [[ $output == *"saved meanwhile"* ]]
    builds 0
}

@test "a source that is saved while its crate is proved is in the next program" {
    touch "$state/hold_clock2q_machine"
    alone "$copy/clock2q" >/dev/null 2>&1 &
    until_true began clock2q_machine
    echo "saved meanwhile" >"$copy/crates/clock2q_machine/src/lib.rt"
    rm "$state/hold_clock2q_machine"
    wait
    builds 1
    [[ $output == *"saved meanwhile"* ]]
}

@test "a new source is built in, and a deleted one isn't" {
    start 0 clock2q
    echo another >"$copy/crates/clock2q_count/src/another.rt"
    builds 1
    [[ $output == *another* ]]
    rm "$copy/crates/clock2q_count/src/another.rt"
    builds 1
    [[ $output != *another* ]]
}

@test "an older source of the same size is built in, and one that didn't change isn't" {
    start 0 clock2q
    echo "TEXT of clock2q_count" >"$state/older"
    touch -d 2001-01-01 "$state/older"
    mv "$state/older" "$copy/crates/clock2q_count/src/lib.rt"
    builds 1
    [[ $output == *"TEXT of clock2q_count"* ]]
    touch "$copy/crates/clock2q_count/src/lib.rt"
    builds 0
}

@test "a program that was removed is built again" {
    start 0 clock2q
    rm "$copy"/crates/clock2q_program/out/{clock2q_program,stamp}
    builds 1
}

@test "the lines of crates.txt count that are below the program" {
    start 0 clock2q
    printf '# a remark\n' >>"$copy/crates.txt"
    sed -i 's/^clock2q_bench:.*/clock2q_bench: clock2q_cache/' "$copy/crates.txt"
    builds 0
    sed -i 's/^clock2q_command: /&clock2q_bench /' "$copy/crates.txt"
    builds 1
    calls 'begin clock2q_bench' 1
    sed -i '/^clock2q_program:/d' "$copy/crates.txt"
    start 1 clock2q
    [[ $stderr == *"crates.txt has no line for clock2q_program"* ]]
}

@test "a folder's name may have spaces, quotes and a newline" {
    copy="$BATS_TEST_TMPDIR/a b'c\"d
e \$f
"
    cp -r "$scripts" "$copy"
    start 0 clock2q
    builds 0
    echo changed >"$copy/crates/clock2q_handles/src/lib.rt"
    builds 1
    ln -s "$copy/clock2q" "$state/linked"
    run -0 alone "$state/linked"
    [[ $output == *changed* ]]
    start_make 0 all
    mkdir "$state/in to"
    start_make 0 vendor INTO="$state/in to"
}

# CDPATH sends a cd to another folder unless its path begins with a slash or a dot.
@test "an exported CDPATH changes nothing" {
    cdpath=$state/else
    mkdir -p "$cdpath"/{.bin,.ci,crates/clock2q_program/src}
    start 0 .bin/sources clock2q_program
    [[ $output == *clock2q_program/src/lib.rt* ]]
    builds 1
    # no script finds its folder by a path that isn't absolute
    run -1 grep -l -d skip 'cd "$(dirname' "$top"/.bin/* "$top"/.ci/*
}
