# Builds that don't come to an end: what is missing, isn't proved, can't be written or is killed.
load helper

@test "a script says that rt is missing" {
    path=${tools}_without_rt
    start 1 clock2q
    [[ $stderr == *"rt isn't there"* ]]
    start 1 clock2q --try
    [[ $stderr == *"rt isn't there"* ]]
}

@test "a script says that make is missing" {
    mkdir "$state/few"
    cp -a "$tools"/{rt,readlink,sh} "$state/few"
    path=$state/few start 1 clock2q
    [[ $stderr == *"apt-get install make"* ]]
}

@test "what rt said of a crate that isn't proved is shown" {
    start 0 clock2q
    echo changed >"$copy/crates/clock2q_text/src/lib.rt"
    touch "$state/fail_clock2q_text"
    start 1 clock2q
    [[ $stderr == *"what rt said of clock2q_text"* && $stderr != *"what rt said of clock2q_cache"* ]]
    [ ! "$output" ] # the program of before isn't run
    start 1 clock2q
    [[ $stderr == *"what rt said of clock2q_text"* ]]
    rm "$state/fail_clock2q_text"
    touch "$state/fail_clock2q_program"
    start 1 clock2q
    [[ $stderr == *"what rt said of clock2q_program"* ]]
    rm "$state/fail_clock2q_program"
    builds 1
}

@test "make fails if a crate isn't proved" {
    touch "$state/fail_clock2q_command"
    start_make 2
}

@test "a folder that can't be written to is named" {
    mkdir "$copy/crates/clock2q_program/out"
    chmod 555 "$copy/crates/clock2q_program/out"
    if [ "$(id -u)" = 0 ]; then
        # root may write to it, and so another user starts the script, with a Python that isn't root's
        chmod a+x "$BATS_RUN_TMPDIR"
        chmod a+w "$copy"/crates/* "$state/calls"
        mkdir "$state/others"
        ln -s /usr/bin/python3 "$state/others"
        path=$state/others:$tools run -1 --separate-stderr alone \
            "$(command -v setpriv)" --reuid=65534 --regid=65534 --clear-groups ./clock2q
    else
        start 1 clock2q
    fi
    chmod 755 "$copy/crates/clock2q_program/out"
    [[ $stderr == *"crates/clock2q_program/out"*": Permission denied"* ]]
}

@test "an rt that is killed is started once more with one job" {
    echo once >"$state/kills_clock2q_text"
    start 0 clock2q
    [[ $stderr == *'rt was killed, proving clock2q_text, most likely for memory: once more with one job'* ]]
    [[ $output == *'text of clock2q_text'* ]]
    printf 'once\nagain\n' >"$state/kills_clock2q_text"
    echo changed >"$copy/crates/clock2q_text/src/lib.rt"
    start 1 clock2q
    [ ! -s "$state/kills_clock2q_text" ] # no third time
}

# Where no file may have a byte, as on a full disk.
@test "a full disk is named with the file" {
    run -1 bash -c 'ulimit -f 0 && exec "$@"' bash env -i PATH="$tools" RT_STATE="$state" TMPDIR="$state/tmp" "$copy/clock2q" </dev/null
    grep -q '^crates/.*: File too large$' <<<"$output"
}
