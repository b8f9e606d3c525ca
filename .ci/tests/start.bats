# What ./clock2q and ./clock2q-simulate say and refuse before anything is built, and where they are installed.
load helper

# Installs the scripts: their programs are beside them.
install_scripts() {
    rm -rf "$copy/crates" "$copy/Makefile" "$copy/.bin"
    for program in clock2q_program simulator; do
        printf '#!/bin/sh\nprintf "%s:"\nprintf " <%%s>" "$@"\ncat\n' "$program" >"$copy/$program"
        chmod +x "$copy/$program"
    done
}

@test "help comes before a build" {
    path=${tools}_without_rt
    for word in -h --help; do
        start 0 clock2q "$word"
        [[ $output == *docs/COMMANDS.md* ]]
        start 0 clock2q-simulate "$word"
        [[ $output == *"A trace is"* && $output == *"A capacity is"* ]]
    done
    start 0 clock2q-simulate 2 --help
    start 2 clock2q-simulate
    [[ ! $output && $stderr == *Usage:* ]]
    [ ! -s "$state/calls" ]
}

# Prints a help text of the program as its source has it.
text_of() {
    sed -n "/^pub const $1: /,/^\";\$/p" "$top/crates/simulator_interface/src/help.rt" | sed '1d;$d; s/\\\\/\\/g; s/\\"/"/g'
}

@test "the help before a build is the program's" {
    path=${tools}_without_rt
    for pair in formats:FORMATS_HELP policies:POLICIES_HELP; do
        start 0 clock2q-simulate --help "${pair%:*}"
        [ "${output//.\/clock2q-simulate/clock2q-simulate}" = "$(text_of "${pair#*:}")" ]
    done
    start 0 clock2q-simulate --help
    while IFS= read -r line; do
        [[ $output == *"$line"* ]]
    done < <(text_of HELP | grep '^  --')
}

@test "the version comes before a build" {
    path=${tools}_without_rt
    for script in clock2q clock2q-simulate; do
        start 0 $script --version
        [ "$output" = "$script $(cat "$top/VERSION")" ]
    done
    [ ! -s "$state/calls" ]
}

@test "help and the version end with status 4 on a full device" {
    for script in clock2q clock2q-simulate; do
        for word in --help --version; do
            run -4 sh -c '"$@" >/dev/full' sh "$copy/$script" $word
        done
    done
}

@test "an installed script prints where the proof comes from" {
    path=${tools}_without_rt
    install_scripts
    printf '%s\n' 'clock2q 0.0.0, revision none' 'NOT CHECKED: the library' >"$copy/PROVENANCE"
    mkdir "$copy/bin" && ln -s ../clock2q "$copy/bin"
    for script in clock2q bin/clock2q; do
        start 0 $script --proof
        [ "$output" = "$(cat "$copy/PROVENANCE")" ]
        [ ! "$stderr" ]
    done
    run -4 sh -c '"$@" >/dev/full' sh "$copy/clock2q" --proof
}

@test "where there is no PROVENANCE a line says so" {
    path=${tools}_without_rt
    start 2 clock2q --proof
    [[ ! $output && $stderr == "$copy/PROVENANCE isn't there"* && $stderr == *bindings/provenance* && $stderr != *$'\n'* ]]
    [ ! -s "$state/calls" ]
    install_scripts
    start 2 clock2q --proof
    [[ ! $output && $stderr == "$copy/PROVENANCE isn't there"* && $stderr != *$'\n'* ]]
}

@test "an installed script runs the program beside it" {
    path=${tools}_without_rt
    install_scripts
    echo 'new 2' >"$state/input"
    input=$state/input
    start 0 clock2q
    [ "$output" = 'clock2q_program: <>new 2' ]
    start 0 clock2q-simulate 'a b' 2
    [[ $output == 'simulator: <a b> <2>new 2' ]]
}

@test "an installed script speaks of no build and no folder" {
    path=${tools}_without_rt
    install_scripts
    for script in clock2q clock2q-simulate; do
        start 0 $script --help
        [[ $output != *proves* && $output != *./clock2q* ]]
        start 0 $script --version
    done
    start 2 clock2q --try
}

# A trace may have a name that isn't UTF-8, from any folder. What else isn't is left to the program, which refuses it.
@test "a name may have any bytes" {
    LC_ALL=C
    path=${tools}_without_rt
    install_scripts
    cat >"$copy/simulator" <<'PROGRAM'
#!/bin/sh
printf '<%s>' "$@"
for word; do
    [ ! -f "$word" ] || cat "$word"
done
exit 3
PROGRAM
    name=$(printf 'caf\351 \n1.trace') umlaut=$(printf 'caf\303\251') option=$(printf '%s\351' --csv)
    mkdir "$state/here"
    cd "$state/here"
    echo of one >"$name"
    echo of two >"$umlaut"
    start 3 clock2q-simulate 2 "$name" "./$name" "$PWD/$name" "$umlaut" "$option"
    [[ $output == *'/1-caf???1.trace><'*'/2-caf???1.trace><'* ]]
    [[ $output == *"<$umlaut>"* && $output == *"<$option>"* ]]
    [ "$(grep -c 'of one' <<<"$output")" = 3 ]
    lacks_path "$state/tmp/*"
}

@test "clock2q takes no argument" {
    for words in commands.txt -x '--try more' '--help more' '--proof more' '-- x'; do
        # shellcheck disable=SC2086 # a word for each argument
        start 2 clock2q $words
        [ "$stderr" = 'Usage: ./clock2q [--try] < COMMANDS' ]
        [ ! "$output" ]
    done
    start 2 clock2q ''
    [ "$stderr" = 'Usage: ./clock2q [--try] < COMMANDS' ]
    [ ! -s "$state/calls" ]
}

@test "--try and make try prove nothing" {
    echo 'new 2' >"$state/input"
    input=$state/input
    start 0 clock2q --try
    [ "$output" = $'rt try in clock2q_program\nnew 2' ]
    unset input
    start_make 0 try
    [ "$output" = $'rt try in clock2q_program\nstored input' ]
    [ ! -s "$state/calls" ]
    lacks_path "$copy/crates/*/out"
}
