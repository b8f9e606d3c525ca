# .ci/run and what it runs before the proofs.
load helper

PARTS='names versions budget formats written scripts'

# The gate's parts print their names alone, and three edits are refused.
make_parts() {
    make_edits
    for part in $PARTS; do
        print_instead .ci/$part
    done
    edits_end '3 refused as they say, 0 wrong' 0
}
edits_end() {
    printf '#!/bin/sh\necho "%s"\nexit %s\n' "$1" "$2" >"$copy/.ci/edits"
}

@test "the gate ends with the counts of rt and of the edits" {
    make_parts
    start_ci 0 run
    [ "${lines[-1]}" = '10 passed, 0 failed' ]
    edits_end '2 refused as they say, 1 wrong' 1
    start_ci 1 run
    [ "${lines[-1]}" = '9 passed, 1 failed' ]
    edits_end 'edits: broken' 2
    start_ci 1 run
    [ "${lines[-1]}" = 'the gate ends here: .ci/edits failed' ]
    touch "$state/fail_ci"
    start_ci 1 run
    [ "${lines[-1]}" = '6 passed, 1 failed' ]
}

@test "the gate ends where a part fails" {
    make_parts
    for part in $PARTS; do
        printf '#!/bin/sh\nexit 3\n' >"$copy/.ci/$part"
        start_ci 1 run
        [[ $output == *".ci/$part failed"* ]]
        printf '#!/bin/sh\n' >"$copy/.ci/$part"
    done
}

@test "the gate has a lane for each 4.5 GB if rt would choose fewer" {
    make_parts
    for pair in 1:4 2:9 "$(nproc):$((5 * $(nproc)))" "0:1000"; do
        printf '#!/bin/sh\necho %s000000000\n' "${pair#*:}" >"$copy/.bin/memory"
        start_ci 0 run
        if [ "${pair%:*}" -ge 2 ] && [ "${pair%:*}" -le "$(nproc)" ]; then lanes=${pair%:*}; else lanes='as rt chooses'; fi
        [[ $output == *"lanes: $lanes
"* ]]
    done
}

@test "the gate proves the chain of the cache first, beside what needs no cache, if there is room" {
    make_parts
    [ "$(nproc)" -ge 4 ] || skip
    printf '#!/bin/sh\necho 20000000000\n' >"$copy/.bin/memory"
    start_ci 0 run
    [[ $output == *"lanes: as rt chooses, of clock2q_cache
"*"lanes: $(($(nproc) / 2)), of static low
"* ]]
    [ "${lines[-1]}" = '10 passed, 0 failed' ]
    printf '#!/bin/sh\necho 9000000000\n' >"$copy/.bin/memory"
    start_ci 0 run
    [[ $output != *clock2q_cache* ]]
}

@test "the gate goes to its own folder if CDPATH is exported" {
    make_parts
    mkdir -p "$state/else/.ci"
    cdpath=$state/else start_ci 0 run
    [[ $output == *'10 passed'* ]]
}

@test "formats names files of more than 350 lines, and links" {
    make_kit
    start_ci 0 formats
    seq 350 >"$copy/crates/low/src/long.rt"
    start_ci 0 formats
    echo more >>"$copy/crates/low/src/long.rt"
    start_ci 1 formats
    [[ $output == *'crates/low/src/long.rt has 351 lines'* ]]
    mkdir -p "$copy/crates/low/out"
    mv "$copy/crates/low/src/long.rt" "$copy/crates/low/out"
    start_ci 0 formats
    ln -s lib.rt "$copy/crates/low/src/linked.txt"
    start_ci 1 formats
}

@test "formats fails if rt fmt would change a file" {
    make_kit
    echo ragged >"$copy/crates/low/src/other.rt"
    start_ci 1 formats
}

@test "formats names public items without a comment" {
    make_kit
    printf '/// Of a type.\n#[derive(Copy)]\npub struct Known {\n}\n\npub(crate) fn inner() {\n}\n' >"$copy/crates/low/src/items.rt"
    start_ci 0 formats
    printf '\n#[inline]\npub fn unknown() {\n}\n' >>"$copy/crates/low/src/items.rt"
    start_ci 1 formats
    [ "$output" = 'crates/low/src/items.rt: unknown is public and has no comment' ]
}

@test "formats names functions of the library with over 40 lines or two loops" {
    make_kit
    function_of 40 1 >"$copy/crates/clock2q_count/src/sizes.rt"
    start_ci 0 formats
    function_of 41 1 >"$copy/crates/clock2q_count/src/sizes.rt"
    start_ci 1 formats
    [ "$output" = 'crates/clock2q_count/src/sizes.rt: sized has 41 lines, and not 40 at most' ]
    function_of 40 2 >"$copy/crates/clock2q_count/src/sizes.rt"
    start_ci 1 formats
    [ "$output" = 'crates/clock2q_count/src/sizes.rt: sized has more than one loop' ]
    mv "$copy/crates/clock2q_count/src/sizes.rt" "$copy/crates/low/src"
    start_ci 0 formats
}
function_of() {
    printf 'fn sized()\n    ensures {\n        true\n    }\n{\n'
    printf '    for it in list {}\n%.0s' $(seq "$2")
    printf '    step();\n%.0s' $(seq $(($1 - $2)))
    echo '}'
}

@test "formats names a subject of over 72 characters" {
    make_kit
    git init -q "$copy"
    for length in 72 73; do
        git -C "$copy" -c user.name=me -c user.email=me@localhost commit -q --allow-empty -m "$(printf '%*s' $length x | tr ' ' é)"
        start_ci $((length - 72)) formats
    done
}


# What is written in more than one place, and a number or a licence that differs in one of them.
@test "versions names each file with another version or none" {
    mkdir "$copy/.ci"
    cp "$top/.ci/versions" "$copy/.ci"
    files=$("$top/.ci/versions" --list)
    for file in $files; do
        mkdir -p "$(dirname "$file")"
        cp "$top/$file" "$file"
    done
    start_ci 0 versions
    for file in $files; do
        cp "$file" "$state/kept"
        sed -i 's/[0-9]/9/g' "$file"
        start_ci 1 versions
        [[ $output == *"$file"* ]]
        : >"$file"
        start_ci 1 versions
        cp "$state/kept" "$file"
    done
    start_ci 0 versions
}
