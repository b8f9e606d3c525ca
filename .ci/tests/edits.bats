# .ci/edit, .ci/edits and .ci/budget.
load helper

setup() {
    setup_copy
    make_edits
}

@test "one edit is refused at its clause, or it is said why not" {
    for pair in bad/0 together/0 resting/0 noted/0 missed/1 elsewhere/1 gone/1 unread/1 good2/1; do
        start_ci "${pair#*/}" edit low "${pair%/*}"
    done
    [[ $output == *"it is proved"* ]]
    start_ci 0 edit low bad.edit
    start_ci 0 edit static static_bad # whose crate has a line 'NAME staticlib:'
    lacks_path "$state/tmp/*"
    grep -qx good "$copy/crates/low/src/lib.rt"
}

@test "one edit that isn't there or doesn't fit ends with status 2" {
    for words in '' 'low nothing' 'nothing bad' 'nothing' 'low bad more'; do
        # shellcheck disable=SC2086 # a word for each argument
        start_ci 2 edit $words
        [[ $stderr == *edit:* ]]
    done
    edit_to x | sed 's/^old: good/old: other/' >"$copy/crates/low/must-fail-gate/unfit.edit"
    start_ci 2 edit low unfit
    lacks_path "$state/tmp/*"
}

@test "all edits outside the gate are tried, and each that isn't refused is named" {
    start_ci 1 edits
    for name in elsewhere gone missed unread good2; do
        [[ $output == *"low/must-fail-more/$name:"* ]]
    done
    [[ $output != *low/must-fail-gate/* ]] # those of the gate
    [[ ${lines[-1]} == "0 refused as they say, 5 wrong" ]]
    lacks_path "$state/tmp/*"
}

@test "the edits of one crate are tried" {
    start_ci 0 edits --all --jobs 2 static
    [[ ${lines[-1]} == "1 refused as they say, 0 wrong" ]]
    echo bad >"$copy/crates/static/src/lib.rt" # it isn't proved without an edit
    start_ci 1 edits --all static
    lacks_path "$state/tmp/*"
}

@test "the edits of the gate share a check of what they name, over what was built" {
    make_kit
    rm "$copy"/crates/low/must-fail-gate/{together,resting,noted}.edit
    start_ci 0 edits --gate
    [[ ${lines[-1]} == "2 refused as they say, 0 wrong" ]]
    grep -q -- "--extern=low=$copy/crates/low/out/rlib/low.rlib .* --only=put" "$state/rattle"
    calls check 2
    edit_to missed >"$copy/crates/low/must-fail-gate/bad.edit"
    start_ci 1 edits --gate
    [[ $output == *'low/must-fail-gate/bad:'* && ${lines[-1]} == "1 refused as they say, 1 wrong" ]]
    lacks_path "$state/tmp/*"
}

@test "edits refuses wrong arguments" {
    for words in '--all --gate' '--jobs' '--jobs 0' '--jobs x' 'nothing' '--nothing'; do
        # shellcheck disable=SC2086 # a word for each argument
        start_ci 2 edits $words
    done
}

@test "edit and edits say that rt is missing" {
    path=${tools}_without_rt
    for words in edits 'edit low bad'; do
        # shellcheck disable=SC2086 # a word for each argument
        start 2 .ci/$words
        [ "${stderr#*:}" = " rt isn't there, the command of the Rattle kit: README.md, Install" ]
    done
}

@test "an interrupt ends edits" {
    for number in $(seq 30); do
        edit_to "$number" >"$copy/crates/low/must-fail-more/e$number.edit"
    done
    touch "$state/hold_check"
    # cp shares the files of a copy
    ln -s "$(command -v cp)" "$state/cp"
    path=$state:$tools start_in_group "$copy/.ci/edits" --jobs 2 low
    until_true calls check 3 # the crate's own, and two of edits
    kill -INT -- "-$group"
    until_true is_gone "$group"
    rm "$state/hold_check"
    status=0
    wait "$group" || status=$?
    [ "$status" = 130 ]
    [ ! -s "$state/err" ]
    lacks_path "$state/tmp/*"
}

# A crate with three functions, of which the last calls the first, and an edit of each and one more.
make_functions() {
    echo 'many:' >>"$copy/crates.txt"
    mkdir -p "$copy"/crates/many/{src,must-fail-more,proofs/{a,b,c}}
    printf 'fn %s() {\n    %s\n}\n' a 'good a' b 'good b' c 'a(good c)' >"$copy/crates/many/src/lib.rt"
    for name in a b c; do
        echo 'returns-clause-value g c = here' >"$copy/crates/many/proofs/$name/Answers.antt"
        edit_of "$name" bad >"$copy/crates/many/must-fail-more/$name.edit"
    done
    edit_of a 'very bad' >"$copy/crates/many/must-fail-more/d.edit"
}
edit_of() { printf 'refused by: %s, value\nfile: src/lib.rt\nold: good %s\nnew: %s\n' "$1" "$1" "$2"; }

# Tries the edits of that crate. Fails unless it ends with the status after as many checks.
checks() {
    : >"$state/calls"
    start_ci "$1" edits many
    calls check "$2"
}

@test "edits of functions that don't call each other share a check" {
    make_functions
    checks 0 4 # a and b share one
    [[ $output == *'many: 4 refused as they say, 0 wrong'* ]]
    edit_of a 'bad, good b' >"$copy/crates/many/must-fail-more/a.edit"
    checks 0 4 # b shares one with c
    [[ $output == *'4 refused as they say, 0 wrong'* ]]
}

@test "edits that aren't refused together are tried alone" {
    make_functions
    edit_of b fine >"$copy/crates/many/must-fail-more/b.edit"
    checks 1 5
    [[ $output == *"many/must-fail-more/b: it is proved"*'3 refused as they say, 1 wrong'* ]]
    edit_of b unread >"$copy/crates/many/must-fail-more/b.edit"
    checks 1 6 # nothing can be said of a either
    [[ $output == *'3 refused as they say, 1 wrong'* ]]
    lacks_path "$state/tmp/*"
}

@test "an edit of two functions is tried alone, and one that doesn't fit isn't" {
    make_functions
    { edit_of b bad && printf 'old: good c\nnew: fine c\n'; } >"$copy/crates/many/must-fail-more/b.edit"
    checks 0 5
    [[ $output == *'4 refused as they say, 0 wrong'* ]]
    edit_of b bad | sed 's/^old: good/old: other/' >"$copy/crates/many/must-fail-more/b.edit"
    checks 1 4
    [[ $output == *'3 refused as they say, 1 wrong'* ]]
}

@test "the gate has at most 24 edits" {
    start_ci 0 budget
    for number in $(seq 19); do
        edit_to "$number" >"$copy/crates/low/must-fail-gate/e$number.edit"
    done
    start_ci 0 budget
    edit_to one >"$copy/crates/low/must-fail-gate/e_one.edit"
    start_ci 1 budget
}

@test "an edit fits its file once, and says what refuses it" {
    edit_to x | sed 's/^old: good/old: o/' >"$copy/crates/low/must-fail-gate/twice.edit"
    start_ci 1 budget
    [[ $output == *low/must-fail-gate/twice* ]]
    edit_to x | sed 1d >"$copy/crates/low/must-fail-gate/twice.edit"
    start_ci 1 budget
}
