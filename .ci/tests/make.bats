# What the targets of make do, and what make vendor copies.
load helper

@test "each target of make runs its script" {
    for script in .ci/run .ci/edits .ci/clauses .ci/figures bindings/test bindings/dist bindings/c/install.sh; do
        print_instead $script
    done
    while IFS='|' read -r words said; do
        # shellcheck disable=SC2086 # a word for each argument
        start_make 0 $words
        [[ $output == *"$said"* ]]
    done <<'TARGETS'
check|logic=proved
test|.ci/run
edits|.ci/edits
edits CRATES=low|.ci/edits <low>
bindings|bindings/test
pages|.ci/clauses
pages|.ci/figures
install|bindings/c/install.sh </usr/local>
dist|bindings/dist <dist>
TARGETS
    start_make 0 install PREFIX="to 'a b'/\"c"
    [[ $output == *"<to 'a b'/\"c>"* ]]
}

@test "make help names each target" {
    start_make 0 help
    for target in try check test edits bindings install dist vendor bench pages clean help; do
        grep -q "^make $target " <<<"$output"
    done
}

@test "make clean removes what was built" {
    start 0 clock2q
    start_make 0 clean
    lacks_path "$copy/crates/*/out"
}

# The lines that docs/CALLING.md gives for crates.txt.
of_page() { sed -n 's/^    \(clock2q[a-z_]*:\)/\1/p' "$top/docs/CALLING.md"; }

@test "make vendor copies the library and what is proved of it" {
    start 0 clock2q
    mkdir -p "$copy"/crates/clock2q_cache/{must-fail-gate,must-fail-more,out/incremental} "$state/mine/crates/clock2q_cache"
    touch "$state/mine/crates/clock2q_cache/older"
    printf '%s\n' '# mine' 'my_crate: clock2q' 'clock2q_cache: other' >"$state/mine/crates.txt"
    printf 'build/' >"$state/mine/.gitignore"
    for _ in 1 2; do
        start_make 0 vendor INTO="$state/mine"
    done
    [[ $output == *"clock2q_memo isn't proved here"* ]]
    [ "$(ls "$state/mine/crates")" = "$(of_page | sed 's/:.*//' | sort)" ]
    [ "$(sed 1,2d "$state/mine/crates.txt" | sort)" = "$(of_page | sort)" ]
    [ "$(sed 2q "$state/mine/crates.txt")" = $'# mine\nmy_crate: clock2q' ]
    [ "$(cat "$state/mine/.gitignore")" = $'build/\nout/' ]
    [ -e "$state/mine/crates/clock2q_cache/out/rlib/stamp" ]
    for left in older must-fail-gate must-fail-more out/incremental; do
        [ ! -e "$state/mine/crates/clock2q_cache/$left" ]
    done
}

@test "make vendor copies nothing over a link" {
    mkdir -p "$state/over_a_link/crates"
    ln -s "$state" "$state/over_a_link/crates/clock2q_queues"
    start_make 2 vendor INTO="$state/over_a_link"
    [[ $stderr == *'over_a_link/crates/clock2q_queues is no folder of its own'* ]]
    [ "$(find "$state/over_a_link" | wc -l)" = 3 ]
}

@test "make vendor refuses what is no other repository" {
    mkdir "$state/other"
    echo 'my_crate:' >"$state/other/crates.txt"
    for into in '' nowhere . "$state/other"; do
        start_make 2 vendor INTO="$into"
        [ "${#stderr_lines[@]}" = 2 ] # one is make's
    done
    [ -e "$copy/crates/clock2q_cache/src/lib.rt" ]
}
