setup_suite() {
    export top tools=$BATS_SUITE_TMPDIR/tools scripts=$BATS_SUITE_TMPDIR/scripts python
    top=$(readlink -f "$BATS_TEST_DIRNAME/../..")
    python=$(python3 -c 'import sys; print(sys.executable)')
    make_tools
    make_scripts
}

# The commands that the scripts may use, in one folder, with a substitute for rt. Another folder has the rest alone.
make_tools() {
    mkdir "$tools"
    for tool in awk cat cksum cmp env find iconv ln make mktemp readlink rm sed sh sort test tr; do
        ln -s "$(command -v "$tool")" "$tools/$tool"
    done
    ln -s "$python" "$tools/python3"
    cp -a "$tools" "${tools}_without_rt"
    sed "1a PATH='$PATH'" "$BATS_TEST_DIRNAME/rt" >"$tools/rt"
    chmod +x "$tools/rt"
}

# The scripts, and crates that hold a line each.
make_scripts() {
    mkdir -p "$scripts/.bin"
    cp "$top/clock2q" "$top/clock2q-simulate" "$top/crates.txt" "$top/Makefile" "$top/VERSION" "$scripts"
    cp "$top"/.bin/* "$scripts/.bin"
    for crate in $(sed 's/#.*//; s/[ :].*//; /^$/d' "$top/crates.txt"); do
        mkdir -p "$scripts/crates/$crate/src"
        echo "text of $crate" >"$scripts/crates/$crate/src/lib.rt"
    done
    echo 'stored input' >"$scripts/crates/clock2q_program/stdin"
    echo 'stored input' >"$scripts/crates/simulator/stdin"
    printf '%s\n' --csv 2 >"$scripts/crates/simulator/args"
}
