#!/bin/sh
# build_paths.sh: the paths that gcc asks for while it compiles twelve small C files, each with some of
# the standard headers: those that it opens and those that it only looks for. Needs strace and gcc.
set -eu
work=$(mktemp -d)
trap 'rm -rf "$work"' EXIT
trap 'exit 1' HUP INT TERM
cd "$work"
set -- stdio stdlib string math errno time ctype signal unistd locale pthread sys/stat
for first; do
    name=$(printf '%s' "$first" | tr / _)
    for header in stdio stdlib "$first" string; do
        printf '#include <%s.h>\n' "$header"
    done >"$name.c"
    printf 'int main(void) { return puts("%s") < 0; }\n' "$name" >>"$name.c"
done
for source in *.c; do
    strace -f -s 4096 -e trace=openat,open,stat,newfstatat,access -o calls \
        gcc -O1 -o "${source%.c}" "$source"
    # A line is: PID CALL(.., "PATH", ..) = ..; fstat has an empty path.
    sed -n 's/^[0-9]* *[a-z]*([^"]*"\([^"][^"]*\)".*/\1/p' calls
done
