#!/bin/sh
# Runs the examples of README.md in a new folder: makes a volume, runs a script of file system calls on it, shows the
# replies and the history, checks and lists it, and looks at three volumes that a crash may leave. It takes the built
# program where there is one. Else rt try compiles one, with no proof, and what the toolchain says goes to a file. What
# is printed is commands with their output, and lines that begin with #.
set -eu

examples=$(cd "$(dirname "$0")" && pwd)
crate=$(cd "$examples/../crates/lufs" && pwd)
folder=$(mktemp -d)
trap 'rm -rf "$folder"; exit 1' INT TERM
cd "$folder"

# What is run, a line each: lufs with these words, or a look at a file.
runs='mkfs volume 1 64 32 256
drive volume turns tree
cat tree.out
head -3 volume.history
check volume
scan volume
scan committed
check committed
scan cut
check cut
check unlogged'

# One word a line, each file with its folder: rt try runs the program in another one.
words() {
    # shellcheck disable=SC2086
    printf '%s\n' $1 | sed -E "2,\$s|^([a-z].*)|$folder/\\1|"
}

"$examples/crashed.sh"
cp "$examples/tree.script" tree
# Each 0 is a turn of the script: four for a line that may change the tree, two for another one.
printf 000000000000000000000000000000 >turns
if [ -x "$crate/out/lufs" ]; then
    echo "# the built program: $crate/out/lufs"
    printf '%s\n' "$runs" | while read -r run; do
        case $run in
        cat* | head*)
            printf '\n$ %s\n' "$run"
            $run
            ;;
        *)
            printf '\n$ lufs %s\n' "$run"
            # shellcheck disable=SC2086
            "$crate/out/lufs" $run || echo "# status $?"
            ;;
        esac
    done
else
    echo "# No program is built yet, so rt try compiles one without proof. That takes half a minute or more."
    mkdir cases
    number=10
    printf '%s\n' "$runs" | while read -r run; do
        number=$((number + 1))
        case $run in
        cat* | head*) ;;
        *)
            : >"cases/$number"
            words "$run" >"cases/$number.args"
            ;;
        esac
    done
    if ! (cd "$crate" && rt try --cases "$folder/cases") >output 2>toolchain; then
        echo "# rt try failed; what it said is in $folder/toolchain" >&2
        exit 1
    fi
    number=10
    printf '%s\n' "$runs" | while read -r run; do
        number=$((number + 1))
        case $run in
        cat* | head*)
            printf '\n$ %s\n' "$run"
            $run
            ;;
        *)
            printf '\n$ lufs %s\n' "$run"
            awk -v name="== $number" '/^== / { on = $0 == name; next } on' output
            sed -n "s/^case=$number .*status=\([1-9][0-9]*\) .*/# status \1/p" toolchain
            ;;
        esac
    done
fi
rm -rf "$folder"
