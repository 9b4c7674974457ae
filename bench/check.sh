#!/usr/bin/env bash
# Times `lufs check` of large volumes against `e2fsck -fn` of ext4 images of the same size and files, where that is
# installed, and against `dd` of the same metadata blocks: from the system's cache, and from the disk. README.md,
# beside this, says what is measured. It wants bash 5, python3 and the built program; /usr/bin/time where it is there.
. "$(dirname "${BASH_SOURCE[0]}")/common.sh"

rounds=${ROUNDS:-15}
here=$(cd "$(dirname "${BASH_SOURCE[0]}")" && pwd)
PATH=$PATH:/usr/sbin:/sbin

# forget FILE: drops what the system's cache has of the file, all of which is on the disk then.
forget() {
    sync "$1"
    dd if="$1" iflag=nocache count=0 status=none
}

# median TIME..: the one in the middle.
median() {
    printf '%s\n' "$@" | sort -n | sed -n "$((($# + 1) / 2))p"
}

# peak COMMAND..: the most memory that a run of it has, in KiB.
peak() {
    if [ -x /usr/bin/time ]; then
        /usr/bin/time -f %M "$@" 2>&1 >/dev/null | tail -1
    else
        echo -
    fi
}

# in_ms TIME: microseconds as milliseconds.
in_ms() {
    echo "$(($1 / 1000)).$(($1 / 100 % 10))"
}

load() {
    cut -d' ' -f1 /proc/loadavg
}

# A case is a name, the file that it reads, and its command, of words without spaces.
names=() files=() commands=()
add() {
    names+=("$1") files+=("$2")
    shift 2
    commands+=("$*")
}

# compare: times the cases that were added, and prints a line for each: the medians of the rounds from the cache, which
# each case is in after a run that isn't timed, and of those from the disk after them, and the peak memory.
compare() {
    local round k before times
    before=$(load)
    for k in "${!names[@]}"; do
        times[k]=
        times[k + 100]=
        ${commands[k]} >/dev/null 2>&1
    done
    for ((round = 0; round < rounds; round++)); do
        for k in "${!names[@]}"; do
            timed ${commands[k]}
            times[k]+=" $took"
        done
    done
    for ((round = 0; round < rounds; round++)); do
        for k in "${!names[@]}"; do
            forget "${files[k]}"
            timed ${commands[k]}
            times[k + 100]+=" $took"
        done
    done
    for k in "${!names[@]}"; do
        printf '%-38s %9s ms %9s ms %9s KiB\n' "${names[k]}" "$(in_ms "$(median ${times[k]})")" \
            "$(in_ms "$(median ${times[k + 100]})")" "$(peak ${commands[k]})"
    done
    echo "at a load of $before to $(load)"
    names=() files=() commands=()
}

# ext4 FILE FOLDER: an ext4 image of the size of the largest volume, with the files of this folder if there is one.
ext4() {
    truncate -s 570M "$1"
    mke2fs -q -F -t ext4 -b 4096 -N 65536 -E lazy_itable_init=0 ${2:+-d "$2"} "$1"
}

has_ext4=
if command -v mke2fs >/dev/null && command -v e2fsck >/dev/null; then has_ext4=yes; fi

printf '%-38s %12s %12s %13s\n' "" "from cache" "from disk" "peak memory"

"$lufs" mkfs "$folder/empty" 64 2048 1024 65536 >/dev/null
"$lufs" mkfs "$folder/short" 64 2048 1024 256 >/dev/null
python3 "$here/make_volume.py" empty "$folder/volume" 0 "$folder/read"
"$lufs" check "$folder/empty"
"$lufs" check "$folder/short"
add "largest volume, empty: lufs" "$folder/empty" "$lufs" check "$folder/empty"
add "the same with a log of 256: lufs" "$folder/short" "$lufs" check "$folder/short"
if [ "$has_ext4" ]; then
    ext4 "$folder/ext4" ""
    add "the same size: e2fsck" "$folder/ext4" e2fsck -fn "$folder/ext4"
fi
add "its metadata blocks, $(($(stat -c %s "$folder/read") / 4096)): dd" "$folder/read" dd if="$folder/read" of=/dev/null bs=4096
compare
rm -f "$folder"/*

python3 "$here/make_volume.py" files "$folder/files" 60000 "$folder/read"
"$lufs" check "$folder/files"
add "60,000 files: lufs" "$folder/files" "$lufs" check "$folder/files"
if [ "$has_ext4" ]; then
    mkdir "$folder/tree"
    python3 - "$folder/tree" <<'PYTHON'
import os, sys

for k in range(60000):
    directory = f"{sys.argv[1]}/directory-{k - k % 100:010}"
    if k % 100 == 0:
        os.mkdir(directory)
    with open(f"{directory}/file-{k:015}", "wb") as file:
        file.write(b"x" * 4096 * (13 if k % 20 == 0 else 0 if k % 20 == 1 else 1))
PYTHON
    ext4 "$folder/ext4" "$folder/tree"
    rm -rf "$folder/tree"
    add "the same files: e2fsck" "$folder/ext4" e2fsck -fn "$folder/ext4"
fi
add "its metadata blocks, $(($(stat -c %s "$folder/read") / 4096)): dd" "$folder/read" dd if="$folder/read" of=/dev/null bs=4096
compare
rm -f "$folder"/*

for kind in names chain; do
    for count in 20000 40000 80000; do
        if [ $kind = chain ]; then count=$((count * 3 / 4)); fi
        python3 "$here/make_volume.py" $kind "$folder/$kind-$count" $count
        "$lufs" check "$folder/$kind-$count"
        add "$kind, $count: lufs" "$folder/$kind-$count" "$lufs" check "$folder/$kind-$count"
    done
    compare
    rm -f "$folder"/*
done
