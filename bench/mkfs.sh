#!/usr/bin/env bash
# Times `lufs mkfs` of the largest volume against `dd` of the same bytes, synced at the end, and against
# `mke2fs -t ext4` of a file of the same size where that is installed. README.md, beside this, says what
# is measured. It wants bash 5 and the built program.
. "$(dirname "${BASH_SOURCE[0]}")/common.sh"

rounds=${ROUNDS:-7}
PATH=$PATH:/usr/sbin:/sbin

groups=64 bpg=2048 ipg=1024 log=65536
blocks=$((3 + log / 8 + groups * bpg))
# What mkfs writes: the superblock's sector twice, the log, and each group's block and inode blocks, and
# the root's block.
written=$((2 * 512 + 512 * log + 4096 * (groups * (1 + ipg / 32) + 1)))

# keep NAME: the shortest time of this command so far, of `took` and those before it.
declare -A best
keep() {
    if [ -z "${best[$1]:-}" ] || [ "$took" -lt "${best[$1]}" ]; then best[$1]=$took; fi
}

truncate -s $((4096 * blocks)) "$folder/volume" "$folder/ext4"
printf '%s\n' "$("$lufs" mkfs "$folder/volume" $groups $bpg $ipg $log)"
for ((round = 0; round < rounds; round++)); do
    timed "$lufs" mkfs "$folder/volume" $groups $bpg $ipg $log
    keep mkfs
    timed dd if=/dev/zero of="$folder/zeros" bs=$written count=1 conv=notrunc,fsync
    keep dd
    if command -v mke2fs >/dev/null; then
        timed mke2fs -q -F -t ext4 "$folder/ext4"
        keep mke2fs
    fi
done

echo "best of $rounds, in milliseconds; mkfs and dd write $written bytes, of a volume of $((4096 * blocks))"
for name in mkfs dd mke2fs; do
    took=${best[$name]:-}
    if [ -z "$took" ]; then
        echo "$name isn't installed"
        continue
    fi
    ratio=$((100 * ${best[mkfs]} / took))
    printf '%-7s %6d.%d   mkfs takes %d.%02d times as long\n' "$name" $((took / 1000)) $((took / 100 % 10)) $((ratio / 100)) $((ratio % 100))
done
