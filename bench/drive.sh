#!/usr/bin/env bash
# Times `lufs drive` of scripts of 1,000, 4,000 and 10,000 lines over a new volume, against `debugfs -w -f` with the
# same operations on an ext4 image of the same size, where that is installed. README.md, beside this, says what is
# measured. It wants bash 5, python3 and the built program.
. "$(dirname "${BASH_SOURCE[0]}")/common.sh"

rounds=${ROUNDS:-7}
here=$(cd "$(dirname "${BASH_SOURCE[0]}")" && pwd)
PATH=$PATH:/usr/sbin:/sbin

# A volume of 8,195 and more blocks with 8,192 inodes.
groups=8 bpg=1024 ipg=1024 log=4096
size=$((4096 * (3 + log / 8 + groups * bpg)))
has_ext4=
if command -v debugfs >/dev/null && command -v mke2fs >/dev/null; then has_ext4=1; fi

# fresh: a new volume and a new image.
fresh() {
    rm -f "$folder/volume" "$folder/ext4"
    "$lufs" mkfs "$folder/volume" $groups $bpg $ipg $log >/dev/null
    if [ "$has_ext4" ]; then
        truncate -s $size "$folder/ext4"
        mke2fs -q -F -t ext4 -b 4096 -N 8192 "$folder/ext4"
    fi
}

# keep NAME: the shortest time of this case so far, of `took` and those before it.
declare -A best
keep() {
    if [ -z "${best[$1]:-}" ] || [ "$took" -lt "${best[$1]}" ]; then best[$1]=$took; fi
}

counts='0 1000 4000 10000'
for count in $counts; do
    python3 "$here/make_script.py" "$count" "$folder/script-$count" "$folder/commands-$count"
    head -c $((4 * count)) /dev/zero | tr '\0' 0 >"$folder/turns-$count"
done
echo "at a load of $(cut -d' ' -f1 /proc/loadavg), the best of $rounds"
for ((round = 0; round < rounds; round++)); do
    for count in $counts; do
        fresh
        timed "$lufs" drive "$folder/volume" "$folder/turns-$count" "$folder/script-$count"
        keep "lufs $count"
        if [ "$has_ext4" ]; then
            timed debugfs -w -f "$folder/commands-$count" "$folder/ext4"
            keep "debugfs $count"
        fi
    done
done

# What was answered last, and that the volume is sound after it.
refused=$(grep -vc ' ok' "$folder/script-10000.out" || true)
echo "10,000 lines: $(wc -l <"$folder/script-10000.out") replies, $refused refused; $("$lufs" check "$folder/volume")"
# The time without lines is that of reading, checking and writing back.
for name in lufs debugfs; do
    for count in $counts; do
        took=${best["$name $count"]:-}
        if [ -z "$took" ]; then continue; fi
        more=$((took - ${best["$name 0"]}))
        if [ "$count" = 0 ]; then
            printf '%-8s %6d lines %7d.%d ms\n' $name 0 $((took / 1000)) $((took / 100 % 10))
        else
            printf '%-8s %6d lines %7d.%d ms, %7d lines a second after the time of none\n' $name "$count" \
                $((took / 1000)) $((took / 100 % 10)) $((count * 1000000 / (more > 0 ? more : 1)))
        fi
    done
done
