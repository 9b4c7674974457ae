#!/usr/bin/env bash
# Times `lufs scan` over full logs against `cat` of the same file. README.md, beside this, says what is
# measured. It wants bash 5, python3 (which rt wants too) and GNU grep; /usr/bin/time where it is there.
. "$(dirname "${BASH_SOURCE[0]}")/common.sh"

rounds=${ROUNDS:-25}

# make_image FILE L SHAPE: a volume whose log of L sectors is full of transactions of one sector.
make_image() {
    python3 - "$@" <<'PYTHON'
import struct, sys

path, sectors, shape = sys.argv[1], int(sys.argv[2]), sys.argv[3]
blocks = 3 + sectors // 8 + 64
first = 3 + sectors // 8  # the first block of group 0: then its inode block, then its body blocks


def delta(home, kind, logged, length):
    return struct.pack(">QII", home, length, kind) + logged


# The deltas of one transaction, of which each needs a home after that of the one before it.
if shape == "inodes":  # as many inode records as fit
    deltas = [delta(4096 * (first + 1) + 128 * i, 2, bytes([i + 1]) * 128, 128) for i in range(3)]
elif shape == "pointers":  # as many block numbers of 4 bytes as fit
    deltas = [delta(4096 * (first + 2) + 8 * i, 4, bytes([i + 1]) * 4, 4) for i in range(24)]
elif shape == "zeros":  # as many blocks of zeros as fit, of which no bytes are logged
    deltas = [delta(4096 * (first + 2 + i), 5, b"", 4096) for i in range(30)]
else:
    sys.exit("no such shape: " + shape)
logged = b"".join(deltas)

with open(path, "wb") as image:
    image.truncate(4096 * blocks)
    image.seek(512 * 16)
    image.write(struct.pack(">7I", 0x11954, 1, 1, 64, 32, sectors, blocks))
    image.seek(512 * 24)
    image.write(struct.pack(">4I", 0x4C554653, 1, 0, 1))
    image.seek(512 * 25)
    for tid in range(1, sectors):
        commit = struct.pack(">QII", tid, len(deltas), 8)
        image.write((logged + commit).ljust(504, b"\0") + struct.pack(">II", tid, 1))
PYTHON
}

# peak COMMAND..: the most memory that it held, in KiB.
peak() {
    if [ -x /usr/bin/time ]; then
        /usr/bin/time -f %M -o "$folder/peak" "$@" >/dev/null
        cat "$folder/peak"
    else
        python3 -c 'import resource, subprocess, sys
subprocess.run(sys.argv[1:], stdout=subprocess.DEVNULL, check=True)
print(resource.getrusage(resource.RUSAGE_CHILDREN).ru_maxrss)' "$@"
    fi
}

# The logs: their sectors, and the deltas of their transactions.
cases=("65536 inodes" "32768 inodes" "65536 pointers" "65536 zeros")
declare -A scan_us cat_us listed

for case in "${cases[@]}"; do
    read -r sectors shape <<<"$case"
    image="$folder/$case"
    make_image "$image" "$sectors" "$shape"
    # The first run of each, which isn't timed, and in which the listing is looked at.
    "$lufs" scan "$image" >"$folder/listing"
    cat "$image" >/dev/null
    listed[$case]=$(grep -c '^tx ' "$folder/listing")
    last=$(tail -n 1 "$folder/listing")
    if [ "$last" != "committed $((sectors - 1)) sectors $((sectors - 1))" ]; then
        echo "wrong listing: $last" >&2
        exit 1
    fi
done

# In each round every case once, so that other work on the machine slows all of them.
for ((round = 0; round < rounds; round++)); do
    for case in "${cases[@]}"; do
        timed "$lufs" scan "$folder/$case"
        if [ "$round" = 0 ] || [ "$took" -lt "${scan_us[$case]}" ]; then scan_us[$case]=$took; fi
        timed cat "$folder/$case"
        if [ "$round" = 0 ] || [ "$took" -lt "${cat_us[$case]}" ]; then cat_us[$case]=$took; fi
    done
done

row='%6s %-9s %10s %7s %8s %7s %6s %8s\n'
echo "best of $rounds, warm; scan and cat in milliseconds, peak memory of scan in KiB"
# shellcheck disable=SC2059
printf "$row" L deltas 'file bytes' listed scan cat ratio peak
for case in "${cases[@]}"; do
    read -r sectors shape <<<"$case"
    s=${scan_us[$case]} c=${cat_us[$case]}
    # shellcheck disable=SC2059
    printf "$row" "$sectors" "$shape" "$(stat -c %s "$folder/$case")" "${listed[$case]}" \
        "$((s / 1000)).$((s / 100 % 10))" "$((c / 1000)).$((c / 100 % 10))" \
        "$((s / c)).$((s * 10 / c % 10))" "$(peak "$lufs" scan "$folder/$case")"
done
