#!/usr/bin/env bash
# What the built program does to real files: the statuses it exits with, what stands in place of a
# volume, where its output goes, and the order of its system calls. No proof says any of it.
#
# It prints one line a check, `ok WHAT` or `FAILED WHAT`, or `skipped WHAT`, and exits with 1 if one
# failed. It wants bash, python3 and timeout, and for the calls strace.
#
# Two programs on one volume at the same time: nothing stops them, since the program takes no lock, and most
# programs that make a file system in a file take none. Their writes are mixed. Two runs of mkfs with the same
# numbers write the same bytes, except for the time in them, so what they leave is a volume. Of other pairs
# nothing is promised.
set -u

crate=$(cd "$(dirname "${BASH_SOURCE[0]}")/../crates/lufs" && pwd)
lufs=$crate/out/lufs
if [ ! -x "$lufs" ]; then
    (cd "$crate" && rt run -- mkfs out/volume 1 64 32 256) >&2 || exit 1
fi

folder=$(mktemp -d)
trap 'chmod -R u+rwx "$folder"; rm -rf "$folder"' EXIT
cd "$folder" || exit 1

failed=0
numbers='1 64 32 256'
clean='clean inodes 1 blocks 1 free 61'
made='made blocks 99 inodes 30 free 61 ring 255'
empty=$'epoch 1 head 0 tid 1 ring 255\ncommitted 0 sectors 0'

# is WHAT WANTED FOUND: one line.
is() {
    if [ "$2" = "$3" ]; then
        echo "ok $1"
    else
        echo "FAILED $1: wanted '$2', found '$3'"
        failed=1
    fi
}

# ends WHAT STATUS TEXT WORD..: the program's status and all that it prints. 124 is a hang.
ends() {
    local what=$1 status=$2 text=$3 found
    shift 3
    found=$(timeout 5 "$lufs" "$@" 2>&1)
    is "$what" "$status: $text" "$?: $found"
}

# same WHAT FILE..: the files have the same bytes.
same() {
    cmp -s "$2" "$3"
    is "$1" 0 $?
}

# put FILE BYTE HEX: puts bytes at a place of a file.
put() {
    python3 -c 'import sys
with open(sys.argv[1], "r+b") as f:
    f.seek(int(sys.argv[2]))
    f.write(bytes.fromhex(sys.argv[3]))' "$@"
}

echo '# the statuses'
# shellcheck disable=SC2086
ends 'mkfs of a name that is not there' 0 "$made" mkfs volume $numbers
is 'the new file has just the volume' 405504 "$(stat -c %s volume)"
ends 'scan of a new volume' 0 "$empty" scan volume
ends 'check of a new volume' 0 "$clean" check volume
cp volume first
sleep 1
ends 'mkfs of a file that is there' 0 "$made" mkfs volume $numbers
moment=$(python3 -c 'print(int.from_bytes(open("volume", "rb").read()[147736:147744], "big"))')
now=$(date +%s)
is "the root's moment is now, in seconds" 1 $((moment <= now && moment > now - 60))
cmp -l first volume | python3 -c 'import sys
print(all(147736 <= int(line.split()[0]) - 1 < 147744 for line in sys.stdin))' >differ
is 'a second mkfs changes the moment alone' True "$(cat differ)"
ends 'no words' 1 usage
ends 'another word' 1 usage fsck volume
ends 'a word too many' 1 usage mkfs volume $numbers 1
ends 'a seventh and an eighth word' 1 usage mkfs volume $numbers 1 2
ends 'a number with a sign' 1 usage mkfs volume +1 64 32 256
ends 'scan of a name that is not there' 2 'missing nothing' scan nothing
ends 'check of a name that is not there' 2 'missing nothing' check nothing
ends 'mkfs where the directory is not there' 4 'disk fault no/volume' mkfs no/volume $numbers
ends 'scan below a file' 4 'disk fault volume/x' scan volume/x
: >small
ends 'scan of an empty file' 6 'not a volume small' scan small
ends 'check of an empty file' 6 'not a volume small' check small
ends 'mkfs of an empty file' 10 'geometry sectors 0' mkfs small $numbers
is 'then it is still empty' 0 "$(stat -c %s small)"
cp volume short
truncate -s 405503 short
ends 'scan of a volume that is a byte short' 6 'not a volume short' scan short
ends 'a number out of its range' 10 'geometry bpg 65' mkfs new 1 65 32 256
is 'then no file is made' no "$([ -e new ] && echo yes || echo no)"
cp volume bad
put bad 12288 00
ends 'a bad log header' 11 'bad log header' scan bad
ends 'check with a bad log header' 11 'bad log header' check bad
cp volume bad
# The byte of the block bits in which that of the root's block stands.
put bad 143520 03
cp bad before
ends 'check of a volume with a wrong bit' 7 'unsound blockbit 37' check bad
same 'check writes nothing to the file' before bad
cp volume bad
# A record of type 9 in the first sector of the ring, with its trailer.
put bad 12800 0000000000024100000000800000000941c00002
put bad 13304 0000000100000001
ends 'a bad log' 11 'bad log 1 0' scan bad
ends 'check with a bad log' 11 'bad log 1 0' check bad
put bad 12815 02
put bad 12944 00000000000000010000000100000008
ends 'a log with one transaction' 0 \
    $'epoch 1 head 0 tid 1 ring 255\ntx 1 sectors 1 deltas 1 bytes 144\ncommitted 1 sectors 1' scan bad
cp bad before
ends 'scan of it again' 0 \
    $'epoch 1 head 0 tid 1 ring 255\ntx 1 sectors 1 deltas 1 bytes 144\ncommitted 1 sectors 1' scan bad
same 'scan writes nothing to the file' before bad
ends 'check of it, with a log that makes the root wrong' 7 'unsound fields 2' check bad
same 'check replays nothing into the file' before bad

echo '# what a crash may leave, as the README shows it'
"$crate/../../examples/crashed.sh"
ends 'scan of a committed transaction' 0 \
    $'epoch 1 head 0 tid 1 ring 255\ntx 1 sectors 3 deltas 3 bytes 1104\ncommitted 1 sectors 3' scan committed
ends 'check of it, which is replayed' 0 'clean inodes 2 blocks 1 free 61' check committed
ends 'scan of a transaction that is cut off' 0 "$empty" scan cut
ends 'check of it' 0 "$clean" check cut
ends 'check of a change without a log' 7 'unsound inodebit 3' check unlogged

echo '# a session'
cp volume driven
printf 'create /a 644\nstat /a\nlist /\n' >script
printf 00000000 >turns
moment=$(date +%s)
ends 'drive of three lines' 0 'answered 3 left 0 commits 0 rolls 0' drive driven turns script
is 'its replies' $'1 ok\n2 ok 3 file 644 1 0 0 0 M 0\n3 ok 1 end a' "$(sed -E 's/ 0 [0-9]{9,} 0$/ 0 M 0/' script.out)"
is 'its history' $'session 2 M 1\nentry 0 1 3 0 0 0 a ok\nentry 0 2 - 0 0 0 a ok 3 file 644 1 0 0 0 M 0\nentry 0 3 - 0 0 0 a ok 1 end a' \
    "$(sed -E 's/ [0-9]{9,} / M /' driven.history)"
session=$(sed -n 's/^session 2 \([0-9]*\) 1$/\1/p' driven.history)
is "the session's moment is now, in seconds" 1 $((session >= moment && session < moment + 60))
ends 'check of what it left' 0 'clean inodes 2 blocks 1 free 61' check driven
ends 'scan of it, in the next epoch' 0 $'epoch 2 head 0 tid 1 ring 255\ncommitted 0 sectors 0' scan driven
: >nothing-to-do
ends 'drive of an empty script' 0 'answered 0 left 0 commits 0 rolls 0' drive driven turns nothing-to-do
same 'its replies are none' nothing-to-do nothing-to-do.out
ends 'names that are the same' 1 usage drive driven turns turns
ends 'no schedule' 2 'missing none' drive driven none script
ends 'no script' 2 'missing none' drive driven turns none
ends 'no volume' 2 'missing none' drive none turns script
mkdir folder
ends 'a schedule that is a directory' 3 'read fault folder' drive driven folder script
truncate -s 1048577 long
ends 'a schedule that is too long' 9 'over limit long 1048576' drive driven long script
mkdir blocked.history
cp driven blocked
ends 'a history that cannot be made' 5 'reply fault blocked.history' drive blocked turns script
same 'then the volume is as it was' driven blocked
cp script unheard
mkdir unheard.out
ends 'replies that cannot be made' 5 'reply fault unheard.out' drive driven turns unheard
same 'then the volume is as it was' driven blocked

echo '# words'
mkdir 'a folder'
ends 'a name with spaces' 0 "$made" mkfs 'a folder/a  volume ' $numbers
ends 'scan of it' 0 "$empty" scan 'a folder/a  volume '
ends 'an empty name' 2 'missing ' scan ''
ends 'an empty number' 1 usage mkfs new '' 64 32 256
ends 'a name that is no UTF-8' 1 usage scan $'volume\xff'
ends 'a name of many bytes' 4 "disk fault $(printf 'n%.0s' {1..300})" scan "$(printf 'n%.0s' {1..300})"

echo '# in place of a volume'
mkdir directory
mkfifo fifo
python3 -c 'import socket
socket.socket(socket.AF_UNIX).bind("socket")'
ln -s fifo link
for kind in directory fifo socket link /dev/null /dev/full; do
    ends "scan of $kind" 4 "disk fault $kind" scan "$kind"
    ends "mkfs of $kind" 4 "disk fault $kind" mkfs "$kind" $numbers
done
ln -s volume good
ends 'scan of a link to a volume' 0 "$empty" scan good
ln -s nothing dangling
ends 'scan of a link to nothing' 2 'missing dangling' scan dangling
ends 'mkfs of a link to nothing' 4 'disk fault dangling' mkfs dangling $numbers

echo '# rights'
cp volume locked
if [ "$(id -u)" = 0 ]; then
    # Root may do all by its rights, so the program runs as nobody where that can be.
    chmod 755 "$folder"
    chown nobody locked "a folder" 2>/dev/null
    as=(setpriv --reuid=65534 --regid=65534 --clear-groups --inh-caps=-all --bounding-set=-all)
    cp "$lufs" program
    if ! "${as[@]}" ./program scan volume >/dev/null 2>&1; then
        as=()
    fi
else
    as=(env)
    cp "$lufs" program
fi
if [ ${#as[@]} = 0 ]; then
    echo 'skipped the checks of rights: this is root, and another user cannot be taken'
else
    chmod 444 locked
    is 'scan of a file that may only be read' "0: $empty" "$(
        found=$("${as[@]}" ./program scan locked)
        echo "$?: $found"
    )"
    is 'mkfs of it' '4: disk fault locked' "$(
        found=$("${as[@]}" ./program mkfs locked $numbers)
        echo "$?: $found"
    )"
    same 'its bytes stay' volume locked
    chmod 000 locked
    is 'scan of a file without rights' '4: disk fault locked' "$(
        found=$("${as[@]}" ./program scan locked)
        echo "$?: $found"
    )"
    # A name can be made in this directory, and the directory can't be opened to be synced.
    chmod 333 'a folder'
    is 'mkfs where the directory cannot be synced' '4: disk fault a folder/new' "$(
        found=$("${as[@]}" ./program mkfs 'a folder/new' $numbers)
        echo "$?: $found"
    )"
    chmod 755 'a folder'
    is 'then no file is left' no "$([ -e 'a folder/new' ] && echo yes || echo no)"
fi

echo '# a full file system, by a limit on the size of files'
is 'mkfs of a new file' '4: disk fault full' "$(
    trap '' XFSZ
    ulimit -f 100
    found=$("$lufs" mkfs full $numbers)
    echo "$?: $found"
)"
is 'then no file is left' no "$([ -e full ] && echo yes || echo no)"
truncate -s 405504 full
is 'mkfs of a file that is there' '4: disk fault full' "$(
    trap '' XFSZ
    ulimit -f 100
    found=$("$lufs" mkfs full $numbers)
    echo "$?: $found"
)"
ends 'then it is no volume' 6 'not a volume full' scan full

echo '# standard output'
for command in "scan volume" "mkfs volume $numbers" "mkfs new $numbers"; do
    timeout 5 "$lufs" $command >&-
    is "$command with standard output closed" 5 $?
    is 'then nothing is made' no "$([ -e new ] && echo yes || echo no)"
    timeout 5 "$lufs" $command <&- >&- 2>&-
    is "$command with all three closed" 5 $?
    timeout 5 "$lufs" $command 2>/dev/null >/dev/full
    is "$command into /dev/full" 5 $?
    timeout 5 "$lufs" $command | true
    is "$command into a closed pipe ends" 1 $((PIPESTATUS[0] == 5 || PIPESTATUS[0] == 0))
    rm -f new
done
ends 'the volume is as good as before' 0 "$empty" scan volume
timeout 5 "$lufs" nothing >/dev/full
is 'usage into /dev/full' 5 $?
python3 - "$lufs" <<'END'
import os, subprocess, sys
reader, writer = os.pipe()
os.close(reader)
done = subprocess.run([sys.argv[1], "scan", "volume"], stdout=writer)
open("pipe", "w").write(str(done.returncode))
END
is 'scan into a pipe that nobody reads' 5 "$(cat pipe)"

echo '# two programs at once'
"$lufs" mkfs volume $numbers >one &
first=$!
"$lufs" mkfs volume $numbers >two
second=$?
wait $first
is 'mkfs and mkfs both end well' '0 0' "$? $second"
ends 'and leave a volume' 0 "$empty" scan volume

echo '# the order of the system calls'
if ! command -v strace >/dev/null || ! strace -o trace true 2>/dev/null; then
    echo 'skipped the order of the calls: there is no strace that works here'
    exit $failed
fi
# calls WORD..: what a run does from standard output on, a line a call, with places and lengths alone.
calls() {
    strace -o trace -e 'trace=%file,%desc' "$lufs" "$@" >/dev/null
    sed -n '/^write(1, ""/,$p' trace | grep -v '^+++' | sed -E '
        s/ += .*//
        s/^statx\([^,]*, ("[^"]*"),.*/look \1/
        s/^openat\([^,]*, ("[^"]*"), ([A-Z_|]*)\|O_NOCTTY.*/open \1 \2/
        s/^ftruncate\(([0-9]+), ([0-9]+)\)/length \1 \2/
        s/^p(write|read)64\(([0-9]+), ".*"(\.\.\.)?, ([0-9]+), ([0-9]+)\)/\1 \2 \4 bytes at \5/
        s/^lseek\(([0-9]+), 0, SEEK_END\)/end \1/
        s/^fsync\(([0-9]+)\)/sync \1/
        s/^close\(([0-9]+)\)/close \1/
        s/^write\(1, ".*"(\.\.\.)?, ([0-9]+)\)/print \2/'
}
written='end 3
write 3 512 bytes at 8192
sync 3
write 3 131072 bytes at 12288
write 3 12288 bytes at 143360
sync 3
write 3 512 bytes at 8192
sync 3
close 3
print 42'
rm -f new
is 'of mkfs of a new file' "print 0
look \"new\"
open \"new\" O_RDWR|O_CREAT|O_EXCL
length 3 405504
sync 3
open \".\" O_RDONLY
sync 4
close 4
$written" "$(calls mkfs new $numbers)"
is 'of mkfs of it again' "print 0
look \"new\"
open \"new\" O_RDWR
$written" "$(calls mkfs new $numbers)"
is 'of mkfs below a directory' 'open "directory" O_RDONLY' \
    "$(calls mkfs directory/new $numbers | grep O_RDONLY)"
is 'of scan' "print 0
look \"new\"
open \"new\" O_RDWR
end 3
read 3 512 bytes at 8192
read 3 512 bytes at 12288
read 3 65536 bytes at 12800
close 3
print 52" "$(calls scan new)"
# A volume of 200 files in two directories. Read are the superblock, the log's header and its ring, 64 group blocks, the
# 32 inode blocks of each group at once, three directories of a block each, and ten pointer blocks; of the 310 blocks of
# files none.
python3 "$crate/../../bench/make_volume.py" files files 200
calls check files | grep '^read 3' >reads
is 'check of files takes the inode blocks of a group by one read' 64 "$(grep -c ' 131072 bytes' reads)"
is 'it reads each block of metadata' 8770560 "$(awk '{bytes += $3} END {print bytes}' reads)"
is 'and none twice' 0 "$(sort -n -k6 reads | awk '$6 < end {twice++} {end = $6 + $3} END {print twice + 0}')"
is 'and nothing is written' '' "$(calls check files | grep -E '^(write 3|sync|length)')"
exit $failed
