#!/bin/sh
# Writes three volumes into the current folder, as a crash may leave them: committed, cut and unlogged.
#
# Each is the smallest volume, in which the file /a was being made. That changes three places: the group record,
# which has the bits of what is in use, the file's inode record, and the root directory. The three changes are
# one transaction of the log, and go to their places only once the transaction is whole in the log.
#
#   committed   the transaction is whole, and of the three changes only the first is in its place
#   cut         the last sector of the transaction is missing, and no change is in its place
#   unlogged    the first change is in its place, and there is no transaction, as without a log
#
# ../docs/FORMAT.md has every byte. It wants nothing but a shell with printf and dd.
set -eu

# number N VALUE: the value in N bytes, most significant first.
number() {
    left=$1
    while [ "$left" -gt 0 ]; do
        left=$((left - 1))
        # shellcheck disable=SC2059
        printf "\\$(printf %03o $(($2 >> 8 * left & 255)))"
    done
}

zeros() {
    dd if=/dev/zero bs="$1" count=1 2>/dev/null
}

# group_record FREE BITS: so many free inodes, and the first byte of the inode bits.
group_record() {
    number 4 0x00090255
    number 4 0
    number 4 "$1"
    number 4 61
    zeros 16
    number 1 "$2"
    zeros 127
    number 1 7
    zeros 255
}

# inode_record MODE LINKS SIZE BLOCK COUNT: an inode of user 0 with this first block and so many blocks.
inode_record() {
    number 2 "$1"
    number 2 "$2"
    zeros 12
    number 8 "$3"
    number 8 0
    number 4 "$4"
    zeros 56
    number 4 "$5"
    zeros 32
}

# slot INODE LENGTH NAME: a name in a directory.
slot() {
    number 4 "$1"
    number 2 "$2"
    number 2 ${#3}
    printf %s "$3"
    zeros $(($2 - 8 - ${#3}))
}

# delta HOME LENGTH TYPE: the head of a change of so many bytes from byte HOME of the volume on.
delta() {
    number 8 "$1"
    number 4 "$2"
    number 4 "$3"
}

# The transaction: three changes, each with its new bytes, then the commit record, and zeros to the sector's end.
transaction() {
    delta 143360 416 1
    group_record 28 0x0f
    delta 147840 128 2
    inode_record 0100644 1 0 0 0
    delta 151552 512 3
    slot 2 12 .
    slot 2 12 ..
    slot 3 488 a
    delta 1 3 8
    zeros 392
}

# log_sector N: sector N of the transaction, 504 bytes of it and then the numbers of the transaction and the epoch.
log_sector() {
    transaction | dd bs=1 skip=$((504 * $1)) count=504 2>/dev/null
    number 4 1
    number 4 1
}

# put BYTE: writes its input to the volume from this byte on.
put() {
    dd of="$volume" bs=1 seek="$1" conv=notrunc 2>/dev/null
}

for volume in committed cut unlogged; do
    # The volume before: superblock, log header, group record, the root's inode record, and the root directory.
    dd if=/dev/zero of="$volume" bs=4096 count=99 2>/dev/null
    for value in 0x00011954 1 1 64 32 256 99; do number 4 "$value"; done | put 8192
    for value in 0x4c554653 1 0 1; do number 4 "$value"; done | put 12288
    group_record 29 0x07 | put 143360
    inode_record 040755 2 512 37 1 | put 147712
    {
        slot 2 12 .
        slot 2 500 ..
    } | put 151552
done

volume='committed'
log_sector 0 | put 12800
log_sector 1 | put 13312
log_sector 2 | put 13824
group_record 28 0x0f | put 143360

volume='cut'
log_sector 0 | put 12800
log_sector 1 | put 13312

volume='unlogged'
group_record 28 0x0f | put 143360
