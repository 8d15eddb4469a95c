#!/usr/bin/env bash
# A raw image becomes a disk that an emulator mounts, and back; a pass loses sectors, and a second one gives them.
# MFM_DISK is the program, by default target/cargo/release/mfm_disk; the files are made in a folder that is taken away
# at the end.
set -u
program=$(realpath "${MFM_DISK:-$(dirname "$0")/../target/cargo/release/mfm_disk}")
folder=$(mktemp -d)
trap 'rm -rf "$folder"' EXIT
cd "$folder" || exit 2

# a line as it is typed, what it prints, and its exit status where that is not 0
typed() {
    local status
    echo "\$ $*"
    PATH=$folder:$PATH eval "$*" 2>&1 </dev/null
    status=$?
    [[ $status == 0 ]] || echo "(exit status $status)"
}

ln -s "$program" mfm_disk
seq -f 'line %g of the text' 40000 | head -c 737280 >disk.img
typed mfm_disk pack --sides 2 --tracks 80 --sectors 9 --code 2 disk.img disk.hfe
typed 'mfm_disk list disk.hfe | (head -n 4; tail -n 2)'
typed mfm_disk unpack disk.hfe copy.img
typed cmp disk.img copy.img

# two copies of the file, each with a place of its own overwritten
for pass in 1:203000 2:904000; do
    cp disk.hfe "pass${pass%:*}.hfe"
    head -c 300 /dev/zero | dd of="pass${pass%:*}.hfe" bs=1 seek="${pass#*:}" conv=notrunc status=none
done
typed mfm_disk unpack pass1.hfe copy1.img
typed mfm_disk merge pass1.hfe pass2.hfe merged.img
typed cmp disk.img merged.img
typed mfm_disk convert disk.hfe disk.dmk
