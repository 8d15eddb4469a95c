#!/usr/bin/env bash
# A braille file becomes a page master and back; then the two tests of every release: the page on which every dot is
# raised, and the file that simply stops. MFM_PAGE is the program, by default target/cargo/release/mfm_page; the files
# are made in a folder that is taken away at the end.
set -u
examples=$(realpath "$(dirname "$0")")
program=$(realpath "${MFM_PAGE:-$examples/../target/cargo/release/mfm_page}")
folder=$(mktemp -d)
trap 'rm -rf "$folder"' EXIT
cd "$folder" || exit 2

# a line as it is typed, what it prints, and its exit status where that is not 0
typed() {
    local status
    echo "\$ $*"
    PATH=$folder:$PATH eval "$*" 2>&1 </dev/null
    status=$?
    [[ $status == 0 ]] || echo "(exit status $status)"
}

ln -s "$program" mfm_page
cp "$examples"/{book.brf,full_page.pef,cut.hfe} .
typed mfm_page pack book.brf master.hfe
typed mfm_page list master.hfe
typed 'mfm_page show master.hfe 1 | head -n 4'
typed mfm_page unpack master.hfe copy.brf
typed 'tr a-z A-Z <book.brf | cmp - copy.brf'
typed mfm_page pack --hd full_page.pef full.dmk
typed 'mfm_page list full.dmk | tail -n 2'
typed mfm_page unpack full.dmk full.pef
typed 'diff <(grep row full_page.pef) <(grep row full.pef)'
typed mfm_page unpack full.dmk full.brf
typed mfm_page unpack cut.hfe cut.brf
