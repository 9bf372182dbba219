#!/bin/sh
# Compares the four programs and the library with the second program, and shows
# that each comparison can fail: compare.sh LISTER RUNNER PACK UNPACK [SEED [PAGES]]
set -eu
if [ "$#" -lt 4 ]; then
    echo "usage: compare.sh LISTER RUNNER PACK UNPACK [SEED [PAGES]]" >&2
    exit 2
fi
lister=$(realpath "$1")
runner=$(realpath "$2")
pack=$(realpath "$3")
unpack=$(realpath "$4")
shift 4
cd "$(dirname "$0")"
cargo build --release --offline --quiet

# The command must end with status 1: its second program has a mistake.
must_differ() {
    status=0
    "$@" >/dev/null || status=$?
    if [ "$status" -ne 1 ]; then
        echo "a deliberate mistake was not found (status $status): $*" >&2
        exit 1
    fi
}

./target/release/programs "$lister" "$runner" "$pack" "$unpack" "$@"
for name in lt-from-n set-complement highest-group-first bytes-behind; do
    must_differ ./target/release/programs --break "$name" "$lister" "$runner" "$pack" "$unpack"
done
echo "deliberate mistakes found"

# The comparison of the library begins with the part that finds the mistakes soonest: broken PART NAME...
seed=${1-}
broken() {
    part=$1
    shift
    for name; do
        must_differ ./target/release/library --break "$name" --from "$part" ${seed:+"$seed"}
    done
}

./target/release/library ${seed:+"$seed"}
broken profiles first-successor count-one-less set-one-off set-complement count-without-set run-without-set last-moves-on \
    small-with-cbnz small-with-movw full-behind-terminator profile-2-small count-without-profile run-without-profile \
    window-end-inside window-start-late window-by-length window-first-byte window-last-byte \
    window-before-ram window-before-stack window-before-base \
    load-outside-window store-outside-window stack-outside-window empty-window-refused
broken windows store-byte-by-byte external-in-window sp-in-window
broken refusals base-one-off budget-after profile-after-length \
    alignment-before-bounds external-by-most place-before-external \
    position-in-fields no-record-at-sp no-record-at-last \
    window-before-external window-after-no-record window-after-sp window-end-cut
broken fields place-128 last-failing-field none-offset-at-kind
broken packing groups-of-eight highest-group-first five-groups-refused offset-with-none sp-as-it-stands \
    room-one-less room-for-the-longest room-cleared room-before-range
broken unpacking padded-group six-groups unknown-without-offset sp-one-below bytes-behind \
    range-before-groups last-number position-in-numbers \
    register-cut kind-cut offset-cut place-cut flags-cut groups-before-room
broken syscalls lt-from-n
broken exits imm15-unshifted
broken slices budget-cut
broken images byte-of-page-before run-of-page-before own-byte-alone own-byte-unchecked first-byte-unchecked last-byte-unchecked \
    byte-above-accepted count-under-empty-set count-under-profile-0 index-from-the-end \
    image-cut longer-index number-cut page-of-252 \
    refused-page-written refused-byte-written replaced-one-behind replaced-and-built
broken image-refusals build-12-before-18 build-14-before-12 \
    replace-12-before-18 replace-13-before-12 replace-14-before-13 replace-1-before-14 replace-1-first \
    run-12-before-18 run-13-before-12 run-14-before-13 run-21-before-14 run-2-before-21 \
    pages-4097 no-page refused-index-written
echo "deliberate mistakes found"
