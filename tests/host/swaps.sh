# Files that are exchanged while four threads label; SWAPS says for how many seconds.
# shellcheck shell=bash

test_swaps_under_threads() {
    chmod 755 "$room" "$root"
    python3 "$top/tests/host/swaps.py" "$tree" "$root" "$spec" "${SWAPS:-5}" || return
    ends 0 label -D -j 4 && ends 0 label -c && digests_are_true
}
