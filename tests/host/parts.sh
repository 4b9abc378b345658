# Trees that are decided in parts; RELABEL_PART makes them small.
# shellcheck shell=bash

labels_below() { (cd "$1" && getfattr -hRP -m '^security.selinux$' -d . | sort); }
linked_tree() { # names of one inode in many folders, which want different labels
    fresh
    python3 - "$root" << 'P'
import os, sys
root = sys.argv[1]
os.makedirs(root + "/srv/x")
for number in range(120):
    os.makedirs(f"{root}/etc/d{number}/e")
    os.makedirs(f"{root}/home/u{number}")
for number in range(120):
    first = f"{root}/etc/d{number}/e/file"
    os.close(os.open(first, os.O_CREAT | os.O_WRONLY))
    for name in (f"home/u{number}/name", f"srv/x/{number}", f"etc/d{(number * 7) % 120}/n{number}"):
        os.link(first, f"{root}/{name}")
    os.close(os.open(f"{root}/home/u{number}/own", os.O_CREAT | os.O_WRONLY))
P
}
test_parts_give_the_labels_of_one_run() {
    linked_tree
    local size jobs
    ends 0 label && labels_below "$root" > "$root.whole" && cp "$root.err" "$root.first" || return
    for size in 1 2 7 100 500; do
        for jobs in 1 4; do
            find "$root" -exec setfattr -h -x security.selinux {} + 2> /dev/null
            RELABEL_PART=$size ends 0 label -D -j "$jobs" &&
                cmp <(labels_below "$root") "$root.whole" && ends 0 label -c && digests_are_true ||
                { echo "    parts of $size, $jobs threads" && return 1; }
        done
    done
}
test_parts_count_what_one_run_counts() {
    linked_tree
    counts() { sed -n 's/^relabel-tree: \(.* conflicts\),.*/\1/p' "$root.err"; }
    ends 0 label -n && counts > "$root.whole" && [ -s "$root.whole" ] || return
    local size
    for size in 3 50 400; do
        RELABEL_PART=$size ends 0 label -n && counts | diff - "$root.whole" || return
    done
}
test_last_line_adds_up() {
    linked_tree
    for words in -n '' -c '-D' '-F -D'; do
        # shellcheck disable=SC2086
        label $words 2>&1 > /dev/null | awk '
            / records, / {
                gsub(/[^0-9 ,]/, "", $0); split($0, n, ","); for (i in n) sub(/ *$/, "", n[i])
                sum = n[2] + n[3] + n[4] + n[5] + n[6]; if (sum != n[1] + 0) print "    " $0
                is_seen = 1 }
            END { exit !is_seen }' > "$root.sum" && [ ! -s "$root.sum" ] ||
            { cat "$root.sum" && echo "    $words" && return 1; }
    done
}
