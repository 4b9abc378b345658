# Runs that are killed at random moments; KILLS says how many.
# shellcheck shell=bash

test_random_kills() {
    python3 "$top/tests/host/kills.py" "$tree" "$root" "$spec" "${KILLS:-20}"
}
test_peer_finds_nothing_more_after_kills() { # setfiles, where it is there
    command -v setfiles > /dev/null || { echo "    (no setfiles here)" && return; }
    python3 "$top/tests/host/kills.py" "$tree" "$root" "$spec" 4 || return
    ends 0 label -F -D && ends 0 label -c -F || return
    # a name of a file with several names it may want otherwise
    setfiles -n -v -F -r "$root" "$spec" "$root" 2>&1 | grep '^Would relabel' |
        grep -v '/home/ana/l' && return 1
    setfattr -n security.selinux -v "$(context tmp_t)" "$root/etc/a0/b0/c0/f3"
    setfiles -n -v -F -r "$root" "$spec" "$root" 2>&1 | grep '^Would relabel.*/b0/c0/f3 ' \
        > /dev/null ||
        { echo "    setfiles doesn't find a label that is wrong" && false; }
}
test_terminated_run_tells_what_is_set() { # as many as there are, and the rest is left
    many 20000
    "$tree" -v -r "$root" -p "$spec" > "$root.out" 2> "$root.err" &
    local run=$! status=0 told set shown
    for _ in {1..300}; do
        [ -z "$(label_of "$root/etc/d0/f1")" ] || break
        sleep .002
    done
    kill -TERM "$run"
    wait "$run" || status=$?
    [ "$status" -eq 143 ] || tell "status $status" || return
    told=$(sed -n 's/.*what was set stays (\([0-9]*\) labels.*/\1/p' "$root.err")
    set=$(count_labels 2> /dev/null) shown=$(grep -c ^Relabeled "$root.out")
    [ "$told" -eq "$set" ] && [ "$told" -eq "$shown" ] ||
        tell "told $told, set $set, shown $shown" || return
    ends 0 label -D && says 'stopped in its middle' && is_done
}
test_hang_up_while_nobody_listens() { # nohup: a signal that is ignored stays so
    many 3000
    (trap '' HUP && exec "$tree" -D -r "$root" -p "$spec" 2> "$root.err") &
    local run=$!
    sleep .02
    kill -HUP "$run"
    wait "$run" && is_done
}
