# Signals and terminals.
# shellcheck shell=bash

test_signals_leave_nothing() {
    fresh
    printf '#!/bin/sh\nsleep 1234.5\n' > "$room/slow" && chmod +x "$room/slow"
    local signal status pid
    for signal in HUP:129 INT:130 TERM:143; do
        # without job control a shell begins a background command with SIGINT ignored
        RELABEL=$room/slow env --default-signal=INT "$tree" \
            -r "$root" -p "$spec" 2> "$root.err" &
        pid=$!
        for _ in {1..200}; do
            pgrep -f 'sleep 1234\.5' > /dev/null && break
            sleep 0.05
        done
        kill "-${signal%:*}" "$pid"
        status=0
        wait "$pid" || status=$?
        [ "$status" -eq "${signal#*:}" ] || { echo "    $signal: status $status" && return 1; }
        grep -q 'stopped; what was set stays' "$root.err" || return
        pgrep -f 'sleep 1234\.5' > /dev/null && return 1
        [ -z "$(ls "$TMPDIR")" ] || return 1
    done
    has_none "$root/etc/shadow"
}
test_a_setter_that_is_stopped() {
    fresh
    read_records
    write_dump /etc/passwd etc_t
    mkfifo "$root.fifo"
    ends 2 "$apply" "$root.fifo" "$root.dump" && says 'not a regular file'
}
test_no_terminal() {
    fresh
    ends 0 setsid --wait "$tree" -r "$root" -p "$spec" &&
        ! grep -q $'\r' "$root.err"
}
test_progress_on_a_terminal() {
    fresh
    printf '#!/bin/sh\nsleep 1.5\nexec "%s" "$@"\n' "$RELABEL" > "$room/slower"
    chmod +x "$room/slower"
    RELABEL=$room/slower script -qec "$tree -n -r $root -p $spec" /dev/null \
        > "$root.out" 2>&1 < /dev/null
    grep -q 'deciding, 14 records' "$root.out"
}
test_names_on_a_terminal() {
    fresh
    touch "$root/etc/"$'\302\233''31mred' "$root/etc/a from x to y"
    script -qec "$tree -n -r $root -p $spec" /dev/null \
        > "$root.out" 2>&1 < /dev/null
    grep -qF 'etc/\302\23331mred' "$root.out" &&
        grep -qF 'etc/a\040from\040x\040to\040y from' "$root.out" &&
        ! grep -qaP '[\x80-\xff]' "$root.out"
}
