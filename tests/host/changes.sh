# What changes between reading and setting.
# shellcheck shell=bash

attack() { # what a user may do between find and the setter, and what setfattr makes of it
    mkdir -p "$root/etc" "$root/home/ana/d"
    echo secret > "$root/etc/shadow"
    : > "$root/home/ana/d/shadow"
    : > "$root/home/ana/other"
    read_records
    write_dump /home/ana/d/shadow user_home_t
}
by_setfattr() { sed 's|^# file: /|# file: ./|' "$root.dump" | (cd "$root" &&
        setfattr -h --restore=-); }
test_a_parent_replaced_by_a_link() {
    attack
    rm -r "$root/home/ana/d" && ln -s ../../etc "$root/home/ana/d"
    applies 1 && says '/home/ana/d/shadow: not what was read' && has_none "$root/etc/shadow" &&
        by_setfattr && has_label "$root/etc/shadow" user_home_t
}
test_a_file_replaced_by_a_link() {
    attack
    ln -sf ../../../etc/shadow "$root/home/ana/d/shadow"
    applies 1 && says '1 replaced' && has_none "$root/etc/shadow" &&
        has_none "$root/home/ana/d/shadow"
}
test_a_file_replaced_by_a_hard_link() {
    attack
    ln -f "$root/etc/shadow" "$root/home/ana/d/shadow"
    applies 1 && says '1 replaced' && has_none "$root/etc/shadow" && by_setfattr &&
        has_label "$root/etc/shadow" user_home_t
}
test_a_file_replaced_by_another() {
    attack
    mv "$root/home/ana/other" "$root/home/ana/d/shadow"
    applies 1 && says '1 replaced' && has_none "$root/home/ana/d/shadow"
}
test_a_file_replaced_by_another_kind() {
    attack
    rm "$root/home/ana/d/shadow" && mkfifo "$root/home/ana/d/shadow"
    applies 1 && says '1 replaced' && has_none "$root/home/ana/d/shadow"
}
test_a_file_that_is_gone() {
    attack
    rm "$root/home/ana/d/shadow"
    applies 1 && says '1 gone'
}
test_the_attack_on_the_whole_run() { # a program that lets the user act before it decides
    attack
    cat > "$room/slow" << F
#!/bin/sh
cat > "$root.read"
rm -rf "$root/home/ana/d" && ln -s ../../etc "$root/home/ana/d"
exec "$RELABEL" "\$@" < "$root.read"
F
    chmod +x "$room/slow"
    RELABEL=$room/slow ends 1 label /home && says '/home/ana/d/shadow: not what was read' &&
        has_none "$root/etc/shadow"
}
test_a_folder_that_changes_all_the_time() { # for a link to another, and back
    mkdir -p "$root/etc" "$root/home/d"
    : > "$root/etc/shadow"
    : > "$root/home/d/shadow"
    ln -s ../etc "$root/home/link"
    write_dump /home/d/shadow user_home_t /home/link/shadow user_home_t
    python3 - "$root/home" << 'F' &
import ctypes, os, sys
EXCHANGE, HERE, RENAMEAT2 = 2, -100, 316
os.chdir(sys.argv[1])
while True:
    ctypes.CDLL(None).syscall(RENAMEAT2, HERE, b"d", HERE, b"link", EXCHANGE)
F
    local user=$! status=0
    for _ in {1..60}; do
        read_records
        "$apply" -r "$root" "$root.records" "$root.dump" > "$root.out" 2> "$root.err"
        has_none "$root/etc/shadow" || status=1
    done
    kill "$user"
    return "$status"
}
test_a_folder_that_is_read_while_it_changes() { # names come, go and move while they are read
    fresh
    python3 - "$root/home/ana" << 'F' &
import itertools, os, sys
os.chdir(sys.argv[1])
for number in itertools.count():
    for count in range(200):
        os.close(os.open(f"n{count}", os.O_CREAT | os.O_WRONLY))
    for count in range(200):
        os.rename(f"n{count}", f"m{count}")
    os.mkdir(f"d{number}")
    os.rename(f"d{number}", f"e{number}")
    os.rmdir(f"e{number}")
    for count in range(200):
        os.unlink(f"m{count}")
F
    local user=$! status=0
    for _ in {1..40}; do
        label -F -D -j 4 > "$root.out" 2> "$root.err"
        [ $? -le 1 ] && has_label "$root/etc/shadow" shadow_t || { status=1 && break; }
    done
    kill "$user"
    wait "$user" 2> /dev/null
    [ "$status" -eq 0 ] || tell "a run is refused" || return
    digests_are_true && ends 0 label -D && ends 0 label -c
}
test_a_long_path_stops_nothing() {
    fresh
    (cd "$root/home/ana" && for _ in {1..17}; do
        mkdir "$(printf 'n%.0s' {1..250})" && cd "$(printf 'n%.0s' {1..250})" || exit
    done)
    ends 1 label -D && says 'the path is past 4,095 bytes' &&
        has_label "$root/etc/shadow" shadow_t &&
        [ -z "$(digest_of "$root/home/ana")" ] && [ -n "$(digest_of "$root/etc")" ] &&
        ends 1 label -c -j 4 && [ "$(wc -l < "$root.err")" -eq 2 ]
}
test_digests_go_before_labels_change() {
    fresh
    ends 0 label -D && [ -n "$(digest_of "$root/etc")" ] || return
    setfattr -n security.selinux -v "$(context tmp_t)" "$root/etc/ssh/config"
    ends 0 label && [ -z "$(digest_of "$root/etc")" ] && [ -z "$(digest_of "$root")" ] &&
        [ -n "$(digest_of "$root/home")" ]
}
test_digests_that_cannot_go() {
    on_ext4 && fresh && ends 0 label -D || return
    setfattr -n security.selinux -v "$(context tmp_t)" "$root/etc/ssh/config"
    chattr +i "$root/etc/ssh"
    ends 1 label && says "can't be removed" && has_label "$root/etc/ssh/config" tmp_t
    local status=$?
    chattr -i "$root/etc/ssh"
    umount "$root"
    return "$status"
}
