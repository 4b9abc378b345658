# Attacks on a run: what a user of the tree, or whoever starts the program, can do to it.
# shellcheck shell=bash

# ---- children that are none of the program's

test_inherited_child() {
    many 3000
    ends 0 bash -c 'exec "$tree" -D -j 4 -r "$1" -p "$2" 9> >(sleep .05)' bash "$root" "$spec" &&
        is_done && [ -n "$(digest_of "$root/etc")" ]
}
test_inherited_children_that_end_all_the_time() {
    many 3000
    ends 0 bash -c 'for i in {1..60}; do sleep .0$((i % 10)) & done
        exec "$tree" -D -j 4 -r "$1" -p "$2"' bash "$root" "$spec" && is_done
}
test_process_1_with_orphans() {
    many 3000
    ends 0 unshare --pid --fork --mount-proc sh -c '
        for i in 1 2 3 4 5 6 7 8; do (sleep .0$i & sleep .1$i &); done
        exec "$tree" -D -j 4 -r "$1" -p "$2"' sh "$root" "$spec" && is_done
}
test_sigchld_ignored() {
    many 3000
    ends 0 env --ignore-signal=CHLD "$tree" -D -j 4 -r "$root" -p "$spec" && is_done
}
test_signals_blocked_by_whoever_starts_it() {
    many 100
    ends 0 python3 -c '
import os, signal, sys
signal.pthread_sigmask(signal.SIG_BLOCK, signal.valid_signals())
os.execv(sys.argv[1], sys.argv[1:])' "$tree" -D -r "$root" -p "$spec" && is_done
}
test_started_without_standard_descriptors() { # what it opens must not become standard error
    many 100
    (exec <&- >&- 2>&-; "$tree" -v -D -j 2 -r "$root" -p "$spec")
    is_done
}

# ---- readers and deciders that end early

decider() { # TEXT: a program in relabel's place
    printf '#!/bin/bash\n%s\n' "$1" > "$room/decider"
    chmod +x "$room/decider"
}
sets_nothing() { # STATUS: a run with that decider
    RELABEL=$room/decider ends "$1" label -D -j 4 && says 'nothing' && has_none "$root/etc/d0/f1" &&
        [ -z "$(digest_of "$root/etc")$(digest_of "$root")" ]
}
test_decider_killed() {
    many 3000
    decider 'head -c 20000 > /dev/null; kill -9 $$'
    sets_nothing 2 && says 'signal 9' || return
    decider "\"$RELABEL\" \"\$@\"; kill -9 \$\$"
    sets_nothing 2 || return
    decider 'kill -9 $$'
    sets_nothing 2
}
test_decider_with_half_a_report() {
    many 1000
    decider "\"$RELABEL\" \"\$@\" | head -c 30000"
    sets_nothing 2 || return
    decider "\"$RELABEL\" \"\$@\" | head -n 300"
    sets_nothing 2
}
test_decider_with_half_a_dump() {
    many 1000
    decider "\"$RELABEL\" \"\$@\"; for it; do [ \"\${last-}\" != -o ] || dump=\$it; last=\$it; done
        head -c 30000 \"\$dump\" > '$room/cut'; cat '$room/cut' > \"\$dump\""
    sets_nothing 2
}
test_decider_that_fails_for_a_moment() {
    many 1000
    decider "[ -e '$root.twice' ] || { : > '$root.twice'; exit 253; }; exec \"$RELABEL\" \"\$@\""
    sets_nothing 253 && RELABEL=$room/decider ends 0 label -D -j 4 && is_done
}
test_directory_that_cannot_be_read() { # as root without the rights that go past its mode
    fresh
    mkdir -p "$root/home/shut/below" && touch "$root/home/shut/below/file"
    chown 1234 "$root/home/shut" && chmod 700 "$root/home/shut"
    local few=-dac_override,-dac_read_search,-fowner
    chmod 755 "$room" "$root"
    ends 1 setpriv --bounding-set "$few" --inh-caps "$few" "$tree" -D -r "$root" -p "$spec" &&
        says '/home/shut: Permission denied' && has_label "$root/etc/shadow" shadow_t &&
        [ -z "$(digest_of "$root/home")$(digest_of "$root")" ] &&
        [ -n "$(digest_of "$root/etc")" ] && digests_are_true &&
        ends 0 label -D && has_label "$root/home/shut/below/file" user_home_t
}

# ---- labels that read as something else

test_label_with_blank() {
    local value values=('evil /x' ' /' ' ' '?' '' 'x' $'a\nb' $'a\tb' $'\377\376' 'x "y" \z'
        'a b c d e f 1 2 /etc' '<<none>>' '<no context>')
    for value in "${values[@]}"; do
        rm -rf "$root" && mkdir "$root" && fresh && ends 0 label -D || return
        setfattr -n security.selinux -v "0x$(printf %s "$value" | od -An -tx1 | tr -d ' \n')" \
            "$root/etc/shadow" || return
        ends 1 label -c && says 'Would relabel /etc/shadow' && digests_are_true &&
            ends 0 label -D && says ', 1 changed,' && has_label "$root/etc/shadow" shadow_t &&
            ends 0 label -c || { echo "    label '$value'" && return 1; }
    done
}
test_label_that_is_long() { # longer than any room that is made for one at first
    fresh
    local length
    for length in 254 255 256 4095 4096 4097 30000; do
        ends 0 label -D || return
        setfattr -n security.selinux -v "$(printf "%${length}s" '' | tr ' ' x)" \
            "$root/etc/shadow" || return
        ends 1 label -c && digests_are_true && ends 0 label -D && says ', 1 changed,' &&
            has_label "$root/etc/shadow" shadow_t || { echo "    length $length" && return 1; }
    done
}

# ---- several runs at once

other_policy() { sed 's/etc_t/usr_t/; s/user_home_t/tmp_t/' "$spec" > "$room/policy/other"; }
test_two_runs_at_once() {
    many 6000
    other_policy
    local turn first
    for turn in 1 2 3 4 5 6; do
        "$tree" -D -j 2 -F -r "$root" -p "$spec" 2> "$root.one" &
        first=$!
        [ "$turn" -lt 4 ] || sleep "0.0$turn"
        "$tree" -D -j 2 -F -r "$root" -p "$room/policy/other" 2> "$root.two" || return
        wait "$first" || return
        grep -q 'another run is at work here; this one waits' "$root.one" "$root.two" ||
            echo "    (turn $turn: neither waited)"
        [ "$(getfattr -hR --absolute-names -n security.selinux "$root/etc" |
            grep '^security' | sort | uniq -c | wc -l)" -eq 1 ] || { echo "    mixed" && return 1; }
        digests_are_true -F || return
    done
}
test_wait_that_is_stopped() {
    many 100
    printf '#!/bin/sh\nsleep 3\nexec "%s" "$@"\n' "$RELABEL" > "$room/slow" && chmod +x "$room/slow"
    RELABEL=$room/slow "$tree" -r "$root" -p "$spec" 2> "$root.one" &
    local first=$!
    sleep .3
    ends 143 timeout --preserve-status -s TERM .5 "$tree" -r "$root" -p "$spec" &&
        says 'another run is at work' || return
    wait "$first"
    is_done
}
test_lock_held_by_a_user() { # whoever can open the root can lock it, and stops nobody
    many 100
    chmod 755 "$room" "$root"
    setpriv --reuid 65534 --clear-groups sh -c 'exec 8< "$1" && flock 8 && exec sleep 5' \
        sh "$root" &
    local user=$!
    sleep .2
    ends 0 timeout 4 "$tree" -D -r "$root" -p "$spec" && is_done
    local status=$?
    kill "$user"
    return "$status"
}
test_nothing_goes_on_behind_a_killed_run() {
    many 6000
    "$tree" -D -j 4 -r "$root" -p "$spec" 2> /dev/null &
    local run=$! count
    sleep .03
    kill -9 "$run"
    wait "$run" 2> /dev/null
    count=$(count_labels 2> /dev/null)
    for _ in {1..600}; do
        pgrep -f "$spec" > /dev/null || break
        sleep .1
    done
    ! pgrep -af "$spec" && [ "$(count_labels 2> /dev/null)" -eq "$count" ] && digests_are_true &&
        ends 0 label -D && is_done
}

# ---- files with other names

test_other_name_outside() {
    fresh
    mkdir "$root/srv/a" && ln "$root/etc/passwd" "$root/srv/a/passwd" && ends 0 label -D || return
    [ -n "$(digest_of "$root/etc")" ] || echo "    (no digest at /etc)"
    other_policy
    # by this program, which knows the part alone that it labels
    ends 0 "$tree" -F -r "$root" -p "$room/policy/other" /srv && digests_are_true &&
        digests_are_true /etc && ends 0 label -D /etc &&
        has_label "$root/etc/passwd" etc_t || return
    # by another
    ends 0 label -D && setfattr -n security.selinux -v "$(context tmp_t)" "$root/srv/a/passwd" &&
        digests_are_true && digests_are_true /etc && ends 0 label -D /etc &&
        has_label "$root/etc/passwd" etc_t
}
test_other_name_that_comes_later() {
    fresh
    ends 0 label -D && ln "$root/etc/shadow" "$root/home/ana/shadow" && digests_are_true &&
        rm "$root/home/ana/shadow" && ends 0 label -D &&
        ln "$root/home/ana/notes" "$root/etc/ssh/notes" && digests_are_true && ends 0 label -D &&
        digests_are_true
}
test_other_name_by_a_bind_mount() {
    fresh
    mkdir "$room/elsewhere" && ends 0 label -D &&
        mount --bind "$root/etc" "$room/elsewhere" || return
    other_policy
    mkdir "$room/elsewhere/new" && setfattr -n security.selinux -v "$(context tmp_t)" \
        "$room/elsewhere/ssh/config" && digests_are_true && ends 0 label -D &&
        has_label "$root/etc/ssh/config" etc_t &&
        ends 0 "$tree" -r "$room/elsewhere" -p "$room/policy/other" && digests_are_true &&
        ends 0 label -D && ends 0 label -c
    local status=$?
    umount "$room/elsewhere"
    rmdir "$room/elsewhere"
    return "$status"
}
test_digest_of_another_directory() { # a user's copy of an attribute, or root's by cp -a
    many 200
    ends 0 label -D || return
    local digest
    digest=$(digest_of "$root/etc/d1" | tr -d ' \n')
    setfattr -n security.selinux -v "$(context tmp_t)" "$root/etc/d0/f1"
    setfattr -n security.sehash -v "0x$digest" "$root/etc/d0" && digests_are_true || return
    mkdir "$root/home" && cp -a "$root/etc/d1" "$root/home/d1" && digests_are_true &&
        ends 0 label -D && ends 0 label -c
}

# ---- names and messages

test_names_like_errors() { # while files come and go
    many 500
    local name names=('x1 write error' 'No space left on device' 'find ended with status 2'
        'terminated by signal 9' 'File too large' 'standard output' $'x\nfind: write error')
    python3 - "$root/home" "${names[@]}" << 'P' &
import os, sys
os.makedirs(sys.argv[1], exist_ok=True)
os.chdir(sys.argv[1])
while True:
    for name in sys.argv[2:]:
        for number in range(20):
            os.close(os.open(f"{name}{number}", os.O_CREAT | os.O_WRONLY))
    for name in sys.argv[2:]:
        for number in range(20):
            os.unlink(f"{name}{number}")
P
    local user=$! turn status=0
    for turn in {1..30}; do
        label -F -j 4 > "$root.out" 2> "$root.err"
        [ $? -le 1 ] && has_label "$root/etc/d0/f1" etc_t || status=1
    done
    kill "$user"
    wait "$user" 2> /dev/null
    ends 0 label && return "$status"
}
test_reader_of_messages_gone() {
    many 3000
    ("$tree" -v -D -j 4 -r "$root" -p "$spec" 2>&1; echo $? > "$root.status") | head -1 > /dev/null
    [ "$(cat "$root.status")" -le 1 ] && is_done ||
        { echo "    status $(cat "$root.status")" && false; }
}
test_reader_of_messages_gone_from_the_first() {
    many 3000
    ("$tree" -v -D -r "$root" -p "$spec" 2>&1; echo $? > "$root.status") | true
    [ "$(cat "$root.status")" -le 1 ] && is_done
}
test_limit_of_file_size() { # all is set, or nothing is and that is said
    many 3000
    local limit status
    for limit in 0 1 1000 65536 300000; do
        status=0
        prlimit --fsize="$limit" "$tree" -v -D -j 4 -r "$root" -p "$spec" > "$root.out" \
            2> >(cat > "$root.err") || status=$?
        sleep .1
        [ "$status" -lt 128 ] || [ "$status" -ge 250 ] ||
            tell "limit $limit: status $status" || return
        digests_are_true || return
        if [ "$status" -gt 1 ]; then
            says 'nothing' && has_none "$root/etc/d0/f1" || return
        else
            is_done || return
        fi
    done
    ends 0 label -D && is_done
}
test_output_to_a_full_device() {
    fresh
    local status=0
    "$tree" -v -r "$root" -p "$spec" > /dev/full 2> "$root.err" || status=$?
    [ "$status" -eq 1 ] && ends 0 label -c || tell "status $status" || return
    for words in --help --version; do
        "$tree" $words > /dev/full 2> /dev/null && echo "    $words" && return 1
        "$apply" $words > /dev/full 2> /dev/null && echo "    apply $words" && return 1
    done
    status=0
    "$tree" -n -r "$root" -p "$spec" > "$root.out" 2> /dev/full || status=$?
    [ "$status" -eq 1 ]
}
test_long_names_in_messages() {
    on_ext4 || return
    local name length status=1
    name=$root/etc
    for _ in {1..14}; do name=$name/$(printf '%250s' '' | tr ' ' n); done
    mkdir -p "$name" && (cd "$name" && : > file && chattr +i file)
    ends 1 label && says "${name#"$root"}/file: Operation not permitted" && status=0
    (cd "$name" && chattr -i file)
    umount "$root"
    [ "$status" -eq 0 ] || return
    fresh
    read_records
    for length in 499 500 501 4096 16999 17000 17001 70000; do
        name=/$(printf "%${length}s" '' | tr ' ' x)
        write_dump "$name" etc_t /etc/passwd etc_t
        "$apply" -r "$root" "$root.records" "$root.dump" > "$root.out" 2> "$root.err"
        status=$?
        [ "$status" -eq 1 ] || [ "$status" -eq 2 ] || tell "status $status" || return
        grep -qaP '[^\x20-\x7e]' "$root.err" && tell "bytes that are none of the name" && return 1
    done
    true
}

# ---- files with an inode's number again

test_inode_number_again() {
    on_ext4 || return
    fresh
    mkdir "$root/home/ana/d"
    : > "$root/home/ana/d/file"
    cat > "$room/again" << P
#!/bin/bash
sleep .05
old=\$(stat -c %i "$root/home/ana/d/file")
rm "$root/home/ana/d/file"
for _ in {1..50}; do
    : > "$root/home/ana/d/file"
    [ "\$(stat -c %i "$root/home/ana/d/file")" != "\$old" ] || break
    mv "$root/home/ana/d/file" "$root/home/ana/\$RANDOM"
done
[ "\$(stat -c %i "$root/home/ana/d/file")" = "\$old" ] || echo other >> "$root.again"
exec "$RELABEL" "\$@"
P
    chmod +x "$room/again"
    RELABEL=$room/again ends 1 label -D && says '/home/ana/d/file: not what was read' &&
        has_none "$root/home/ana/d/file" && [ ! -e "$root.again" ] && digests_are_true
    local status=$?
    umount "$root"
    return "$status"
}
test_label_changed_while_deciding() { # what root set meanwhile isn't what was decided on
    fresh
    decider "setfattr -n security.selinux -v '$(context custom_t)' '$root/etc/passwd'
        exec \"$RELABEL\" \"\$@\""
    RELABEL=$room/decider ends 1 label -D && says '/etc/passwd: not what was read' &&
        has_label "$root/etc/passwd" custom_t && digests_are_true && ends 0 label -D
}

# ---- records and dump that change

test_records_that_change_while_they_are_read() {
    many 500
    read_records
    local section='# file: /etc/%P\nsecurity.selinux="'"$(context etc_t)"'"\n\n'
    (cd "$root/etc" && find . -type f -printf "$section") > "$root.dump"
    python3 - "$root.records" "$root.dump" << 'P' &
import os, sys
texts = [open(path, "rb").read() for path in sys.argv[1:]]
while True:
    for path, text in zip(sys.argv[1:], texts):
        with open(path, "r+b") as file:
            for length in (len(text) // 2, 0, 4096, len(text) - 7):
                file.truncate(length)
        with open(path, "wb") as file:
            file.write(text)
P
    local user=$! turn status result=0
    for turn in {1..200}; do
        status=0
        "$apply" -j $((turn % 4 + 1)) -r "$root" "$root.records" "$root.dump" > "$root.out" \
            2> "$root.err" || status=$?
        [ "$status" -le 2 ] || { echo "    status $status" && result=1 && break; }
    done
    kill "$user"
    wait "$user" 2> /dev/null
    [ "$(getfattr -hR --absolute-names -n security.selinux "$root/etc" 2> /dev/null |
        grep '^security' | sort -u | grep -vc etc_t)" -eq 0 ] && return "$result"
}

# ---- pipes and variables

test_pipe_as_config() {
    fresh
    mkdir -p "$root/etc/selinux/mine"
    cp -r "$room/policy/contexts" "$root/etc/selinux/mine/"
    mkfifo "$root/etc/selinux/config"
    ends 2 timeout 5 "$tree" -r "$root" && says 'SELINUXTYPE' || return
    ends 0 timeout 5 "$tree" -r "$root" -t mine
}
test_pipe_as_a_file_of_the_policy() {
    local file name status
    for name in file_contexts file_contexts.local file_contexts.homedirs file_contexts.subs \
        file_contexts.subs_dist ../customizable_types; do
        rm -rf "$root" && fresh && mkdir -p "$root/etc/selinux/mine"
        cp -r "$room/policy/contexts" "$root/etc/selinux/mine/"
        file=$root/etc/selinux/mine/contexts/files/$name
        rm -f "$file" && mkfifo "$file"
        ends 2 timeout 5 "$tree" -r "$root" -t mine && has_none "$root/etc/passwd" ||
            { echo "    $name" && return 1; }
    done
    rm -rf "$root" && fresh && mkdir -p "$root/etc/selinux" &&
        mkfifo "$root/etc/selinux/fixfiles_exclude_dirs"
    status=0
    timeout 5 "$tree" -r "$root" -p "$spec" 2> "$root.err" || status=$?
    [ "$status" -lt 3 ] || tell "status $status: a pipe in place of fixfiles_exclude_dirs"
}
test_path_with_an_empty_element() { # an image's own programs stay unrun
    fresh
    local name
    for name in find relabel sh getfattr setfattr awk grep env relabel_program readlink; do
        printf '#!/bin/sh\n: > "%s"\n' "$room/was-run" > "$root/$name" && chmod +x "$root/$name"
    done
    (cd "$root" && PATH=:.: CDPATH=/:"$root" ends 0 "$tree" -r . -p "$spec") &&
        [ ! -e "$room/was-run" ] && has_label "$root/etc/shadow" shadow_t
}
test_paths_beside_cdpath() {
    fresh
    (cd "$root" && CDPATH=/:/usr ends 0 "$tree" -p "$spec" -e "$root/x" ./etc) || return
    has_none "$root/home/ana"
}
test_tmpdir_with_a_backslash() {
    fresh
    mkdir "$room/a\\nb c" && TMPDIR=$room/a\\nb\ c ends 0 label -D && ends 0 label -c &&
        [ -z "$(ls -A "$room/a\\nb c")" ] && TMPDIR=/nowhere ends 0 label -D
}

# ---- records by hand

test_dots_in_records() {
    fresh
    : > "$root.outside"
    local line
    line=$(stat -c '%d %i' "$root.outside")
    for name in "/../${root##*/}.outside" "/etc/../../${root##*/}.outside" "/.." "/etc/." \
        "//etc/passwd"; do
        printf 'f %s ? %s\0' "$line" "$name" > "$root.records"
        write_dump "$name" etc_t
        "$apply" -r "$root" "$root.records" "$root.dump" > "$root.out" 2> "$root.err"
        [ $? -ge 1 ] && has_none "$root.outside" && has_none "$root/etc/passwd" || return
    done
}
test_numbers_beyond_64_bits() {
    fresh
    local device inode
    read -r device inode < <(stat -c '%d %i' "$root/etc/passwd")
    write_dump /etc/passwd etc_t
    for numbers in "$device $(python3 -c "print(2 ** 64 + $inode)")" \
        "99999999999999999999999 $inode" "-1 $inode" "+$device $inode" "0x10 $inode" " $inode"; do
        printf 'f %s  /etc/passwd\0' "$numbers" > "$root.records"
        ends 2 "$apply" -r "$root" "$root.records" "$root.dump" && has_none "$root/etc/passwd" ||
            { echo "    $numbers" && return 1; }
    done
}

# ---- depth

test_deep_folders() {
    python3 - "$root" << 'P'
import os, sys
os.makedirs(sys.argv[1] + "/etc")
os.chdir(sys.argv[1] + "/etc")
for _ in range(1900):
    os.mkdir("d")
    os.chdir("d")
for number in range(3000):
    os.close(os.open(str(number), os.O_CREAT | os.O_WRONLY))
P
    local jobs spent
    for jobs in 1 4; do
        ends 0 label -D -F -j "$jobs" && says ', 0 skipped' && ends 0 label -c -j "$jobs" ||
            return
        ends 0 label -D -j "$jobs" && digests_are_true || return
        setfattr -h -n security.selinux -v "$(context tmp_t)" "$root/etc" &&
            ends 0 label -D && says ', 1 changed,' || return
        (cd "$root" && find etc -mindepth 1900 -name '29*' -execdir \
            setfattr -x security.selinux {} +) && ends 0 label -D -j "$jobs" || return
    done
    times > "$root.times" # what the processors spent, since a busy machine takes longer
    spent=$(awk -F '[ms ]+' 'NR == 2 { print int(60 * ($1 + $3) + $2 + $4) }' "$root.times")
    [ "$spent" -le 40 ] || { echo "    $spent seconds" && false; }
}
