# Words, and mistakes in them.
# shellcheck shell=bash

refuses() { # STATUS TEXT WORDS..
    local status=$1 text=$2
    shift 2
    ends "$status" "$tree" "$@" && says "$text"
}
test_mistakes_are_answered() {
    fresh
    mkdir "$room/empty"
    cd "$room" || return
    refuses 2 'no such option; --help' -Z -r "$root" &&
        refuses 2 'a value is missing' -r &&
        refuses 2 'not a number from 1' -j 0 -r "$root" &&
        refuses 2 'no such folder' -r /nowhere &&
        refuses 2 'no SELINUXTYPE in' -r "$room/empty" &&
        refuses 2 'not a folder of etc/selinux' -r "$root" -t ../x &&
        refuses 2 'not found; name the policy' -r "$root" -t absent &&
        refuses 2 'a folder; name the file' -r "$root" -p "$room/policy" &&
        refuses 2 'compiled; name the text' -r "$root" -p "$spec.bin" &&
        refuses 2 'give one' -r "$root" -t mine -p "$spec" &&
        refuses 2 'begins with /' -r "$root" -p "$spec" etc &&
        refuses 2 'not found' -r "$root" -p "$spec" /etc -- /-n -n &&
        refuses 2 'not found' -r "$root" -p "$spec" /etcetera &&
        refuses 2 'not a plain path' -r "$root" -p "$spec" /etc/../home &&
        refuses 2 'not a plain path' -r "$root" -p "$spec" -e /etc/./ssh /etc &&
        refuses 2 'begins with /' -r "$root" -p "$spec" -e ../x /etc
}
test_path_that_is_not_utf_8() {
    fresh
    : > "$root/etc/"$'\377' && ends 0 label "/etc/"$'\377' && says ' 1 changed,' &&
        has_label "$root/etc/"$'\377' etc_t
}
test_links_in_a_path_lead_within_the_root() {
    fresh
    mkdir -p "$root/usr/bin" && touch "$root/usr/bin/ls" && ln -s usr/bin "$root/bin"
    ln -s /etc "$root/absolute" && ln -s ../../../../../../../../../etc "$root/home/ana/far"
    ln -s passwd "$root/etc/name"
    ends 0 label /bin/ls && says '1 records' && ends 0 label -F /absolute/passwd &&
        has_label "$root/etc/passwd" etc_t && ends 0 label /home/ana/far/shadow &&
        has_label "$root/etc/shadow" shadow_t && ends 0 label /etc/name &&
        has_label "$root/etc/name" etc_t && [ "$(count_labels 2> /dev/null)" -eq 3 ]
}
test_too_much_at_once() {
    fresh
    printf '#!/bin/sh\necho "relabel: limit: records"\nexit 255\n' > "$room/full"
    chmod +x "$room/full"
    RELABEL=$room/full ends 255 label && says 'name the folders one after the other' &&
        says 'nothing was set' && has_none "$root/etc"
}
test_paths_with_odd_bytes() {
    mkdir -p "$root/etc"
    local name names=("it's" $'two\nlines' $'end\n' '-n' '[x]' 'back\slash' ' ' "\$(x)")
    for name in "${names[@]}"; do : > "$root/etc/$name"; done
    ends 0 label "${names[@]/#//etc/}" && says ' 8 records, 8 changed,' && has_none "$root/etc" \
        || return
    ends 0 label -F -e "/etc/it's" -e $'/etc/end\n' -e '/etc/[x]' /etc \
        && says ' 6 records, 1 changed,'
}
test_a_bad_line_of_the_policy() {
    fresh
    printf '/a(b\t%s\n' "$(context etc_t)" > "$room/bad"
    refuses 255 'line 1' -r "$root" -p "$room/bad" && says 'mend that line' &&
        says 'nothing was set' && has_none "$root/etc"
}
test_not_root() {
    fresh
    chmod 755 "$room" "$root"
    ends 2 setpriv --reuid 65534 --clear-groups "$tree" -r "$root" -p "$spec" &&
        says 'only root can set labels'
}
test_help_and_version() {
    local tool
    for tool in "$top/relabel" "$tree" "$apply"; do
        ends 0 "$tool" --help && says usage && ends 0 "$tool" --version &&
        says "$(cat "$top/VERSION")" || return
    done
    ends 0 "$top/relabel" -h && says relabel-tree && ends 0 "$top/relabel" help &&
        says relabel-apply
}
test_a_dump_that_is_none() {
    fresh
    read_records
    printf '# file: /etc\nuser.other="x"\n\n' > "$root.dump"
    applies 2 && says '2: not a line of a dump; nothing was set'
    printf '# file: etc\n' > "$root.dump"
    applies 2 || return
    write_dump /etc/absent etc_t /etc/passwd etc_t
    applies 1 && says '/etc/absent: has no record' && has_label "$root/etc/passwd" etc_t
}
test_records_that_are_none() {
    fresh
    write_dump /etc/passwd etc_t
    printf 'f 1 2 x /etc/passwd\n' > "$root.records"
    applies 2 && says '1: not a record; nothing was set'
}
