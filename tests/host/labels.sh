# Labels of a small tree.
# shellcheck shell=bash

test_a_tree_is_labelled() {
    fresh
    ends 0 label && says ' 14 records, 11 changed,' && says ' 1 without a specification' &&
        has_label "$root/etc/shadow" shadow_t && has_label "$root/etc/link" etc_t &&
        has_none "$root/srv/none/file"
}
test_a_second_run_does_nothing() {
    fresh
    ends 0 label && ends 0 label -v && says ', 0 changed,' && ! grep -q Relabeled "$root.out" &&
        ends 0 label -c && says ' 1 without a specification'
}
test_names_of_all_bytes() {
    mkdir -p "$root/etc"
    local byte name
    for byte in {1..255}; do
        [ "$byte" -eq 47 ] && continue
        name=$(printf '%b.' "\\0$(printf %o "$byte")") && name=${name%.}
        [ "$byte" -eq 46 ] || : > "$root/etc/$name"
        mkdir "$root/etc/d$name$name" && : > "$root/etc/d$name$name/$name$name$name"
    done
    ends 0 label -j 3 && ends 0 label -c || return
    local labels=$((1 + 253 + 2 * 254))
    [ "$(getfattr --absolute-names -hRd -m selinux "$root" | grep -c etc_t)" -eq "$labels" ]
}
test_hard_links() {
    fresh
    ln "$root/etc/shadow" "$root/home/ana/shadow"
    ends 0 label && says ', 1 conflicts' && has_label "$root/home/ana/shadow" shadow_t &&
        ends 0 label -c
}
test_all_kinds() {
    mkdir -p "$root/etc"
    mkfifo "$root/etc/pipe"
    mknod "$root/etc/null" c 1 3
    mknod "$root/etc/loop" b 7 0
    ln -s nowhere "$root/etc/link"
    python3 -c 'import socket, sys; socket.socket(socket.AF_UNIX).bind(sys.argv[1])' \
        "$root/etc/socket" 2> /dev/null
    ends 0 label || return
    local name
    for name in "$root"/etc/*; do has_label "$name" etc_t || return; done
}
test_one_path_and_exclusions() {
    fresh
    ends 0 label -e /etc/ssh /etc && has_label "$root/etc/passwd" etc_t &&
        has_none "$root/etc/ssh" &&
        has_none "$root/home/ana" && ends 0 label -e '/etc/[a-z]*' /etc/ssh &&
        has_label "$root/etc/ssh/config" etc_t
}
test_many_at_once_are_alike() {
    local number
    for number in {1..60}; do
        mkdir -p "$root/etc/d$number/a/b" && touch "$root/etc/d$number/f" "$root/etc/d$number/a/b/f"
    done
    local first=$root
    cp -a "$root" "$root.other"
    ends 0 label -v -j 1 || return
    root=$root.other
    ends 0 label -v -j 4 && cmp "$first.out" "$root.out" &&
        cmp <(cd "$first" && getfattr -hRd -m selinux . | sort) <(cd "$root" &&
        getfattr -hRd -m selinux . | sort)
}
test_nothing_is_set_by_a_look() {
    fresh
    ends 0 label -n && says 'Would relabel /etc/shadow' && says ', 11 would change,' &&
        has_none "$root/etc/shadow" &&
        ends 1 label -c && has_none "$root/etc/shadow"
}
test_an_image_with_its_policy() {
    fresh
    mkdir -p "$root/etc/selinux/mine"
    cp -r "$room/policy/contexts" "$root/etc/selinux/mine/"
    echo 'SELINUXTYPE=mine' > "$root/etc/selinux/config"
    ends 0 "$tree" -r "$root" && has_label "$root/etc/shadow" shadow_t &&
        ends 0 "$tree" -c -r "$root" -t mine /etc
}
test_customizable_types_of_the_policy() {
    fresh
    ends 0 label && setfattr -n security.selinux -v "$(context public_content_t)" "$root/etc/passwd"
    ends 0 label && says ', 1 kept as customized' &&
        has_label "$root/etc/passwd" public_content_t &&
        ends 0 label -F && has_label "$root/etc/passwd" etc_t
}
test_a_policy_without_customizable_types() {
    fresh
    mkdir "$room/alone" && cp "$spec" "$room/alone/fc"
    ends 0 "$tree" -r "$root" -p "$room/alone/fc" &&
        says 'customizable_types: not there'
}
