# Mounts and file systems.
# shellcheck shell=bash

test_mounts_that_take_no_labels() {
    fresh
    mkdir -p "$root/proc" "$root/srv/fast" "$root/srv/a \\b"
    mount -t proc none "$root/proc" && mount -t tmpfs none "$root/srv/fast" &&
        mount -t proc none "$root/srv/a \\b" || return
    touch "$root/srv/fast/file"
    ends 0 label && says ' 16 records,' && has_label "$root/srv/fast/file" default_t &&
        ends 0 label -c
    local status=$?
    umount "$root/proc" "$root/srv/fast" "$root/srv/a \\b"
    return "$status"
}
on_ext4() { # a file system of its own, in a file
    truncate -s 64M "$root.ext4" && mkfs.ext4 -q "$root.ext4" && mkdir -p "$root" &&
        mount -o loop "$root.ext4" "$root"
}
test_ext4_and_an_immutable_file() {
    on_ext4 || return
    local number
    for number in {1..1000}; do mkdir -p "$root/etc/$((number % 10))" &&
        touch "$root/etc/$((number % 10))/$number"; done
    chattr +i "$root/etc/5/555"
    ends 1 label -D && says '/etc/5/555: Operation not permitted' && says ', 1 not set' &&
        has_none "$root/etc/5/555" &&
        [ -z "$(digest_of "$root/etc")" ] && chattr -i "$root/etc/5/555" &&
        ends 0 label -D && says ', 1 changed,' && has_label "$root/etc/5/555" etc_t &&
        [ -n "$(digest_of "$root/etc")" ] &&
        ends 0 label -D && says ', 0 changed,' && says ' 1 skipped'
    local status=$?
    umount "$root"
    return "$status"
}
test_no_temporary_folder_is_needed() {
    local number
    mkdir -p "$root/etc" "$room/small"
    for number in {1..3000}; do : > "$root/etc/a-name-that-takes-some-room-$number"; done
    mount -t tmpfs -o size=64k none "$room/small"
    TMPDIR=$room/small ends 0 label -D && [ -z "$(ls -A "$room/small")" ] && ends 0 label -c
    local status=$?
    umount "$room/small"
    return "$status"
}
test_bind_mount_within_the_tree() { # in the order of paths it comes before what it shows
    fresh
    mkdir "$root/a" && mount --bind "$root/etc" "$root/a" || return
    ends 0 label -D && says '/a: left out: it shows what /etc shows' &&
        has_label "$root/etc/passwd" etc_t && has_label "$root/a/shadow" shadow_t &&
        ends 0 label -c && digests_are_true
    local status=$?
    umount "$root/a"
    return "$status"
}
test_bind_mount_of_a_folder_above() { # as containers have it: the whole tree once more
    fresh
    mkdir "$root/home/ana/all" && mount --bind "$root" "$root/home/ana/all" || return
    ends 0 label && says '/home/ana/all: left out: it shows what / shows' &&
        has_label "$root/etc/shadow" shadow_t && ends 0 label -c
    local status=$?
    umount "$root/home/ana/all"
    return "$status"
}
test_bind_mount_of_one_file() {
    fresh
    mount --bind "$root/etc/shadow" "$root/home/ana/notes" || return
    ends 0 label && has_label "$root/etc/shadow" shadow_t && ends 0 label -c
    local status=$?
    umount "$root/home/ana/notes"
    return "$status"
}
test_bind_mount_from_outside_the_tree() { # is seen here alone, so it is read here
    fresh
    mkdir -p "$root.other" "$root/srv/in" && : > "$root.other/file"
    mount --bind "$root.other" "$root/srv/in" || return
    ends 0 label && has_label "$root/srv/in/file" default_t && ends 0 label -c
    local status=$?
    umount "$root/srv/in"
    return "$status"
}
test_one_file_system() {
    fresh
    mkdir "$root/srv/fast" && mount -t tmpfs none "$root/srv/fast" && : > "$root/srv/fast/file"
    ends 0 label -x && has_none "$root/srv/fast/file" && has_label "$root/etc/shadow" shadow_t &&
        ends 0 label -x / /srv/fast && has_label "$root/srv/fast/file" default_t
    local status=$?
    umount "$root/srv/fast"
    return "$status"
}
test_fixfiles_exclude_dirs() {
    fresh
    local list=$root/etc/selinux/fixfiles_exclude_dirs
    mkdir -p "$root/etc/selinux"
    printf '# none\n/home/ana\n  /srv/none extra\nhome\n' > "$list"
    ends 0 label && says '/home/ana: left out: named in etc/selinux/fixfiles_exclude_dirs' &&
        has_none "$root/home/ana/notes" && has_label "$root/home" default_t &&
        ends 0 label /home/ana && has_label "$root/home/ana/notes" user_home_t
}
