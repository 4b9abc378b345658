# What a run finds short: disk, memory, descriptors, threads; and what takes no label.
# shellcheck shell=bash

test_full_disk() { # whose inodes have no room for labels, and no time of birth
    truncate -s 32M "$root.ext4" && mkfs.ext4 -q -I 128 -m 0 "$root.ext4" &&
        mount -o loop "$root.ext4" "$root" || return
    many 400
    dd if=/dev/zero of="$root/etc/d0/filler" bs=64k status=none 2> /dev/null
    dd if=/dev/zero of="$root/etc/d0/filler2" bs=512 status=none 2> /dev/null
    ends 1 label -D -j 4 && says 'No space left on device' && says ' not set' &&
        digests_are_true && [ -z "$(digest_of "$root")" ] && rm "$root"/etc/d0/filler* &&
        ends 0 label -D -j 4 && is_done
    local status=$?
    umount "$root"
    return "$status"
}
test_limit_of_files() { # of open ones
    many 2000
    mkdir -p "$root/etc/a/b/c/d/e/f/g/h/i/j/k/l/m/n/o/p/q/r/s/t/u/v/w/x/y/z" &&
        touch "$root/etc/a/b/c/d/e/f/g/h/i/j/k/l/m/n/o/p/q/r/s/t/u/v/w/x/y/z/f"
    local limit status sets=0
    for limit in 4 5 8 10 12 14 16 20 24 32 40 64; do
        status=0
        prlimit --nofile="$limit:$limit" "$tree" -D -F -j 4 -r "$root" -p "$spec" \
            > "$root.out" 2> "$root.err" || status=$?
        grep -qa 'loading shared libraries' "$root.err" || [ "$status" -lt 126 ] ||
            tell "$limit: status $status" || return
        digests_are_true || return
        [ "$status" -ne 0 ] || sets=$((sets + 1))
    done
    [ "$sets" -ge 3 ] && is_done || { echo "    $sets of 12 limits sufficed" && false; }
}
test_limit_of_memory() {
    many 3000
    local limit status sets=0
    for limit in 20 40 60 80 100 150 200 300 600 1200; do
        status=0
        prlimit --as="$((limit * 1000000))" "$tree" -D -F -j 4 -r "$root" -p "$spec" \
            > "$root.out" 2> "$root.err" || status=$?
        # out of memory ends the program by a signal at any place, and no digest may lie then
        digests_are_true || { echo "    $limit MB, status $status" && return 1; }
        [ "$status" -ne 0 ] || sets=$((sets + 1))
    done
    [ "$sets" -ge 1 ] && ends 0 label -D && is_done
}
test_threads_and_processes_that_cannot_be_made() {
    command -v cc > /dev/null || { echo "    (no cc here)" && return; }
    many 600
    cat > "$room/few.c" << 'C'
#define _GNU_SOURCE
#include <dlfcn.h>
#include <errno.h>
#include <pthread.h>
#include <stdlib.h>
#include <unistd.h>
static int calls;
static int fails(void)
{
    const char *from = getenv("FAILS_FROM");
    return from && ++calls >= atoi(from);
}
int pthread_create(pthread_t *t, const pthread_attr_t *a, void *(*f)(void *), void *x)
{
    int (*real)(pthread_t *, const pthread_attr_t *, void *(*)(void *), void *) =
        dlsym(RTLD_NEXT, "pthread_create");
    return fails() ? EAGAIN : real(t, a, f, x);
}
pid_t fork(void)
{
    pid_t (*real)(void) = dlsym(RTLD_NEXT, "fork");
    if (getenv("FORKS") || !fails())
        return real();
    errno = EAGAIN;
    return -1;
}
C
    cc -shared -fPIC -o "$room/few.so" "$room/few.c" -ldl || return
    local from status
    for from in 1 2 3 4 5 6 7 8 9 10 11 12 13 14 15 16 20; do
        find "$root" -exec setfattr -h -x security.selinux {} + 2> /dev/null
        for forks in '' 1; do
            status=0
            env ${forks:+FORKS=1} LD_PRELOAD="$room/few.so" FAILS_FROM="$from" \
                "$tree" -D -j 4 -r "$root" -p "$spec" > "$root.out" 2> "$root.err" || status=$?
            [ "$status" -lt 126 ] && ! grep -qa panicked "$root.err" ||
                tell "from call $from on: status $status" || return
            digests_are_true || return
            [ "$status" -ne 0 ] || ends 0 label -c || return
        done
    done
}
test_read_only_mount() {
    fresh
    mkdir -p "$root/home/shut" "$root/etc/open"
    mount -t tmpfs none "$root/home/shut" && touch "$root/home/shut/file" &&
        mount -o remount,ro "$root/home/shut" && mount --bind "$root/etc/ssh" "$root/etc/ssh" &&
        mount -o remount,bind,ro "$root/etc/ssh" || return
    ends 0 label -D && says '/home/shut: left out: on a read-only mount' &&
        says '/etc/ssh: left out' && has_none "$root/etc/ssh/config" &&
        has_none "$root/home/shut/file" && has_label "$root/etc/shadow" shadow_t &&
        ends 0 label -c -D
    local status=$?
    umount "$root/home/shut" "$root/etc/ssh"
    [ "$status" -eq 0 ] && digests_are_true && ends 0 label -D && says ', 3 changed,' &&
        has_label "$root/etc/ssh/config" etc_t
}
test_read_only_root() {
    fresh
    mount --bind "$root" "$root" && mount -o remount,bind,ro "$root" || return
    local status=0
    label -D > "$root.out" 2> "$root.err" || status=$?
    umount "$root"
    [ "$status" -eq 1 ] || [ "$status" -eq 2 ] || tell "status $status" || return
    says 'read-only' && has_none "$root/etc/shadow"
}
test_many_immutable_files() {
    on_ext4 || return
    many 2000
    local status
    chattr +i "$root"/etc/d1/f* "$root/etc/d2" "$root/etc/d30/f1501"
    ends 1 label -D -j 4 && says ', 52 not set' &&
        [ "$(grep -c 'not permitted' "$root.err")" -eq 52 ] && digests_are_true &&
        [ -n "$(digest_of "$root/etc/d3")" ] && [ -z "$(digest_of "$root/etc/d1")" ] &&
        [ -z "$(digest_of "$root/etc/d30")" ] && has_label "$root/etc/d30/f1502" etc_t
    status=$?
    chattr -i "$root"/etc/d1/f* "$root/etc/d2" "$root/etc/d30/f1501"
    [ "$status" -ne 0 ] || { ends 0 label -D && says ', 52 changed,' && is_done; }
    status=$?
    umount "$root"
    return "$status"
}
