# What tools/install puts in place.
# shellcheck shell=bash

test_installed() {
    fresh
    "$top/tools/install" "$room/dest" /usr > /dev/null || return
    local bin=$room/dest/usr/bin
    unset RELABEL RELABEL_APPLY
    ends 0 "$bin/relabel-tree" -r "$root" -p "$spec" && has_label "$root/etc/shadow" shadow_t &&
        ends 0 "$bin/relabel" --version && says "$(cat "$top/VERSION")" &&
        ends 255 "$bin/relabel" setfiles && says 'relabel --help'
}
works_in() { # FOLDER: what is installed there labels a tree
    local bin=$1/usr/bin
    ends 0 env -u RELABEL -u RELABEL_TREE "$bin/relabel-tree" -D -r "$root" -p "$spec" &&
        has_label "$root/etc/shadow" shadow_t &&
        ends 0 env -u RELABEL "$bin/relabel" --version && says "$(cat "$top/VERSION")" &&
        ends 0 "$bin/relabel-apply" --version && says "relabel-apply $(cat "$top/VERSION")" &&
        [ -e "$1/usr/lib/systemd/system/relabel-tree-onboot.service" ]
}
has_policy() { # the program relabel-policy, which packages hold too
    [ -x "${RELABEL_POLICY:-$top/crates/policy_program/out/policy_program}" ] ||
        { echo "    (no relabel-policy here)" && false; }
}
test_package_of_debian() {
    has_policy || return 0
    command -v dpkg-deb > /dev/null || { echo "    (no dpkg-deb here)" && return; }
    fresh
    "$top/tools/package" deb "$room/debian" > /dev/null && mkdir "$room/debian/root" &&
        dpkg-deb -x "$room"/debian/relabel_*.deb "$room/debian/root" && works_in "$room/debian/root"
}
test_package_of_rpm() {
    has_policy || return 0
    command -v rpmbuild > /dev/null || { echo "    (no rpmbuild here)" && return; }
    fresh
    local packages=$room/rpm
    "$top/tools/package" rpm "$packages" > /dev/null && mkdir "$packages/root" &&
        rpm --root "$packages/root" --initdb &&
        rpm --root "$packages/root" -i --nodeps "$packages"/relabel-*.rpm 2> /dev/null &&
        rpm --root "$packages/root" -V --nodeps relabel && works_in "$packages/root" || return
    "$top/tools/package" deb "$packages" > /dev/null || return
    cmp <(rpm -qlp "$packages"/relabel-*.rpm | grep -v '/relabel$' | sort) \
        <(dpkg-deb -c "$packages"/relabel_*.deb | awk '$1 !~ /^d/ { print substr($6, 2) }' |
        grep -v '/relabel$' | sort) && rpm --root "$packages/root" -e relabel &&
        [ -z "$(find "$packages/root/usr" -name '*relabel*')" ]
}
test_packages_are_made_alike() { # byte by byte, twice from the same commit
    has_policy || return 0
    command -v dpkg-deb > /dev/null || { echo "    (no dpkg-deb here)" && return; }
    "$top/tools/package" "$room/one" > /dev/null && sleep 1 &&
        "$top/tools/package" "$room/two" > /dev/null && diff -r "$room/one" "$room/two"
}
test_programs_are_hardened() {
    command -v readelf > /dev/null || { echo "    (no readelf here)" && return; }
    local program
    for program in "$tree" "$RELABEL"; do
        { readelf -hlW "$program" && readelf -dW "$program"; } > "$root.elf" || return
        grep -q 'DYN (Position-Independent Executable' "$root.elf" &&
            grep -q 'GNU_STACK.* RW ' "$root.elf" && grep -q 'GNU_RELRO' "$root.elf" &&
            grep -q 'BIND_NOW' "$root.elf" || { echo "    $program" && return 1; }
    done
}
