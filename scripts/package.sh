#!/bin/sh
# Makes the Debian package, installs it in a fresh Debian, uses the installed commands there (scripts/package_session.py),
# removes the package, and purges it. What this script mounts and starts stands in namespaces of its own, and ends with it.
# Skipped where Debian's tools for that are missing, or its registry cannot be reached.
set -eu
cd "$(dirname -- "$0")/.."
release=bookworm
# The packages that the session uses beside those that the package depends on.
recommended='logrotate, python3-aiohttp, python3-prometheus-client'
passed=0
failed=0
child=

# skip WHY..: ends the run, which has failed where a check has.
skip() {
    echo "package: skipped after $passed checks that passed and $failed that failed, since $*"
    [ "$failed" -eq 0 ]
    exit
}

# judge WHAT TEST..: counts whether the test holds. What it prints is shown where it doesn't.
judge() {
    what=$1
    shift
    if "$@" > "$work/judged" 2>&1; then
        passed=$((passed + 1))
    else
        failed=$((failed + 1))
        echo "FAILED: $what"
        cat "$work/judged"
    fi
}

# The registry that apt uses here.
mirror() {
    # shellcheck disable=SC2016  # apt's own field
    found=$(apt-get indextargets --format '$(REPO_URI)' "Codename: $release" 'Created-By: Packages' 2> /dev/null | head -n 1)
    echo "${found:-http://deb.debian.org/debian/}"
}

is_reachable() {
    /usr/lib/apt/apt-helper download-file "$(mirror)dists/$release/Release" "$work/release" > /dev/null 2>&1
}

# apart WORD..: runs a command whose mounts and processes end with it, and with this script. The words are further ones of
# unshare, and the command.
apart() {
    unshare --mount --pid --fork --kill-child "$@" &
    child=$!
    status=0
    wait "$child" || status=$?
    child=
    return "$status"
}

# Ends what still runs, and removes all files.
clean() {
    if [ -n "$child" ]; then
        kill -KILL "$child" && sleep 1
    fi
    rm -rf --one-file-system "$work"
}

# What runs the words of a command in the root $0.
# shellcheck disable=SC2016  # the words of the inner shell
enter='mount -t proc proc "$0/proc"
    exec timeout --signal=KILL 600 chroot "$0" env -i PATH=/usr/sbin:/usr/bin:/sbin:/bin HOME=/root LC_ALL=C.UTF-8 DEBIAN_FRONTEND=noninteractive \
    ${http_proxy:+http_proxy="$http_proxy"} "$@"'

in_root() {
    apart sh -euc "$enter" "$root" "$@"
}

# The same with a network of its own, in which all ports are free.
in_root_alone() {
    apart --net sh -euc "ip link set lo up; $enter" "$root" "$@"
}

# fill_root COMMAND..: runs a command that needs the network.
fill_root() {
    "$@" > "$work/log" 2>&1 && return
    is_reachable || skip "$(mirror) cannot be reached any more"
    tail -n 20 "$work/log"
    echo "package: the new Debian cannot be built: this fails: $*"
    exit 1
}

# systemd itself is large, and is not started there.
build_root() {
    is_reachable || skip "$(mirror) cannot be reached"
    fill_root apart timeout --signal=KILL 900 debootstrap --variant=minbase --include=systemd-standalone-sysusers,curl "$release" "$root" "$(mirror)"
    fill_root in_root apt-get satisfy -qq --yes --no-install-recommends "$(dpkg-deb --field "$package" Depends), $recommended"
}

# The files of the root, and its users and groups. Left out are the files of dpkg, of logrotate and of this script, and the
# copies that the system keeps of its users.
contents() {
    {
        find "$root" -xdev -printf '%P\n' |
            grep -Ev '^((root|tmp|var/lib/(dpkg|systemd|logrotate)|var/log/dpkg\.log|var/cache)(/|$)|etc/[a-z]*-$)'
        for file in passwd group shadow gshadow; do
            sed "s|^|$file: |" "$root/etc/$file"
        done
    } | LC_ALL=C sort
}

# are_added PATHS: since the package was installed, the root has these paths of those that it did not have before, and no
# others but the state of the controller and the journal of the switch.
are_added() {
    contents > "$work/now"
    LC_ALL=C comm -13 "$work/before" "$work/now" | grep -Ev '^([a-z]*: |var/lib/bg/plan\.json\.state|var/lib/bg-switch/journal)' > "$work/added"
    printf '%s\n' "$@" | diff - "$work/added"
}

is_as_before() {
    contents | diff "$work/before" -
}

# The tar has the files of the package, but for Debian's own. Debian compresses manual pages.
has_same_files() {
    dpkg-deb --fsys-tarfile "$package" | tar --list | sed -n 's|^\./||; s|\(/man/.*\)\.gz$|\1|; /[^/]$/p' |
        grep -Ev '/(changelog\.gz|copyright)$' | LC_ALL=C sort > "$work/packaged"
    tar --list --file "$tar" | sed 's|^[^/]*/||' | LC_ALL=C sort | diff "$work/packaged" -
}

# The tar is unpacked as examples/production/README.md says, and its commands run.
is_unpacked() {
    cp "$tar" "$root/root/package.tar.gz"
    in_root sh -euc 'tar --extract --file /root/package.tar.gz --directory / --strip-components 1 --no-same-owner
        systemd-sysusers bg-switch.conf; bg_switch --version; bg-operator --help > /dev/null; getent passwd bg-dashboard'
}

for needed in debootstrap dpkg-buildpackage dh unshare ip; do
    command -v "$needed" > /dev/null || skip "$needed is missing here"
done
[ "$(id -u)" = 0 ] || skip 'it is not run by root'
unshare --mount --pid --net --fork true 2> /dev/null || skip 'this system gives no namespaces'

work=$(mktemp -d)
trap clean EXIT
trap 'exit 1' HUP INT TERM
root=$work/root
{ mknod "$work/null" c 1 3 && : > "$work/null"; } 2> /dev/null || skip 'this system lets root make no devices'
# Builds the program where it is stale.
[ -n "${BG_SWITCH_PROGRAM-}" ] || bin/bg_switch check < examples/direct.json > /dev/null
package=$(packaging/build.sh deb)
tar=$(packaging/build.sh dist)
judge 'the tar has the files of the package' has_same_files
if command -v lintian > /dev/null; then
    judge 'lintian finds no error' lintian --allow-root --fail-on error "$package"
else
    echo "package: the package is not judged by lintian, which is not installed here"
fi
build_root
cp "$package" "$root/root/package.deb"
cp -R scripts "$root/root/scripts"
contents > "$work/before"
judge 'the package is installed' in_root dpkg --install /root/package.deb
in_root_alone python3 -B /root/scripts/package_session.py || failed=$((failed + 1))
judge 'the package is removed' in_root dpkg --remove bg-switch
judge 'only its configuration, its logs and the state of the controller are left' are_added etc/bg etc/bg/rollout.json \
    etc/logrotate.d/bg-switch var/lib/bg var/lib/bg-switch var/lib/bg/plan.json var/log/bg var/log/bg/access.log var/log/bg/access.log.1
judge 'the package is purged' in_root dpkg --purge bg-switch
judge 'nothing of it is left' is_as_before
judge 'the tar runs where it is unpacked' is_unpacked
echo "package: $passed passed, $failed failed"
[ "$failed" -eq 0 ]
