#!/bin/sh
# Makes the package of the program and its tools, from the built program (or the one that BG_SWITCH_PROGRAM names):
#   packaging/build.sh version        prints the version
#   packaging/build.sh stage FOLDER   puts the files of the package into FOLDER, which is new, as they lie below /; without the
#                                     completions of bgctl and the manual pages of the tools
#   packaging/build.sh dist           makes out/bg-switch-VERSION-linux-ARCHITECTURE.tar.gz of them
#   packaging/build.sh deb            makes out/bg-switch_VERSION_ARCHITECTURE.deb of them
# `deb` needs Debian's dpkg-dev and debhelper.
set -eu
cd "$(dirname -- "$0")/.."
umask 022
program=${BG_SWITCH_PROGRAM:-crates/bg_switch/out/bg_switch}
archive=usr/share/bg-switch/bg_switch_tools.pyz
executable=usr/libexec/bg-switch/bg_switch
documents=usr/share/doc/bg-switch

fail() {
    echo "packaging: $*" >&2
    exit 1
}

# The version is that of the program's source.
version() {
    found=$(sed -n 's/^const VERSION: &str = "\([0-9.]*\)";$/\1/p' crates/bg_command_line/src/command_line.rt)
    [ -n "$found" ] || fail 'crates/bg_command_line/src/command_line.rt has no VERSION'
    echo "$found"
}

# architecture: Debian's name of it, as dpkg-dev gives it, and else the kernel's name.
architecture() {
    dpkg --print-architecture 2> /dev/null || uname -m
}

# put MODE FILE PLACE: copies a file to its place in the folder.
put() {
    install -D -m "$1" -- "$2" "$root/$3"
}

put_program() {
    [ -x "$program" ] || fail "there is no program $program: make build"
    printed=$("$program" --version) || fail "$program --version fails"
    [ "$printed" = "bg_switch $(version)" ] || fail "$program is $printed, and the sources are $(version): make build"
    put 755 "$program" "$executable"
    # a script can stand in for the program
    if head -c 4 "$program" | grep -q ELF; then
        strip --strip-all "$root/$executable"
    fi
    put_launcher
}

# The command bg_switch, which sets the variables of the C library that bin/bg_switch sets.
put_launcher() {
    variables=$(grep '^export MALLOC_' bin/bg_switch) || fail 'bin/bg_switch has no line that sets the variables of the C library'
    printf '#!/bin/sh\n%s\nexec /%s "$@"\n' "$variables" "$executable" > "$root/usr/bin/bg_switch"
    chmod 755 "$root/usr/bin/bg_switch"
}

# put_tool NAME COMMAND: a command that runs as bin/NAME does, from the one file of the tools.
put_tool() {
    word=$(sed -n "s|^exec .* -B .*/\.\./lib\" \([a-z]*\) \"\\\$@\"\$|\1|p" "bin/$1")
    [ -n "$word" ] || fail "bin/$1 has no line that runs a tool of lib/"
    printf '#!/bin/sh\nexport BG_SWITCH_DOCUMENTS=/%s\nexec /usr/bin/python3 -B /%s %s "$@"\n' \
        "$documents" "$archive" "$word" > "$root/usr/bin/$2"
    chmod 755 "$root/usr/bin/$2"
}

put_tools() {
    install -d "$root/${archive%/*}"
    make --no-print-directory --silent tools ARCHIVE="$root/$archive" > /dev/null
    chmod 644 "$root/$archive"
    for tool in operator controller analysis dashboard fleet; do
        put_tool "$tool" "bg-$tool"
    done
    put_tool bgctl bgctl
    put 644 share/plan.schema.json usr/share/bg-switch/plan.schema.json
    put 644 share/fleet.schema.json usr/share/bg-switch/fleet.schema.json
}

# The units, the users, the rotation of the access log, and the Rollout with which the switch starts.
put_service() {
    for unit in examples/production/*.service examples/fleet/*.service; do
        put 644 "$unit" "lib/systemd/system/${unit##*/}"
    done
    put 644 examples/production/sysusers.conf usr/lib/sysusers.d/bg-switch.conf
    put 644 examples/production/logrotate.conf etc/logrotate.d/bg-switch
    put 644 examples/production/rollout.json etc/bg/rollout.json
    install -d "$root/var/lib/bg"
}

# The pages keep their folders, so that links between them lead to a file.
put_documents() {
    for file in README.md CHANGELOG.md SECURITY.md docs/*.* docs/decisions/*; do
        put 644 "$file" "$documents/$file"
    done
    # the demonstrations in python need the repository
    find examples -type f ! -name '*.state*' ! -name '*.py' ! -path '*/__pycache__/*' | while read -r file; do
        mode=644
        [ ! -x "$file" ] || mode=755
        put "$mode" "$file" "$documents/$file"
    done
    tools/packaged_pages.py "$root/$documents"
    put 644 packaging/bg_switch.1 usr/share/man/man1/bg_switch.1
}

# put_share FOLDER: the completions of bgctl, and the manual pages of the tools. They are made by Debian's tools, and left out without
# them.
put_share() {
    tools/bgctl_share.py "$1/usr/share" > /dev/null ||
        echo 'packaging: the package has no completions, and no manual pages but that of bg_switch' >&2
}

# stage FOLDER: the folder is new.
stage() {
    root=$1
    [ ! -e "$root" ] || fail "$root is there already"
    install -d "$root/usr/bin"
    put_program
    put_tools
    put_service
    put_documents
}

# Folders stay out of the archive, so that unpacking it at / changes no folder that is there.
dist() {
    name=bg-switch-$(version)
    rm -rf "out/package/$name"
    stage "out/package/$name"
    put_share "out/package/$name"
    file=out/$name-linux-$(architecture).tar.gz
    (cd out/package && find "$name" ! -type d | LC_ALL=C sort) |
        tar --create --gzip --file "$file" --directory out/package --owner=root:0 --group=root:0 --files-from -
    echo "$file"
}

# Debian's changelog has one entry, since CHANGELOG.md has the changes. Its date is that of the last change of the sources.
debian_changelog() {
    date=$(git log -1 --format=%cD 2> /dev/null || date -R -r CHANGELOG.md)
    maintainer=$(sed -n 's/^Maintainer: //p' packaging/debian/control)
    printf 'bg-switch (%s) unstable; urgency=medium\n\n  * /usr/share/doc/bg-switch/CHANGELOG.md has the changes.\n\n -- %s  %s\n' \
        "$(version)" "$maintainer" "$date"
}

deb() {
    for needed in dpkg-buildpackage dh; do
        command -v "$needed" > /dev/null || fail "$needed is missing: apt-get install dpkg-dev debhelper"
    done
    sources=out/package/source
    rm -rf "$sources"
    install -d "$sources"
    stage "$sources/root"
    put_share "$sources/root"
    cp -R packaging/debian "$sources/debian"
    debian_changelog > "$sources/debian/changelog"
    (cd "$sources" && dpkg-buildpackage --build=binary --unsigned-changes --unsigned-buildinfo) > out/package/log 2>&1 ||
        { cat out/package/log >&2; fail 'dpkg-buildpackage fails'; }
    file=bg-switch_$(version)_$(architecture).deb
    mv "out/package/$file" "out/$file"
    echo "out/$file"
}

case ${1-} in
    version | dist | deb) [ $# -eq 1 ] || fail "$1 takes no words"; "$1" ;;
    stage) [ $# -eq 2 ] || fail 'stage FOLDER'; stage "$2" ;;
    *) fail 'give one of: version, stage FOLDER, dist, deb' ;;
esac
