#!/bin/bash
# Makes a Debian package and an archive of the proved program, with the front and what else its pages show: examples,
# documents, the man page, completion; and a file of their SHA-256 sums. Then unpacks both, and has each plan and show the plan.
#
#     tools/package.sh [FOLDER]      the folder is out/package at the top of the repository, where none is given
#
# Only what is committed is packed, with a program that is proved: it is proved first where need be. The package says which
# commit and which kit it is of. Two runs over the same program make the same bytes. It needs libc6 2.34 or later to run.
set -euo pipefail

NAME=metis-planner
top=$(cd "$(dirname "$0")/.." && pwd)
made=${1:-$top/out/package}
version=$(cat "$top/VERSION")
program=$top/crates/metis/out/metis
work=$(mktemp -d)
trap 'rm -rf "$work"' EXIT

fail() {
    echo "package.sh: $1" >&2
    exit 1
}

# What is packed is what the commit has, and nothing else.
check_tree() {
    commit=$(git -C "$top" rev-parse HEAD 2>/dev/null) || fail "this is no checkout of git, so no commit can be named"
    [ -z "$(git -C "$top" status --porcelain)" ] || fail "the checkout is not as its commit: commit, or take away what git status lists"
    # The time that all files get.
    SOURCE_DATE_EPOCH=$(git -C "$top" log -1 --format=%ct)
    export SOURCE_DATE_EPOCH
}

check_program() {
    "$top/tools/build.py" || fail "the program could not be proved"
    METIS_UNPROVED=no "$top/metis" print "$top/examples/web.json" >/dev/null || fail "there is no proved program"
    # What `rt try` builds has checks of its own in it.
    ! grep -aq __asan_init "$program" || fail "$program is a program that was built without a proof"
    kit=$(rt version 2>/dev/null) || fail "rt is not on the path, so the kit cannot be named"
    # The program is to need the C library alone.
    others=$(ldd "$program" | awk '{print $1}' | grep -Ev '^(linux-vdso|libc|/lib.*/ld-linux)' || true)
    [ -z "$others" ] || fail "the program needs more than the C library: $others"
}

# Who made the package: as Debian's tools have it, or else the author of the last commit.
maintainer() {
    if [ -n "${DEBEMAIL:-}" ]; then
        echo "${DEBFULLNAME:-$DEBEMAIL} <$DEBEMAIL>"
    else
        git -C "$top" log -1 --format='%an <%ae>'
    fi
}

# The C library's version that the program asks for, the least that will do.
wanted_libc() {
    grep -ao 'GLIBC_2\.[0-9]*' "$program" | cut -d_ -f2 | sort -Vu | tail -1
}

# What the program was proved by, for whoever wants to do so again.
proved() {
    echo "commit $commit"
    echo "kit $kit"
    echo "sha256 of lib/$NAME/metis $(sha256sum <"$program" | cut -d' ' -f1)"
    echo "rt ci at that commit, with that kit, proves it and makes these bytes."
}

# The changes of this version, as Debian has them.
changelog() {
    echo "$NAME ($version) unstable; urgency=medium"
    echo
    awk -v head="## $version" '$0 == head {on = 1; next} /^## / {on = 0} on' "$top/CHANGELOG.md" |
        sed -n 's/^- /  * /p; t; s/^  \([^ ]\)/    \1/p'
    echo
    echo " -- $(maintainer)  $(LC_ALL=C date -u -R -d "@$SOURCE_DATE_EPOCH")"
}

# The command, which finds the proved program and the front beside it, wherever the package is unpacked.
command_of() {
    cat <<'COMMAND'
#!/bin/sh
# The command `metis`: `metis help` says what it can do. The proved program is ../lib/metis-planner/metis.
script=$0
[ -L "$script" ] && script=$(readlink -f "$script")
case $script in
/*) ;;
*) script=$PWD/$script ;;
esac
top=${script%/bin/*}/lib/metis-planner

find_program() {
    program=$top/metis
}

. "$top/metis_planner/front.sh"
COMMAND
}

# The files of some folders that git tracks, below another folder, but for those that a pattern names.
lay_tracked() {
    local root=$1 left_out=$2
    shift 2
    git -C "$top" ls-files -- "$@" | grep -Ev "$left_out" | while read -r file; do
        install -D -m 644 "$top/$file" "$root/$file"
    done
}

# All of it below a folder such as /usr.
lay_out() {
    local root=$1 documents=$1/share/doc/$NAME modules=$1/lib/$NAME
    install -D -m 755 "$program" "$modules/metis"
    lay_tracked "$modules" '/README\.md$' metis_planner VERSION
    command_of >"$work/command"
    install -D -m 755 "$work/command" "$root/bin/metis"
    install -D -m 644 "$top/docs/metis.1" "$root/share/man/man1/metis.1"
    gzip -9n "$root/share/man/man1/metis.1"
    install -D -m 644 "$top/completion/metis.bash" "$root/share/bash-completion/completions/metis"
    install -D -m 644 "$top/completion/_metis" "$root/share/zsh/vendor-completions/_metis"
    lay_tracked "$documents" '^docs/metis\.1$' README.md CONTRIBUTING.md CHANGELOG.md docs examples metis_planner/importers/README.md metis_planner/carry/README.md
    proved >"$documents/PROVED"
    changelog | gzip -9n >"$documents/changelog.gz"
}

# What Python keeps of its modules is made when the package is installed, and goes with it.
scripts_of_the_deb() {
    install -d "$1"
    cat >"$1/postinst" <<SCRIPT
#!/bin/sh
set -e
[ "\$1" != configure ] || ! command -v python3 >/dev/null || python3 -m compileall -q /usr/lib/$NAME || :
SCRIPT
    cat >"$1/prerm" <<SCRIPT
#!/bin/sh
set -e
find /usr/lib/$NAME -name __pycache__ -prune -exec rm -rf {} +
SCRIPT
    chmod 755 "$1/postinst" "$1/prerm"
}

make_archive() {
    local folder=metis-$version-linux-$(uname -m)
    lay_out "$work/$folder"
    tar --sort=name --owner=0 --group=0 --numeric-owner --mtime="@$SOURCE_DATE_EPOCH" -C "$work" -cf - "$folder" | gzip -9n >"$made/$folder.tar.gz"
    tar -C "$work/tried" -xzf "$made/$folder.tar.gz"
    try_out "$work/tried/$folder"
    echo "$folder.tar.gz"
}

make_deb() {
    local root=$work/deb architecture size
    architecture=$(dpkg --print-architecture)
    lay_out "$root/usr"
    size=$(du -sk --apparent-size "$root/usr" | cut -f1)
    scripts_of_the_deb "$root/DEBIAN"
    cat >"$root/DEBIAN/control" <<CONTROL
Package: $NAME
Version: $version
Architecture: $architecture
Maintainer: $(maintainer)
Depends: libc6 (>= $(wanted_libc))
Recommends: python3 (>= 3.11)
Suggests: python3-yaml
Installed-Size: $size
Section: admin
Priority: optional
Description: planner for the deployment of components, proved
 Metis reads which states component types have, and which ports each state
 provides and requires. For targets it prints a plan, whose actions name
 those that they wait for, or a refusal that anyone can check. It also
 replays, audits, times, places, rolls out and carries out plans.
 .
 The planner needs libc6 $(wanted_libc) or later and nothing else. The other words of
 the command, which make universes of packages, Compose projects, manifests and
 units, and show, draw and carry out plans, need Python 3.11.
CONTROL
    (cd "$root" && find usr -type f -exec md5sum {} + | LC_ALL=C sort -k 2 >DEBIAN/md5sums)
    dpkg-deb --root-owner-group --build "$root" "$made/${NAME}_${version}_$architecture.deb" >/dev/null
    dpkg-deb -x "$made/${NAME}_${version}_$architecture.deb" "$work/tried/deb"
    try_out "$work/tried/deb/usr"
    echo "${NAME}_${version}_$architecture.deb"
}

# Has what was unpacked print the plan that the man page shows, and show it.
try_out() {
    local examples=$1/share/doc/$NAME/examples
    local plan='metis plan 1
instances 2 actions 5 dups 0
1 new 0 Web
2 new 1 Db
3 move 1 off on
4 bind sql 0 1 after 3
5 move 0 off run
end'
    [ "$("$1/bin/metis" plan "$examples/web.json" Web:run)" = "$plan" ] || fail "the unpacked program prints another plan"
    [ "$("$1/bin/metis" plan "$examples/web.json" Web:run | "$1/bin/metis" show | tail -1)" = '   5  Web#0: off -> run' ] || fail "the unpacked show shows another plan"
    [ "$(echo 'a: off > on' | "$1/bin/metis" sketch | "$1/bin/metis" plan - a:on | sed -n 2p)" = 'instances 1 actions 2 dups 0' ] || fail "the unpacked sketch makes another universe"
    "$1/bin/metis" --version | grep -qx "metis $version" || fail "the unpacked command has another version"
    [ -f "$examples/shop/shop.json" ] || fail "an example is not there"
}

command -v dpkg-deb >/dev/null || fail "dpkg-deb is not there: this wants Debian's tools"
check_tree
check_program
umask 022
mkdir -p "$made" "$work/tried"
files=$(make_archive && make_deb)
(cd "$made" && sha256sum $files >"metis-$version.sha256")
printf '%s\n' $files "metis-$version.sha256" | sed "s|^|$made/|"
