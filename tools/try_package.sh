#!/bin/bash
# Installs the package in a clean root of Debian 12, and has it plan, import a package, lint a project, look over a sketch, explain an
# error and show a plan there;
# then removes it, and looks that nothing is left.
#
#     tools/try_package.sh DEB [ROOT]
#
# It wants root, debootstrap and Debian's packages. A root that is there already is taken as it is, and kept. The gate does not
# run this. The last line is `the package is good`.
set -euo pipefail

deb=${1:?a package, as tools/package.sh makes it}
root=${2:-}
if [ -z "$root" ]; then
    root=$(mktemp -d)
    trap 'rm -rf "$root"' EXIT
fi
[ -e "$root/usr" ] || debootstrap --variant=minbase --include=python3 bookworm "$root" >/dev/null
cp "$deb" "$root/root/metis.deb"
cat >"$root/root/try.sh" <<'TRY'
set -euo pipefail
apt-get update -qq
apt-get install -qq -y /root/metis.deb >/dev/null
dpkg -V metis-planner
examples=/usr/share/doc/metis-planner/examples
cd "$(mktemp -d)"
[ "$(metis plan $examples/web.json Web:run | metis show | tail -1)" = '   5  Web#0: off -> run' ]
metis import debian redis-server >redis.json
metis plan redis.json port:redis-server >plan.txt
grep -q ' new 0 redis-server$' plan.txt
metis replay redis.json plan.txt port:redis-server | grep '^good standing '
metis show plan.txt | tail -1
echo 'web: off > run(-sql)' >web.sketch
[ "$(metis check web.sketch || true)" = 'web.sketch:1:16: web:run requires sql, and nobody provides it' ]
printf 'services:\n  web:\n    image: nginx\n    depends_on: [api]\n  api:\n    image: api\n    depends_on: [web]\n' >compose.yaml
apt-get install -qq -y python3-yaml >/dev/null
[ "$(metis lint compose compose.yaml || true)" = 'compose.yaml:7: these wait for one another in a circle: api for web/started, web for api/started' ]
# An error is explained, and standard output and the status are the program's.
[ "$(metis plan $examples/web.json Web:rnu 2>said || echo $?)" = "$(printf 'bad word 3\n2')" ]
[ "$(cat said)" = 'metis: no target Web:rnu: Web has off, run; did you mean Web:run?' ]
metis help | grep -q '^  plan '
metis version | grep -q '^commit '
# Without Python the planner still plans, and the other words say what is wanted.
mkdir empty
ln -s /bin/sh /usr/bin/readlink empty
[ "$(PATH=$PWD/empty /usr/bin/metis sketch 2>&1 || true)" = "metis: 'sketch' needs Python 3.11 or later, which is not there; the words of the program do without" ]
[ "$(PATH=$PWD/empty /usr/bin/metis plan $examples/web.json Web:run | wc -l)" -eq 8 ]
dpkg -P metis-planner >/dev/null
for left in /usr/lib/metis-planner /usr/share/doc/metis-planner /usr/bin/metis /usr/share/man/man1/metis.1.gz; do
    [ ! -e "$left" ]
done
echo 'the package is good'
TRY
chroot "$root" bash /root/try.sh
