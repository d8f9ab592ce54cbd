#!/bin/sh
# vendor.sh DEST [CRATE..]: copies library crates and all that they stand on into DEST/crates, without tests, wrong bodies
# and what was built, and prints their lines for DEST/crates.txt. Without a CRATE it copies ion, and so
# all that it gives. A crate that is there already is left alone, with status 1.
set -eu
top=$(cd "$(dirname "$0")/.." && pwd)
[ $# -ge 1 ] || { echo 'usage: vendor.sh DEST [CRATE..]' >&2; exit 3; }
dest=$1
shift
[ $# -ge 1 ] || set -- ion

# below CRATE..: these crates and those of this repository that they stand on, the lowest first.
below() {
    awk -v wanted="$*" '
        { sub(/#.*/, ""); split($0, half, ":"); split(half[1], name, " "); uses[name[1]] = half[2] }
        function visit(crate, parts, count, i) {
            if (crate in seen || !(crate in uses)) return
            seen[crate] = 1
            count = split(uses[crate], parts, " ")
            for (i = 1; i <= count; i++) visit(parts[i])
            print crate
        }
        END { count = split(wanted, crates, " "); for (k = 1; k <= count; k++) visit(crates[k]) }
    ' "$top/crates.txt"
}

status=0
for crate in $(below "$@"); do
    if [ -e "$dest/crates/$crate" ]; then
        echo "vendor.sh: $dest/crates/$crate is there already" >&2
        status=1
        continue
    fi
    mkdir -p "$dest/crates/$crate"
    for part in src specs proofs; do
        [ ! -d "$top/crates/$crate/$part" ] || cp -R "$top/crates/$crate/$part" "$dest/crates/$crate/$part"
    done
    grep "^$crate[: ]" "$top/crates.txt"
done
exit $status
