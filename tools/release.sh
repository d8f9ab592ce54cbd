#!/bin/sh
# Makes what needs no toolchain to be installed: release.sh GATE|--gate [FOLDER], by default into dist/. FOLDER gets
#   pureefjord-VERSION-linux-x86_64.tar.gz        a prefix: program, scripts, pages, libraries, header, hints, examples
#   pureefjord_VERSION_amd64.deb                  the same for Debian
#   pureefjord-VERSION-py3-none-manylinux_*.whl   the Python package
#   pureefjord-VERSION-rust.tar.gz                a folder for Cargo, with the object for the same machines
#   PROOF.txt, SHA256SUMS                         what was proved, and how to make the same again; checksums
# GATE is what .ci/run printed for this commit, as by `.ci/run > ../gate.txt`; --gate runs it now. Without the last line of a gate that
# passed, or with files that the commit doesn't have, nothing is made. Program and archive are built twice by `rt`, which builds
# nothing but what is proved. Whoever hands in a GATE answers for it that it is this commit's; a file older than that is refused.
#
# release.sh --unproved PROGRAM FOLDER packs some program and what lies in crates/ion_c/out, for trying the packages. It names
# everything +unproved and writes no PROOF.txt.
set -eu
usage() { echo 'usage: release.sh GATE|--gate [FOLDER] | release.sh --unproved PROGRAM FOLDER' >&2; exit 3; }
fail() { printf 'release.sh: %s\n' "$1" >&2; exit 1; }

top=$(cd "$(dirname "$0")/.." && pwd)
version=$(cat "$top/VERSION")
proved=yes runs=no gate='' folder=$top/dist program=$top/crates/ion_cmd/out/ion_cmd archive=$top/crates/ion_c/out/libion_c.a
case ${1-} in
--unproved) [ $# -eq 3 ] || usage; proved=no program=$(realpath "$2") folder=$3 version=$version+unproved ;;
--gate) [ $# -le 2 ] || usage; runs=yes folder=${2-$folder} ;;
'' | -*) usage ;;
*) [ $# -le 2 ] || usage; gate=$(realpath "$1") folder=${2-$folder} ;;
esac

work=$(mktemp -d)
trap 'rm -rf "$work"' EXIT
commit=$(git -C "$top" rev-parse HEAD)
SOURCE_DATE_EPOCH=$(git -C "$top" show -s --format=%ct HEAD)
export SOURCE_DATE_EPOCH
umask 022

clean() { [ -z "$(git -C "$top" status --porcelain)" ] || fail 'there are files that the commit does not have (git status)'; }

# passed: the gate's last two lines, from its output.
passed() {
    [ -r "$gate" ] || fail "no file $gate; make it by .ci/run > ../gate.txt"
    gate_ok=$(tail -n 2 "$gate" | head -n 1)
    gate_line=$(tail -n 1 "$gate")
    printf '%s\n' "$gate_line" | grep -qx '[1-9][0-9]* passed, 0 failed' || fail "the last line of $gate is: $gate_line"
    case $gate_ok in 'rt: ok; '*) ;; *) fail "$gate doesn't end as a gate that passed: it is no proof" ;; esac
    [ "$(stat -c %Y "$gate")" -ge "$SOURCE_DATE_EPOCH" ] || fail "$gate is older than the commit"
}

# checked: the gate passed, and nothing but the commit is here.
checked() {
    if [ $runs = no ]; then passed; fi
    clean
    if [ $runs = yes ]; then
        gate=$work/gate
        "$top/.ci/run" > "$gate" 2>&1 || true
        passed
    fi
}

# built: builds the program and the archive of what is proved, though they were built before.
built() {
    rm -f "$program" "$program.stamp"
    (cd "$top/crates/ion_cmd" && rt run -- check ../../examples/short.10n) > "$work/log" 2>&1 || { cat "$work/log"; fail 'the program is not built'; }
    rm -f "$archive"
    (cd "$top/crates/ion_c" && rt lib) > "$work/log" 2>&1 || { cat "$work/log"; fail 'the archive is not built'; }
}

# sums: the checksums of the program and the archive.
sums() { (cd "$top" && sha256sum "$program" "$archive" | sed "s|$top/||"); }

# proof: what is proved, and how the same is made again.
proof() {
    cat << END
Pureefjord $version: what was proved, and how to make the same again

Commit:        $commit
Toolchain:     $(rt version)
Gate:          $gate_line
               ${gate_ok#rt: }
Shared object: linked by $("${CC:-cc}" --version | head -n 1)

The prover accepted every crate of this commit, and \`rt\` builds what it accepted and nothing else.
What that says, and what it doesn't: docs/PROVED.md. Scripts, bindings and packages are tested, not proved.

What \`rt\` built, by SHA-256:
$(sed 's/^/    /' "$work/first")
Built a second time: $twice.

The same again, with that toolchain and that C compiler, in a clone of the repository:
    git checkout $commit
    tools/release.sh --gate
    cat dist/SHA256SUMS
The packages hold no time but that of the commit.
END
}

# tree PREFIX: the files of the tarball and of the Debian package.
tree() {
    "$top/tools/install.sh" "$1" "$program" > /dev/null
    cp -R "$work/bindings/include" "$work/bindings/lib" "$1"
    about=$1/share/doc/pureefjord
    mkdir -p "$about/docs" "$about/bindings/c" "$about/bench"
    cp "$top/bench/README.md" "$about/bench"
    cp "$top/README.md" "$top/CHANGELOG.md" "$top/VERSION" "$about"
    cp "$top"/docs/*.md "$about/docs"
    cp -R "$top/docs/proved" "$about/docs"
    python3 "$top/tests/api.py" --all "$about/docs/API_ALL.md"
    cp -R "$top/examples" "$about"
    cp "$top"/bindings/c/*.c "$about/bindings/c"
    echo 'Licence: none chosen yet.' > "$about/copyright"
    if [ "$proved" = yes ]; then cp "$work/out/PROOF.txt" "$about"; fi
}

# packed FILE FOLDER: a tarball of a folder beside it, whose octets go by its files alone.
packed() {
    tar -C "$work" --sort=name --owner=0 --group=0 --numeric-owner --mtime="@$SOURCE_DATE_EPOCH" --mode=go-w -cf - "$2" |
        gzip -9 -n > "$work/out/$1"
}

debian() {
    tree "$work/deb/usr"
    mkdir "$work/deb/DEBIAN"
    wanted=$(grep -ao 'GLIBC_2\.[0-9]*' "$program" "$work/bindings/lib/libpureefjord.so" | sed 's/.*GLIBC_//' | sort -V | tail -n 1)
    cat > "$work/deb/DEBIAN/control" << END
Package: pureefjord
Version: $version
Architecture: amd64
Depends: libc6 (>= $wanted)
Recommends: python3
Suggests: git
Section: utils
Priority: optional
Maintainer: Pureefjord
Description: check, convert and compare Amazon Ion documents, by proved code
 The command ion_cmd, its scripts, and the library pureefjord for C.
END
    dpkg-deb --root-owner-group -Zxz --build "$work/deb" "$work/out/pureefjord_${version}_amd64.deb" > /dev/null
}

# packages: all of them, into an empty folder out.
packages() {
    rm -rf "$work/out" "$work/deb" "$work/bindings" "$work/pureefjord-"*
    mkdir "$work/out"
    [ "$proved" = no ] || proof > "$work/out/PROOF.txt"
    PROVED=1 PUREEFJORD_VERSION=$version "$top/bindings/build.sh" "$work/bindings"
    name=pureefjord-$version-linux-x86_64
    tree "$work/$name"
    packed "$name.tar.gz" "$name"
    debian
    cp "$work/bindings"/pureefjord-*.whl "$work/out"
    mv "$work/bindings/rust" "$work/pureefjord-rust"
    packed "pureefjord-$version-rust.tar.gz" pureefjord-rust
    (cd "$work/out" && sha256sum -- * > ../SHA256SUMS && mv ../SHA256SUMS .)
}

mkdir -p "$folder"
folder=$(cd "$folder" && pwd)
[ -z "$(ls "$folder")" ] || [ -e "$folder/SHA256SUMS" ] || fail "$folder has other files"
[ "$proved" = yes ] || [ "$folder" != "$top/dist" ] || fail 'what is not proved goes to another folder than dist'
twice=''
if [ "$proved" = yes ]; then
    checked
    built
    sums > "$work/first"
    built
    sums > "$work/second"
    if cmp -s "$work/first" "$work/second"; then twice='the same octets'; else twice='other octets, which one should look into'; fi
fi
[ -x "$program" ] && [ -r "$archive" ] || fail "no $program, or no $archive"
packages
cp "$work/out/SHA256SUMS" "$work/before"
packages
cmp -s "$work/out/SHA256SUMS" "$work/before" || fail 'packed twice, the packages differ'
(cd "$folder" && rm -f -- pureefjord[-_]* PROOF.txt SHA256SUMS)
cp "$work/out"/* "$folder"
cat "$folder/SHA256SUMS"
