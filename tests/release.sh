#!/bin/sh
# Installs a release where no toolchain is, and uses it: tests/release.sh [FOLDER], by default dist. Each package goes into a
# prefix or a root of its own, and the lines of README.md, docs/BINDINGS.md and examples/ci.yml are run from there.
# What isn't installed is left out and named: pip, cargo, cmake, pkg-config, curl. It ends with a line `N passed, M failed`.
set -u
top=$(cd "$(dirname "$0")/.." && pwd)
dist=$(cd "${1:-$top/dist}" 2> /dev/null && pwd) || { echo 'release.sh: no such folder; make it by tools/release.sh'; exit 4; }
folder=$(mktemp -d)
trap 'rm -rf "$folder"' EXIT
# A path without the toolchain; cargo's folder comes last where that has none.
cargo=$(dirname "$(command -v cargo || echo /usr/bin/cargo)")
PATH=/usr/bin:/bin
[ -e "$cargo/rt" ] || PATH=$PATH:$cargo
CARGO_HOME=${CARGO_HOME:-$HOME/.cargo} RUSTUP_HOME=${RUSTUP_HOME:-$HOME/.rustup}
export PATH CARGO_HOME RUSTUP_HOME
passed=0
failed=0

# is NAME FOUND WANTED
is() {
    if [ "$2" = "$3" ]; then
        passed=$((passed + 1))
    else
        failed=$((failed + 1))
        printf '%s:\n  %s\nis not\n  %s\n' "$1" "$2" "$3"
    fi
}

# well NAME COMMAND..: that it ends with 0; else what it told is shown.
well() {
    name=$1
    shift
    "$@" > "$folder/told" 2>&1 < /dev/null # (not as a condition, where `set -e` of a function means nothing)
    ended=$?
    if [ $ended = 0 ]; then
        passed=$((passed + 1))
    else
        failed=$((failed + 1))
        printf '%s: status %s\n' "$name" "$ended"
        sed 's/^/    /' "$folder/told"
    fi
}

left_out() { echo "left out: $1"; }
has() { command -v "$1" > /dev/null 2>&1; }

whole() {
    is 'no toolchain' "$(command -v rt)" ''
    well 'checksums' sh -c 'cd "$1" && sha256sum --quiet -c SHA256SUMS' - "$dist"
    is 'files without a checksum' "$(ls "$dist" | while read -r file; do grep -qF "  $file" "$dist/SHA256SUMS" || echo "$file"; done)" SHA256SUMS
    set -- "$dist"/pureefjord-*-linux-x86_64.tar.gz
    [ -f "$1" ] || { echo "release.sh: no release in $dist"; exit 4; }
    version=${1##*/pureefjord-}
    version=${version%-linux-x86_64.tar.gz}
    case $version in
    *+unproved) is 'no proof of what is not proved' "$(ls "$dist" | grep -c PROOF)" 0 ;;
    *) well 'a proof' grep -q '^Gate: *[1-9][0-9]* passed, 0 failed$' "$dist/PROOF.txt" ;;
    esac
}

# What release.sh makes nothing of.
refusals() {
    printf 'rt: ok; handles allowed: none\n9 passed, 1 failed\n' > "$folder/failed"
    printf '9 passed, 0 failed\n' > "$folder/bare"
    printf '9 passed, 0 failed (ion and the crates below alone: not the gate)\n' > "$folder/part"
    for gate in failed bare part absent; do
        "$top/tools/release.sh" "$folder/$gate" "$folder/none" > "$folder/told" 2>&1
        is "a gate that is none: $gate" "$? $(grep -c "$folder/$gate" "$folder/told") $(ls "$folder/none" 2> /dev/null)" '1 1 '
    done
    mkdir "$folder/other"
    echo mine > "$folder/other/file"
    "$top/tools/release.sh" --unproved /bin/true "$folder/other" > /dev/null 2>&1
    is 'a folder with other files' "$? $(ls "$folder/other")" '1 file'
}

# lines_of FILE HEADING: the command lines under a heading, with this release's version.
lines_of() { awk -v heading="$2" '/^#/ { on = $0 == heading; next } on && /^    / { sub(/^    /, ""); print }' "$1" | sed "s/0\.1\.0/$version/g"; }

# broken_links FOLDER: the links between pages that lead nowhere.
broken_links() {
    find "$1" -name '*.md' | while read -r page; do
        sed 's/`[^`]*`//g' "$page" | grep -o ']([^)#: ]*[)#]' | sed 's/^](//; s/[)#]$//' | while read -r link; do
            [ -z "$link" ] || [ -e "${page%/*}/$link" ] || echo "${page##*/}: $link"
        done
    done
}

# The tarball as the README says, in a home of its own; then all that the README has, from there.
tarball() {
    began=$(date +%s%N)
    export HOME="$folder/home"
    mkdir "$HOME"
    lines_of "$top/README.md" '### From a release (none is published yet)' | grep -v -e '\.deb' -e '\.whl' > "$folder/install"
    well 'the lines that install' bash -ec "cd '$dist'; $(cat "$folder/install"); ion_cmd --help || [ \$? = 3 ]; man -w ion_cmd"
    prefix=$HOME/.local
    printf '{"a": 1}\n{"a": 2}\n{"a": ,}\n' > "$folder/broken.json"
    is 'the place of a broken line' "$(PATH="$prefix/bin:$PATH" ion_where "$folder/broken.json" 2>&1 | sed -n '1s/.*broken.json:\([0-9:]*\).*/\1/p')" '3:7:'
    is 'small files go by the library' "$("$prefix/bin/pureefjord" --version)" "pureefjord ${version%+unproved}, with $prefix/lib/libpureefjord.so"
    echo "to the place of a broken line: $((($(date +%s%N) - began) / 1000000)) ms"
    well 'the lines of the README' python3 "$top/tests/readme.py" "$prefix/bin/ion_cmd" "$prefix"
    tail -n 1 "$folder/told"
    is 'links of the pages' "$(broken_links "$prefix/share/doc/pureefjord")" ''
    is 'nothing points out of the prefix' "$(find "$prefix" -type l -lname '/*'; grep -rlF "$top" "$prefix" | head -n 3)" ''
}

debian() {
    root=$folder/root
    mkdir -p "$root/var/lib/dpkg/updates" "$root/var/lib/dpkg/info"
    : > "$root/var/lib/dpkg/status"
    dpkg_here() { PATH=$PATH:/usr/sbin:/sbin dpkg --root="$root" --force-not-root --force-depends --log=/dev/null "$@"; }
    well 'the Debian package' dpkg_here -i "$dist/pureefjord_${version}_amd64.deb"
    tree() { (cd "$1" && find . -type f ! -name pureefjord.list ! -name pureefjord.md5sums | LC_ALL=C sort | xargs sha256sum); }
    is 'the same files as in the tarball' "$(tree "$root/usr")" "$(tree "$prefix" | sed "s|  \./\.local/|  ./|")"
    well 'the README from there' python3 "$top/tests/readme.py" "$root/usr/bin/ion_cmd" "$root/usr"
    well 'the C example from there' in_c "$root/usr"
    well 'removed' dpkg_here --purge pureefjord
    is 'nothing is left' "$(find "$root/usr" -type f 2> /dev/null)" ''
}

# in_c PREFIX: the lines of docs/BINDINGS.md for C, over what was installed there; each has to say that its documents are equivalent. And the
# example of a cursor over values.
in_c() (
    set -e
    rm -rf "$folder/c"
    cp -R "$1/share/doc/pureefjord" "$folder/c"
    cd "$folder/c"
    awk '/^## Link it/ { on = 1; next } /^## / { on = 0 } on && /^    / { sub(/^    /, ""); print }' docs/BINDINGS.md |
        grep -v -e python -e venv -e cargo -e main.rs | sed "s|^P=.*|P='$1'|" > lines
    [ "$(bash -e lines | sort | uniq -c | tr -s ' ')" = ' 3 equivalent 1' ]
    PKG_CONFIG_PATH="$1/lib/pkgconfig" pkg-config --exact-version="${version}" pureefjord
    cc -I"$1/include" bindings/c/sum.c "$1/lib/libpureefjord.a" -o sum
    [ "$(./sum id examples/order.json)" = '7 in 1 records' ]
)

cmake_targets() (
    set -e
    mkdir "$folder/cmake"
    cd "$folder/cmake"
    cat > CMakeLists.txt << END
cmake_minimum_required(VERSION 3.16)
project(user C)
find_package(pureefjord 0.1 REQUIRED)
add_executable(static $prefix/share/doc/pureefjord/bindings/c/example.c)
target_link_libraries(static pureefjord::static)
add_executable(shared $prefix/share/doc/pureefjord/bindings/c/example.c)
target_link_libraries(shared pureefjord::shared)
END
    cmake -S . -B build -DCMAKE_PREFIX_PATH="$prefix" && cmake --build build
    cd "$prefix/share/doc/pureefjord/examples"
    for kind in static shared; do [ "$("$folder/cmake/build/$kind" short.10n short.ion)" = 'equivalent 1' ]; done
)

libraries() {
    if has pkg-config; then well 'C' in_c "$prefix"; else left_out 'C by pkg-config'; fi
    if has cmake; then well 'CMake' cmake_targets; else left_out CMake; fi
}

wheel() {
    set -- "$dist"/pureefjord-*.whl
    if ! python3 -m venv "$folder/venv" > /dev/null 2>&1; then
        left_out 'the wheel (no venv with pip)'
        return
    fi
    export PIP_DISABLE_PIP_VERSION_CHECK=1 PIP_NO_INDEX=1
    well 'the wheel' "$folder/venv/bin/pip" install -q "$1"
    well 'what pip asks of a package' "$folder/venv/bin/pip" check
    "$folder/venv/bin/pip" install -q --platform macosx_11_0_arm64 --only-binary=:all: --target "$folder/mac" "$1" > /dev/null 2>&1
    is 'no wheel for another system' "$?" 1
    cat > "$folder/test_writer.py" << 'END'
import pureefjord


def test_same():
    pureefjord.assert_same_ion(b"{a: 1, b: 2}", b"{b: 2, a: 1}")


def test_differs():
    try:
        pureefjord.assert_same_ion(b"{a: 1}", b"{a: 2}")
    except AssertionError as it:
        assert "@@ 1 a @@" in str(it)
    else:
        raise AssertionError("they differ")


def test_values():
    assert pureefjord.loads("{a: [1]}") == {"a": [1]}


if __name__ == "__main__":
    test_same()
    test_differs()
    test_values()
END
    well 'a Python test' "$folder/venv/bin/python" "$folder/test_writer.py"
    well 'removed by pip' "$folder/venv/bin/pip" uninstall -q -y pureefjord
}

rust() {
    if ! has cargo; then
        left_out 'the crate for Cargo'
        return
    fi
    mkdir -p "$folder/user/src"
    tar -xzf "$dist/pureefjord-$version-rust.tar.gz" -C "$folder/user"
    cat > "$folder/user/Cargo.toml" << 'END'
[package]
name = "user"
version = "0.1.0"
edition = "2024"

[dependencies]
pureefjord = { path = "pureefjord-rust" }
END
    cat > "$folder/user/src/main.rs" << 'END'
use pureefjord::{Options, Verdict, compare, from_slice};

fn main() {
    let verdict = compare(b"{a: 1}", b"{a: 2}", &Options::default());
    assert_eq!(verdict, Ok(Verdict::Different { index: 1, path: "a".to_string() }));
    assert_eq!(from_slice(b"{a: 1}", &Options::default()).unwrap()[0].to_string(), "{a:1}");
}
END
    well 'a program by Cargo' sh -c 'cd "$1" && cargo run -q --offline' - "$folder/user"
}

# The steps of examples/ci.yml, in a repository with a whole document and then with a broken one.
ci() {
    if ! has curl; then
        left_out 'the lines of CI (no curl)'
        return
    fi
    mkdir -p "$folder/repository/tests/expected" "$folder/repository/tests/actual"
    cp "$top/examples/short.ion" "$folder/repository/tests/expected/a.ion"
    cp "$top/examples/short.10n" "$folder/repository/tests/actual/a.10n"
    cp "$top/examples/short.ion" "$folder/repository/tests/actual/a.ion"
    rm "$folder/repository/tests/actual/a.10n"
    python3 - "$top/examples/ci.yml" > "$folder/steps" << 'END'
import re
import sys
text = open(sys.argv[1], encoding="utf-8").read()
print("set -e")
for block, line in re.findall(r"^ +(?:- )?run: (?:\|\n((?: {10}.*\n)+)|(.*)\n)", text, re.MULTILINE):
    print("(" + (re.sub(r"^ {10}", "", block, flags=re.MULTILINE) or line) + "\n)")
    print('PATH="$PATH:$(tr "\\n" : < "$GITHUB_PATH")"')
END
    sum=$(sha256sum < "$dist/pureefjord-$version-linux-x86_64.tar.gz" | cut -d ' ' -f 1)
    steps() (
        cd "$folder/repository" && rm -f "$folder/github_path" &&
            GITHUB_PATH="$folder/github_path" RELEASES="file://$dist" VERSION="$version" SHA256="$sum" RUNNER_TEMP="$folder/runner" bash "$folder/steps"
    )
    mkdir "$folder/runner"
    well 'the steps of CI' steps
    cp "$top/examples/cut.10n" "$folder/repository/broken.10n"
    is 'CI tells what is broken' "$(steps 2>&1 | grep -c '^::error file=./broken.10n,title=Incomplete')" 1
    steps > /dev/null 2>&1
    is 'and fails' "$([ $? -ne 0 ] && echo fails)" fails
    rm "$folder/repository/broken.10n" "$folder/repository/tests/actual"/*
    steps > /dev/null 2>&1
    is 'CI fails where a test wrote nothing' "$([ $? -ne 0 ] && echo fails)" fails
}

whole
refusals
tarball
libraries
debian
wheel
rust
ci
echo "$passed passed, $failed failed"
[ "$failed" = 0 ]
