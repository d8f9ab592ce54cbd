#!/bin/sh
# install.sh PREFIX [PROGRAM]: copies the built program (usually crates/ion_cmd/out/ion_cmd) to PREFIX/bin, with the scripts of
# this folder, the manual pages and the completions for bash and zsh to PREFIX/share. It says what to add to PATH where
# PREFIX/bin isn't on it; it needs no rights but those to write there, and changes nothing else.
# install.sh --remove PREFIX: takes away those files again, and the folders of its own that are empty then.
# DESTDIR, where it is set, stands before PREFIX in each name, as packagers expect.
set -eu
remove=
case $#:${1-} in
2:--remove) remove=1; shift ;;
1:--remove | 0:* | [!12]:* | ??*:*) echo 'usage: install.sh PREFIX [PROGRAM], or install.sh --remove PREFIX' >&2; exit 3 ;;
esac
tools=$(cd "$(dirname "$0")" && pwd)
prefix=$1 program=${2-$tools/../crates/ion_cmd/out/ion_cmd}
case $prefix in /*) ;; *) prefix=$PWD/$prefix ;; esac
case $program in /*) ;; *) program=$PWD/$program ;; esac
place=${DESTDIR-}$prefix
if [ -z "$remove" ] && { ! [ -x "$program" ] || [ -d "$program" ]; }; then
    printf 'install.sh: no program %s; build it first (README.md, "Install")\n' "$program" >&2
    exit 4
fi
# put MODE FOLDER FILE [NAME]
put() {
    if [ -n "$remove" ]; then
        rm -f "$place/$2/${4-${3##*/}}"
        return
    fi
    mkdir -p "$place/$2"
    install -m "$1" "$3" "$place/$2/${4-${3##*/}}"
}
put 755 bin "$program" ion_cmd
for script in pureefjord ion_where ion_check_all ion_compare_trees ion_conformance ion_at ion_to ion_pretty ion_json \
    ion_textconv ion_merge ion_floats_to_decimals check_list compare_list; do
    put 755 bin "$tools/$script"
done
for module in "$tools"/*.py; do put 644 share/pureefjord "$module"; done
put 644 share/pureefjord "$tools/../VERSION"
for command in ion_cmd pureefjord; do
    put 644 share/man/man1 "$tools/../docs/$command.1"
    put 644 share/bash-completion/completions "$tools/completion/$command.bash" "$command"
    put 644 share/zsh/site-functions "$tools/completion/_$command"
done
if [ -n "$remove" ]; then
    rm -rf "$place/share/pureefjord/__pycache__"
    [ ! -d "$place/share/pureefjord" ] || rmdir "$place/share/pureefjord"
    printf 'removed from %s: bin/ion_cmd, its scripts, the manual pages and the completions\n' "$place"
    exit
fi
printf 'installed in %s: bin/ion_cmd, its scripts, the manual pages and the completions\n' "$place"
case :$PATH: in
*:"$prefix/bin":*) ;;
*) printf 'add it to PATH: export PATH="%s/bin:$PATH"\n' "$prefix" ;;
esac
