#!/bin/sh
# Times a command on a document of small mixed values and on one of large blobs, with the peak of memory.
# usage: bench/binary.sh PROGRAM [MEGABYTES [WORDS..]], where PROGRAM is a built ion_cmd. The words stand before the
# document's name: `check`, if there are none; `convert --to binary`, `convert --to text`.
set -eu
program=$1
megabytes=${2:-100}
[ $# -lt 2 ] || shift
shift
[ $# -gt 0 ] || set -- check
folder=$(mktemp -d)
trap 'rm -r "$folder"' EXIT
python3 "$(dirname "$0")/documents.py" "$folder" "$megabytes"
for name in mixed blobs; do
    python3 - "$folder/$name.10n" "$program" "$@" <<'TIMES'
import os, resource, subprocess, sys, time
document, *words = sys.argv[1:]
began = time.monotonic()
subprocess.run([*words, document], stdout=subprocess.DEVNULL, check=True)
seconds = time.monotonic() - began
used = resource.getrusage(resource.RUSAGE_CHILDREN)
size = os.path.getsize(document) / 1e6
print(f"{os.path.basename(document)}: {size:.0f} MB in {seconds:.2f} s, {size / seconds:.0f} MB/s, "
      f"{size / (used.ru_utime + used.ru_stime):.0f} MB per second of processor time, peak at most {used.ru_maxrss / 1024:.1f} MiB")
TIMES
done
