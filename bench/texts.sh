#!/bin/sh
# Times a program on text documents: records, the same records indented, and long texts, with the peak of memory
# (the Python that starts it has some 14 MiB). The document is its standard input.
# usage: bench/texts.sh PROGRAM [MEGABYTES [WORDS..]]: crates/ion_cmd/out/ion_cmd 100 check -, or 100 convert - --to binary
set -eu
program=$1
megabytes=${2:-100}
[ $# -lt 2 ] || shift
shift
folder=$(mktemp -d)
trap 'rm -r "$folder"' EXIT
python3 "$(dirname "$0")/texts.py" "$folder" "$megabytes"
for name in records pretty texts; do
    python3 - "$folder/$name.ion" "$program" "$@" <<'TIMES'
import os, resource, subprocess, sys
document, *words = sys.argv[1:]
with open(document, "rb") as text:
    subprocess.run(words, stdin=text, stdout=subprocess.DEVNULL, check=True)
used = resource.getrusage(resource.RUSAGE_CHILDREN)
size = os.path.getsize(document) / 1e6
seconds = used.ru_utime + used.ru_stime
print(f"{os.path.basename(document)}: {size:.0f} MB, {size / seconds:.0f} MB per second of processor time, "
      f"peak at most {used.ru_maxrss / 1024:.1f} MiB")
TIMES
done
