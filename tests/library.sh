#!/bin/bash
# Runs pureefjord with the library and without it, over the same documents: both have to say the same: tests/library.sh PROGRAM
# [LIBRARY]. The library is that of bindings/build.sh, if none is named; without one this is left out. tests/door.sh runs it, too.
set -u
. "$(dirname "$0")/rows.sh"
library=${2:-$top/bindings/out/lib/libpureefjord.so}
[ -e "$library" ] || { echo "left out: the library (no $library)"; echo '0 passed, 0 failed'; exit; }
library=$(realpath "$library")

# counting: a program that notes each start of it in `starts`, and is ION_CMD.
counting() {
    printf '#!/bin/sh\necho start >> "%s/starts"\nexec "%s" "$@"\n' "$folder/work" "$program" > counted; chmod +x counted
    ION_CMD=./counted; export ION_CMD
}

# same NAME WORDS..: both ways of a run say the same, with the same status.
same() {
    name=$1; shift
    run pureefjord "$@"; without="$status $out"
    out=$(PUREEFJORD_LIBRARY=$library pureefjord "$@" 2>&1 < /dev/null); status=$?
    is "$name, by the library as by the program" "$status $out" "$without"
}

# Documents of every answer: those of examples/, texts that were broken at random and back as binary, one of a megabyte and more,
# an empty one, a packed one, a link to nothing.
documents() {
    clean
    mkdir old
    python3 - <<'PYTHON'
import random
random.seed(5)
TEXTS = [b'{"a":1,"b":[1,2,{"c":null}],"d":"x"}\n', b"[x::y::1, (a + b :: c), {a:b, 'q r':\"s\", t:'''u''' '''v'''}] 1.50 -0. 2007-01-01T\n",
         b'$ion_symbol_table::{symbols:["p","q"]} $10 $11 {{aGk=}} {{"clob"}} null.int\n', b'{"id":1}\n{"id":2}\n{"id":3}\n', b"[[[[1]]]] 170141183460469231731687303715884105727\n"]
for number in range(400):
    text = bytearray(random.choice(TEXTS))
    for _ in range(random.choice([0, 0, 1, 1, 2])):
        at = random.randrange(len(text))
        text[at : at + random.randrange(3)] = bytes([random.choice(b'{}[](),:"\' \n/ab01;+-#\\\x01\xc3\xa9$e')])
    open(f"old/{number}.ion", "wb").write(text)
open("old/great.ion", "wb").write(b"[1,2,3]\n" * 150000 + b"[1,,2]\n{}\n")
PYTHON
    cp "$top"/examples/*.* old; rm -f old/*.yml old/*.yaml old/*.sh; : > old/empty.ion; gzip -k old/1.ion; ln -s nothing old/link.ion; mkfifo old/pipe.ion
    for number in $(seq 0 40); do ion_cmd convert old/$number.ion --to binary > old/b$number.10n 2> /dev/null; done
    printf '\340\001\000\352\041\005\060\041\006' > old/malformed.10n
    cp -r old new; rm new/12.ion; rm new/pipe.ion
    for number in 3 30 200; do echo '{a:[1,2,"other"]} 7' >> new/$number.ion; done; find new -type f -name '*.ion' -exec sed -i 's/1,2/2,1/' {} +; sed '140000s/3/4/' new/great.ion > new/g; mv new/g new/great.ion
}

answers() {
    documents
    run pureefjord check old; is 'documents of every answer' "$(printf '%s\n' "$out" | grep -o -e ': accepted' -e ': [A-Z][A-Za-z0-9]*: ' -e ': fault [A-Z][a-z]*' | sort -u | wc -l)" 12
    same check check old
    same 'check -q' check -q old
    same 'check, limits' check --depth 2 --item 30 old
    same 'check, a catalog' check --catalog "$top/examples/tables.ion" old
    same 'check --floats' check --floats old
    same 'check --jobs' check --jobs 1 --most 2 old
    same 'check, names' check old/1.ion old/absent old/2.ion old/3.ion old/b1.10n old/great.ion old/1.ion old/7.ion old/8.ion
    for form in json github sarif junit; do same "check --format $form" check --format $form old; done
    same diff diff old new
    same 'diff, what is left out' diff --ignore a --numbers --unordered b old new
    same 'diff -q' diff -q old new
    same 'diff, JSON' diff --format json old new
    same 'diff, limits' diff --depth 2 --item 30 old new
    same 'diff, a catalog' diff --catalog "$top/examples/tables.ion" old new
    same 'diff --floats' diff --floats old new
    same 'diff, a page' diff -q --html page.html old new; mv page.html page.2.html
    run pureefjord diff -q --html page.html old new; is 'diff, the same page' "$(cmp page.html page.2.html)" ''
    same 'a catalog that is refused' check --catalog old/malformed.10n old
}

# Where the library is taken, and that no program is started then.
takes() {
    clean
    mkdir many; for number in $(seq 1 100); do echo "{a:$number}" > many/$number.ion; done; cp -r many other; echo 7 > other/50.ion
    "$top/tools/install.sh" prefix "$program" > /dev/null; mkdir prefix/lib; cp "$library" prefix/lib
    counting
    PUREEFJORD_LIBRARY=$library; export PUREEFJORD_LIBRARY
    : > starts; run pureefjord check many; ends 'check by the library' 0 '100 documents: 100 accepted, 0 refused (0 places)'; is 'check starts no program' "$(cat starts)" ''
    : > starts; run pureefjord diff -q many other; ends 'diff by the library' 1 '100 documents: 99 equivalent, 1 different, 0 refused'; is 'diff starts no program' "$(cat starts)" ''
    : > starts; run pureefjord check many/1.ion many/2.ion; is 'a few are not worth the library' "$(wc -l < starts)" 2
    run pureefjord --version; gives '--version tells of the library' 0 "pureefjord $(cat "$top/VERSION"), with $library"
    run env PUREEFJORD_LIBRARY=./absent pureefjord check many; has 'no such library' 4 './absent: '
    unset PUREEFJORD_LIBRARY
    : > starts; run pureefjord check many; is 'no library beside the scripts' "$(wc -l < starts)" 100
    unset ION_CMD
    run prefix/bin/pureefjord --version; gives 'installed, the library beside the program' 0 "pureefjord $(cat "$top/VERSION"), with $folder/work/prefix/lib/libpureefjord.so"
    ION_CMD=./counted; export ION_CMD; : > starts; run prefix/bin/pureefjord check many; is 'installed, another program' "$status $(wc -l < starts)" '0 100'; unset ION_CMD
    touch prefix/bin/ion_cmd; touch -d '1 hour ago' prefix/lib/libpureefjord.so
    run prefix/bin/pureefjord --version; gives 'installed, a library older than the program' 0 "pureefjord $(cat "$top/VERSION")"
}

# seconds WORDS..: the processor time of pureefjord over them, in tenths; the least of three runs.
seconds() {
    python3 -c '
import os, resource, subprocess, sys
times = []
for _ in range(3):
    before = resource.getrusage(resource.RUSAGE_CHILDREN)
    subprocess.run(sys.argv[1:], stdout=subprocess.DEVNULL, check=True)
    after = resource.getrusage(resource.RUSAGE_CHILDREN)
    times.append(after.ru_utime + after.ru_stime - before.ru_utime - before.ru_stime)
print(min(times))' env PUREEFJORD_LIBRARY="$library" pureefjord "$@"
}

times() {
    clean
    python3 -c '
import os
for number in range(10000):
    os.makedirs(f"many/{number % 100}", exist_ok=True)
    with open(f"many/{number % 100}/{number}.json", "w") as file:
        file.write("{\"id\":%d,\"name\":\"some name\",\"tags\":[\"a\",\"b\"]}\n" % number)'
    check=$(seconds check many) diff=$(seconds diff -q many many)
    echo "10,000 files of a line, processor time: check $check s, diff $diff s"
    is '10,000 files of a line in 1.5 s' "$(awk "BEGIN { print ($check <= 1.5), ($diff <= 2.0) }")" '1 1'
}

answers
takes
times
ended
