#!/bin/sh
# Runs the blocks of docs/MANY_MACHINES.md whose engines are installed (GNU parallel, rsync, Dask, Slurm with a node that is up):
# tests/many_machines.sh PROGRAM. Of some hundred documents one is refused, one is missing and one can't be read; each engine
# has to tell of them and count all as one run of check_list does. Hosts are folders: see `ssh` below.
set -u
top=$(cd "$(dirname "$0")/.." && pwd)
program=$(realpath "$1")
folder=$(mktemp -d)
trap 'rm -rf "$folder"' EXIT
mkdir "$folder/bin" "$folder/work" "$folder/home" "$folder/hosts" "$folder/hosts/hosta" "$folder/hosts/hostb"
ln -s "$program" "$folder/bin/ion_cmd"
HOSTS=$folder/hosts HOME=$folder/home PATH=$folder/bin:$top/tools:$PATH EXAMPLES=$top/examples
export HOSTS HOME PATH EXAMPLES
mkdir -p "$HOME/.parallel" && : > "$HOME/.parallel/will-cite"
cd "$folder/work" || exit 1
failed=0
passed=0

# is NAME FOUND WANTED
is() {
    if [ "$2" = "$3" ]; then
        passed=$((passed + 1))
    else
        failed=$((failed + 1))
        printf '%s:\n  %s\nis not\n  %s\n' "$1" "$2" "$3"
    fi
}

# block HEADING [LINES]: the command lines under a heading of the page, or those of them that the numbers of LINES name.
block() {
    awk -v heading="## $1" '/^## / { inside = ($0 == heading); next } inside && /^    / { print substr($0, 5) }' "$top/docs/MANY_MACHINES.md" | sed -n "${2-p}"
}

# runs NAME HEADING [LINES]: runs them, and keeps what they write in `out`.
runs() {
    block "$2" "${3-p}" > "$folder/commands"
    [ -s "$folder/commands" ] || is "$1: lines on the page" 0 some
    out=$(bash -e -o pipefail "$folder/commands" 2> "$folder/errors" < /dev/null)
    status=$?
}

# A stand-in for ssh: runs the command in the folder of the host, with a bare environment and the program on its PATH.
cat > "$folder/bin/ssh" <<SSH
#!/bin/bash
while :; do case \${1-} in -l | -p | -o | -i | -S) shift 2 ;; -*) shift ;; *) break ;; esac; done
host=\$1; shift; [ "\${1-}" = -- ] && shift
cd "$HOSTS/\$host" || exit 255
exec env -i HOME="$HOSTS/\$host" PATH="$folder/bin:$top/tools:/usr/bin:/bin" USER="\$(id -un)" SHELL=/bin/bash bash -c "\$*"
SSH
chmod +x "$folder/bin/ssh"

# The documents: 237 that are accepted, one refused, one that is missing when it is read, and one that can't be opened.
mkdir data
number=0
while [ $number -lt 237 ]; do
    echo "{id:$number}" | ion_cmd convert - --to binary > "data/a document $number.10n"
    number=$((number + 1))
done
printf '\340\001\000\352\110\077\360\000\000\000\000\000\000' > data/float.10n
: > data/missing.10n
ln -s itself.10n data/itself.10n
first=$(awk '/^    / { print substr($0, 5); exit }' "$top/docs/MANY_MACHINES.md")
bash -c "$first"
rm data/missing.10n
wanted='data/float.10n	2	refused 5 Float
data/itself.10n	4	fault Open
data/missing.10n	4	fault Open
240 documents'

# summed FILE..: what jobs told, in order, and the sum of their counts.
summed() { awk -F '\t' '$1 == "#" { n += $2; next } { print } END { print n " documents" }' "$@" | sort_last; }
sort_last() { LC_ALL=C awk '/ documents$/ { last = $0; next } { print | "LC_ALL=C sort" } END { close("LC_ALL=C sort"); print last }'; }

cat lists/list.* | check_list - > told.once
is 'one run, its status' $? 75
is 'one run' "$(summed told.once)" "$wanted"

runs 'xargs' 'One machine, with xargs' 1p; is 'xargs, its status' "$status" 0
runs 'xargs, summed' 'One machine, with xargs' 2p; is xargs "$(printf '%s\n' "$out" | sort_last)" "$wanted"
is 'xargs, what is tried again' "$(tr '\0' '\n' < again | LC_ALL=C sort)" "$(for list in lists/list.*; do check_list "$list" > /dev/null || echo "$list"; done)"

sed -n "s/^ *command: \[sh, -c, '\(.*\)'\]$/\1/p" "$EXAMPLES/kubernetes_job.yaml" > "$folder/pod"
is 'Kubernetes, its pods' "$(sed -n 's/^  completions: //p' "$EXAMPLES/kubernetes_job.yaml")" "$(ls lists | wc -l)"
for index in $(seq 0 $(($(ls lists | wc -l) - 1))); do JOB_COMPLETION_INDEX=$index sh "$folder/pod"; done > told.pods
is 'Kubernetes, the command of each pod' "$(summed told.pods)" "$wanted"

if command -v parallel > /dev/null; then
    runs 'one machine' 'One machine' 1p; summed told > sum
    is 'one machine: lists that ended with 75' "$status" "$(awk 'FNR > 1 && $7 == 75' joblog | wc -l | tr -d ' ')"
    is 'one machine' "$(cat sum)" "$wanted"
    runs 'one machine, summed' 'One machine' 2p; is 'one machine, summed' "$status $(printf '%s\n' "$out" | sort_last)" "0 $wanted"
    runs 'hosts that share files' 'Several hosts' 1p; is 'hosts that share files' "$(summed told.shared)" "$wanted"
    if command -v rsync > /dev/null; then
        runs 'hosts that share nothing' 'Several hosts' 2,3p; is 'hosts that share nothing' "$(summed told.sent)" "$wanted"
        is 'hosts that share nothing: both had files' "$(for host in hosta hostb; do ls "$HOSTS/$host/data" | awk 'END { print (NR > 0) }'; done | tr '\n' ' ')" '1 1 '
    else
        echo 'left out: hosts that share nothing (no rsync)'
    fi
    awk 'BEGIN { for (i = 0; i < 90000; i++) printf "{id:%d,name:\"name %d\",tags:[a,b,\x27c d\x27]}\n", i, i }' | ion_cmd convert - --to binary > great.10n
    runs 'one great text' 'One great text'; is 'one great text' "$status $out" "0 $(ion_cmd check great.10n)"
    is 'one great text, in parts' "$(parallel --pipepart -a great.ion --block 1M ion_cmd check - | awk 'END { print (NR > 2) }')" 1
    cat great.ion great.ion > joined.ion; ion_cmd convert joined.ion --to binary > joined.10n
    is 'documents one after another, text' "$(ion_cmd check joined.ion)" 'accepted 180000'
    cat great.10n great.10n > twice.10n; is 'documents one after another, binary' "$(ion_cmd compare twice.10n joined.10n)" 'equivalent 180000'
else
    echo 'left out: one machine, several hosts, one great text (no GNU parallel)'
fi

# Of 5,000 documents `split` names the lists list.00 to list.89 and then list.9000 to list.9009: each task has to take its own.
mkdir great && (
    cd great && mkdir data && cp "../data/a document 0.10n" data/0.10n && touch data/missing.10n
    cp ../data/float.10n data && seq 1 4998 | while read -r number; do ln data/0.10n "data/$number.10n"; done
    rm data/0.10n && bash -c "$first" && rm data/missing.10n
    for task in $(seq 0 $(($(ls lists | wc -l) - 1))); do SLURM_ARRAY_TASK_ID=$task sh "$EXAMPLES/slurm_array.sh"; done > told
)
is 'Slurm, 5,000 documents: lists' "$(ls great/lists | wc -l) $(ls great/lists | tail -n 1)" '100 list.9009'
is 'Slurm, 5,000 documents by its script' "$(cd great && summed told)" 'data/float.10n	2	refused 5 Float
data/missing.10n	4	fault Open
5000 documents'

# The scheduler of Dask and two workers, of which one is ended by its id while it has tasks. A task takes them half a second.
dask() {
    mkdir old new dask dask/bin
    number=0
    while [ $number -lt 200 ]; do
        echo "{id:$number}" > "old/a document $number.ion"
        echo "{\"id\":$number}" > "new/a document $number.json"
        number=$((number + 1))
    done
    echo '{id:1}' > "$(printf 'old/an escape \033[1m.ion')"; echo '{id:2}' > "$(printf 'new/an escape \033[1m.json')"
    echo '{id:7}' > 'new/a document 6.json'; echo '[1,,2]' > 'new/a document 150.json'; ln -s itself.ion old/itself.ion; echo 1 > new/itself.ion; echo 1 > old/gone.ion
    printf '#!/bin/sh\necho "$WORKER" >> "%s/dask/told"\nsleep 0.5\nexec "%s/tools/compare_list" "$@"\n' "$PWD" "$top" > dask/bin/compare_list
    chmod +x dask/bin/compare_list
    port=$("$python" -c 'import socket; s = socket.socket(); s.bind(("127.0.0.1", 0)); print(s.getsockname()[1])')
    SCHEDULER=tcp://127.0.0.1:$port
    export SCHEDULER
    "$python" -m distributed.cli.dask_scheduler --host 127.0.0.1 --port "$port" --no-dashboard > dask/scheduler 2>&1 &
    scheduler=$!
    for name in a b; do
        WORKER=$name PATH=$PWD/dask/bin:$PATH "$python" -m distributed.cli.dask_worker "$SCHEDULER" --host 127.0.0.1 --no-nanny --no-dashboard --nthreads 1 --local-directory "$PWD/dask" > "dask/worker.$name" 2>&1 &
        echo $! > "dask/id.$name"
    done
    runs_dask() { block Dask | sed -n 3p | sed "s|^|'$python' |; s| 50\$| 10|" > "$folder/commands"; bash "$folder/commands" > dask/out 2> dask/errors < /dev/null; echo $? > dask/status; }
    runs_dask & client=$!
    until [ "$(grep -c a dask/told 2> /dev/null)" -ge 3 ] 2> /dev/null || [ -e dask/status ]; do sleep 0.1; done
    kill -9 "$(cat dask/id.a)"; grep -c a dask/told > dask/before
    wait "$client"
    kill "$(cat dask/id.b)" "$scheduler" 2> /dev/null
    wait
}

# dask_wanted: what has to come, by a run of compare_list over the same pairs.
dask_wanted() {
    for name in old/*.ion; do
        other=new/$(basename "$name" .ion); [ -e "$other.json" ] && other=$other.json || other=$other.ion
        if [ -e "$other" ]; then printf '%s\0%s\0' "$name" "$other"; fi
    done | compare_list -0 - | grep -v '^#'
    printf 'old/gone.ion\t\t1\tonly in old\n'
    printf 'old/itself.ion\tnew/itself.ion\t4\tfault Open\n'
}

python=
for each in python3 /usr/bin/python3; do
    if [ -z "$python" ] && "$each" -c 'import distributed' 2> /dev/null; then python=$each; fi
done
if [ -n "$python" ]; then
    dask
    is 'Dask, its status' "$(cat dask/status)" 4
    is 'Dask, all that one run tells' "$(sed '$d' dask/out | LC_ALL=C sort)" "$(dask_wanted | LC_ALL=C sort -u)"
    is 'Dask, no pair is lost with a worker' "$(tail -n 1 dask/out)" '202 of 202 pairs were compared'
    is 'Dask, both workers had tasks, and one none after its end' "$(grep -c b dask/told | awk '{ print ($1 > 3) }') $(($(grep -c a dask/told) - $(cat dask/before)))" '1 0'
else
    echo 'left out: Dask (no Python package distributed)'
fi

if command -v sbatch > /dev/null && sinfo -h -t idle,mix -o %n 2> /dev/null | grep -q .; then
    runs Slurm Slurm 1p; is 'Slurm, its status' "$status" 75
    runs 'Slurm, summed' Slurm 2p; is Slurm "$(printf '%s\n' "$out" | sort_last)" "$wanted"
else
    echo 'left out: Slurm (no node is up)'
fi

block 'Spark and Hadoop' | grep -o "ion_cmd check - 2>&1 || \[ \$? -le 2 \]" > "$folder/commands"
is 'Spark, values: of a part that is accepted' "$(echo '1 2' | sh "$folder/commands"; echo $?)" 'accepted 2
0'
is 'Spark, values: a part that is refused fails no task' "$(echo '1 2,' | sh "$folder/commands"; echo $?)" 'refused 4 Unexpected
0'
echo "$passed passed, $failed failed"
[ "$failed" = 0 ]
