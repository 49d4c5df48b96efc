#!/usr/bin/env bash
# Runs the built program `qls` on real folders: what it prints, its exit status, and what it leaves.
# Bytes that are expected are made here from the format's own description, never by the program.
# It works in a temporary folder of its own, ends by itself, and says what it skips and why.
set -u

top=$(cd "$(dirname "${BASH_SOURCE[0]}")/.." && pwd)
qls=$top/qls
room=$(mktemp -d) || exit 1
trap 'chmod -R u+rwx "$room" 2>/dev/null; umount "$room/small" 2>/dev/null; rm -rf "$room"' EXIT
cd "$room" || exit 1

# The program is built before the first run, since each run has a limit of time.
"$qls" </dev/null >/dev/null 2>build.txt
[ $? -eq 2 ] || { cat build.txt; exit 1; }

passed=0
failed=0
skipped=0
USAGE='usage: qls DIR run [PART KIB] | show'

pass() { passed=$((passed + 1)); }
fail() { failed=$((failed + 1)); printf 'FAILED  %s: %s\n' "$scenario" "$1"; }
skip() { skipped=$((skipped + 1)); printf 'skipped %s: %s\n' "$scenario" "$1"; }

# is WHAT GOT WANTED
is() {
    if [ "$2" = "$3" ]; then pass; else fail "$1 is '${2:0:160}' and not '${3:0:160}'"; fi
}

# Runs the program with these words on standard input as given; leaves `status`, `out` and `err`.
run() {
    timeout 60 "$qls" "$@" >out.txt 2>err.txt
    status=$?
    out=$(cat out.txt)
    err=$(cat err.txt)
}

# ended STATUS REPLIES ERROR: how the run ended
ended() {
    is status "$status" "$1"
    is replies "$out" "$2"
    is 'standard error' "$err" "$3"
}

# A line for each file and folder: kind, path, and a checksum of each file's bytes.
tree() {
    find "$1" -printf '%y %p\n' 2>/dev/null | sort
    find "$1" -type f -exec sha256sum {} + 2>/dev/null | sort
}

# ---- a queue with one message

. "$top/tests/format.sh"

FIRST=0000000000000000001.qls
UNFINISHED=0000000000000000001.new
printf 'queue a\nput a 6869\n' >script.txt

scenario='the vectors'
seven=0700000000000000
is 'the checksum of the header with serial 7' "$(header $seven | cut -c123-130)" da017054
is 'the checksum of the message with serial 7' "$(message $seven | cut -c93-100)" 33029c38

scenario='a folder that is missing'
run a/b/store run 1 4 <script.txt
ended 0 $'ok\nok 1' ''
is 'the files' "$(cd a/b/store && find . -type f)" "./inuse/$FIRST"
serial=$(bytes_of "a/b/store/inuse/$FIRST" | cut -c17-32)
is 'the file' "$(bytes_of "a/b/store/inuse/$FIRST")" "$(whole_file "$serial")"

# ---- shows

# The state of that store
SHOWN=$'queues 1\nqueue a last 1 messages 1\n1 ready 6869\ndoubt 0'

scenario='a show of what a run left'
before=$(tree a/b/store)
run a/b/store show <script.txt
ended 0 "$SHOWN" ''
is 'what lies there' "$(tree a/b/store)" "$before"

scenario='a show of a store whose folders and files are for reading alone'
if [ "$(id -u)" -eq 0 ]; then
    skip 'the tester is root, whom no permission stops'
else
    cp -r a/b/store reading && chmod -R a-w reading
    run reading show <script.txt
    ended 0 "$SHOWN" ''
fi

scenario='a show beside a show, and a run beside it'
long=$(repeat 5a 100000)
printf 'queue a\nput a %s\n' "$long" >lines.txt
run watched run 1 4 <lines.txt
ended 0 $'ok\nok 1' ''
wanted=$'queues 1\nqueue a last 1 messages 1\n1 ready '$long$'\ndoubt 0'
mkfifo shown.fifo
timeout 60 "$qls" watched show </dev/null >shown.fifo 2>first.txt &
first=$!
exec 7<shown.fifo
# it has the store, and more to say than the pipe holds
IFS= read -r -n 1 -u 7 byte
run watched show </dev/null
ended 0 "$wanted" ''
run watched run 1 4 </dev/null
ended 5 '' 'site fault'
is 'what the first says' "$byte$(cat <&7)" "$wanted"
exec 7<&-
wait "$first"
is 'status of the first' "$?" 0

scenario='a changed byte in a header'
cp -r a/b/store changed
printf '\003' | dd of="changed/inuse/$FIRST" bs=1 seek=48 conv=notrunc 2>/dev/null
before=$(tree changed)
run changed show <script.txt
ended 3 'damaged file 1 rule checksum' ''
is 'what lies there' "$(tree changed)" "$before"
run changed run 1 4 <script.txt
ended 3 'damaged file 1 rule checksum' ''
is 'what lies there after a run' "$(tree changed)" "$before"

scenario='a show where nothing is'
mkdir empty
run empty show <script.txt
ended 0 $'queues 0\ndoubt 0' ''
is 'what is made' "$(tree empty)" 'd empty'
run nowhere show <script.txt
ended 0 $'queues 0\ndoubt 0' ''
is 'what is made' "$(tree nowhere)" ''

# ---- the default pool

scenario='words without a pool'
printf 'queue a\n' >lines.txt
run plain run <lines.txt
ended 0 'ok' ''
is 'the size of the file' "$(stat -c %s "plain/inuse/$FIRST")" 2101248
is 'its partition and KiB' "$(bytes_of "plain/inuse/$FIRST" | cut -c49-64)" "$(little 1 4)$(little 2048 4)"

# ---- a journal that grows by files

# Adler-32 of bytes in hexadecimal, and then of N bytes 5a
adler_run() {
    local low=1 high=0 at
    for ((at = 0; at < ${#1}; at += 2)); do
        low=$(((low + 16#${1:at:2}) % 65521))
        high=$(((high + low) % 65521))
    done
    high=$(((high + $2 * low + 90 * ($2 * ($2 + 1) / 2)) % 65521))
    low=$(((low + 90 * $2) % 65521))
    little $((high * 65536 + low)) 4
}

# The start of an enqueue with N bytes of body: serial, rid, N
enqueue() { printf '514c536502000000%s%s%s%s' "$1" "$(little "$2" 8)" "$(little 0 8)" "$(little "$3" 8)"; }

# The whole record, its body N times 5a, padded to 128 bytes: serial, rid, N
record() {
    local start
    start=$(enqueue "$1" "$2" "$3")
    printf '%s' "$start"
    if [ "$3" -gt 0 ]; then repeat 5a "$3"; fi
    printf 'aeb3ac9a%s%s%s' "$(adler_run "$start" "$3")" "$1" "$(little "$2" 8)"
    if [ $(((64 + $3) % 128)) -gt 0 ]; then repeat ff $((128 - (64 + $3) % 128)); fi
}

# N fillers: serial, rid, N
fillers() {
    local filler at
    filler=514c537802000000$1$(little "$2" 8)$(repeat ff 104)
    for ((at = 0; at < $3; at++)); do printf '%s' "$filler"; done
}

# The header of a file of queue a: serial, rid, first place, number
header_of() {
    local start
    start=514c536602000000$1$(little "$2" 8)$(little 1 4)$(little 4 4)
    start+=$(little "$3" 8)$(little "$4" 8)$(little 1 8)$(little 1 2)$(little 1 2)61
    printf '%s%s%s' "$start" "$(adler "$start")" "$(repeat 00 $((4096 - 65)))"
}

# The N-th file in use of a store, and its serial
file_at() { printf '%s/inuse/%019d.qls' "$1" "$2"; }
serial_of() { bytes_of "$(file_at "$1" "$2")" | cut -c17-32; }

# A script: a queue, and a put of each of these many bytes 5a
puts() {
    local size
    printf 'queue a\n'
    for size in "$@"; do
        if [ "$size" -gt 0 ]; then printf 'put a %s\n' "$(repeat 5a "$size")"; else printf 'put a -\n'; fi
    done
}

scenario='a put of an empty body'
puts 0 >puts.txt
run grown/empty run 1 4 <puts.txt
is status "$status" 0
is replies "$out" $'ok\nok 1'
one=$(serial_of grown/empty 1)
is 'file 1' "$(bytes_of "$(file_at grown/empty 1)")" "$(header_of "$one" 0 4096 1)$(record "$one" 1 0)$(fillers "$one" 1 31)"

scenario='a full file, and the next'
puts 4032 1 >puts.txt
run grown/full run 1 4 <puts.txt
is status "$status" 0
is replies "$out" $'ok\nok 1\nok 2'
one=$(serial_of grown/full 1)
two=$(serial_of grown/full 2)
is 'file 1' "$(bytes_of "$(file_at grown/full 1)")" "$(header_of "$one" 0 4096 1)$(record "$one" 1 4032)"
is 'file 2' "$(bytes_of "$(file_at grown/full 2)")" "$(header_of "$two" 1 4096 2)$(record "$two" 2 1)$(fillers "$two" 2 31)"

scenario='a record over two files'
puts 4033 >puts.txt
run grown/over run 1 4 <puts.txt
is status "$status" 0
is replies "$out" $'ok\nok 1'
one=$(serial_of grown/over 1)
two=$(serial_of grown/over 2)
whole=$(record "$one" 1 4033)
is 'the record' "${#whole}" 8448
is 'file 1' "$(bytes_of "$(file_at grown/over 1)")" "$(header_of "$one" 0 4096 1)${whole:0:8192}"
is 'file 2' "$(bytes_of "$(file_at grown/over 2)")" "$(header_of "$two" 1 4224 2)${whole:8192}$(fillers "$two" 1 31)"

scenario='a body of a mebibyte over 257 files'
{ printf 'queue a\nput a '; head -c 2097152 /dev/zero | tr '\0' '5' | sed 's/55/5a/g'; printf '\n'; } >puts.txt
run grown/long run 1 4 <puts.txt
is status "$status" 0
is replies "$out" $'ok\nok 1'
is 'files in use' "$(find grown/long/inuse -name '*.qls' | wc -l)" 257
one=$(serial_of grown/long 1)
start=$(enqueue "$one" 1 1048576)
is 'file 1' "$(bytes_of "$(file_at grown/long 1)")" "$(header_of "$one" 0 4096 1)$start$(repeat 5a 4056)"
wrong=0
covered=$(repeat 5a 4096)
for number in 2 3 129 255 256; do
    bytes=$(bytes_of "$(file_at grown/long $number)")
    [ "$bytes" = "$(header_of "${bytes:16:16}" 1 0 $number)$covered" ] || wrong=$((wrong + 1))
done
is 'wholly covered files that are wrong' "$wrong" 0
last=$(serial_of grown/long 257)
tail=$(repeat 5a 40)aeb3ac9a$(adler_run "$start" 1048576)$one$(little 1 8)$(repeat ff 64)
is 'file 257' "$(bytes_of "$(file_at grown/long 257)")" "$(header_of "$last" 1 4224 257)$tail$(fillers "$last" 1 31)"

scenario='a body of a byte more'
{ printf 'queue a\nput a '; head -c 2097154 /dev/zero | tr '\0' '5'; printf '\n'; } >puts.txt
run grown/more run 1 4 <puts.txt
is status "$status" 0
is replies "$out" $'ok\nrefused line'
is 'files in use' "$(find grown/more/inuse -name '*.qls' | wc -l)" 1

# ---- messages that are taken, and files that go back

# The ids of the whole files in a folder, without leading zeros
ids_in() { find "$1" -maxdepth 1 -name '*.qls' -printf '%f\n' 2>/dev/null | sort | sed 's/^0*//; s/[.]qls$//' | tr '\n' ' '; }

scenario='put, list, take, drop'
printf '%s\n' 'queue a' 'put a 6869' 'put a 01' 'list a' 'drop a' 'take a 1' 'take a 1' 'list a' 'take a 2' 'list a' 'drop a' 'list a' >lines.txt
run taken run 1 4 <lines.txt
ended 0 $'ok\nok 1\nok 2\nok 2\n1 ready 6869\n2 ready 01\nrefused busy\nok\nrefused message\nok 1\n2 ready 01\nok\nok 0\nok\nrefused queue' ''
is 'files in use' "$(ids_in taken/inuse)" ''
is 'files in the pool' "$(ids_in taken/empty/1/4)" '1 2 3 '

scenario='a file that goes back'
printf 'queue a\nput a 6869\ntake a 1\n' >lines.txt
run back run 1 4 <lines.txt
ended 0 $'ok\nok 1\nok' ''
serial=$(bytes_of "back/empty/1/4/$FIRST" | cut -c17-32)
is 'the file in its pool' "$(bytes_of "back/empty/1/4/$FIRST")" "$(whole_file "$serial")"
two=$(serial_of back 2)
is 'the header of the other' "$(bytes_of "$(file_at back 2)" | cut -c1-8192)" "$(header_of "$two" 1 4096 2)"

scenario='a body over 25 files that comes and goes'
long=$(repeat 5a 100000)
{
    printf 'queue a\n'
    for number in 1 2 3; do printf 'put a %s\nlist a\ntake a %s\n' "$long" $number; done
} >lines.txt
run spans run 1 4 <lines.txt
wanted='ok'
for number in 1 2 3; do wanted+=$'\n'"ok $number"$'\n'"ok 1"$'\n'"$number ready $long"$'\n'ok; done
ended 0 "$wanted" ''
is 'files in use' "$(find spans/inuse -name '*.qls' | wc -l)" 1
is 'files in the pool' "$(find spans/empty/1/4 -name '*.qls' | wc -l)" 25

scenario='a thousand rounds in the space of one'
rounds() {
    local round
    printf 'queue a\n'
    for ((round = 1; round <= $1; round++)); do printf 'put a 01\ntake a %s\n' $round; done
}
rounds 1 >lines.txt
run once run 1 4 <lines.txt
ended 0 $'ok\nok 1\nok' ''
rounds 1000 >lines.txt
timeout 600 "$qls" often run 1 4 <lines.txt >out.txt 2>err.txt
is status "$?" 0
is 'the last replies' "$(tail -n 2 out.txt | tr '\n' ' ')" 'ok 1000 ok '
is 'standard error' "$(cat err.txt)" ''
is 'files' "$(find often -name '*.qls' | wc -l)" "$(find once -name '*.qls' | wc -l)"
is 'files in use' "$(ids_in often/inuse)" '2 '

scenario='a queue in a pool of its own'
printf 'queue a 2 8\nqueue b\nput a 01\nput a 02\nput b 01\n' >lines.txt
run pooled run 1 4 <lines.txt
ended 0 $'ok\nok\nok 1\nok 2\nok 1' ''
is 'the file of a' "$(stat -c %s "$(file_at pooled 1)")" 12288
is 'the file of b' "$(stat -c %s "$(file_at pooled 2)")" 8192
printf 'queue a 2 8\ndrop a\n' >lines.txt
run dropped run 1 4 <lines.txt
ended 0 $'ok\nok' ''
is 'the pools' "$(cd dropped && find . -name '*.qls')" "./empty/2/8/$FIRST"

# ---- transactions

# What the plain machine answers to the script in lines.txt
machine() { awk -f "$top/tests/machine.awk" lines.txt; }

scenario='a transaction over two queues'
printf '%s\n' 'queue orders' 'queue audit.log' 'put orders 7b226964223a317d' 'begin 8F01' 'take orders 1 in 8f01' \
    'put audit.log 7b226964223a317d in 8f01' 'commit 8f01' 'list orders' 'list audit.log' >lines.txt
run decided run <lines.txt
ended 0 $'ok\nok\nok 1\nok\nok\nok 1\nok\nok 0\nok 1\n1 ready 7b226964223a317d' ''
is 'the machine' "$(machine)" "$out"
is 'files in use' "$(ids_in decided/inuse)" '1 2 3 '
is 'their sizes' "$(stat -c %s decided/inuse/*.qls | sort -u)" 2101248
list=$(bytes_of "$(file_at decided 3)" | cut -c1-8192)
is 'the journal of the third' "${list:112:8}" 02000000
is 'its pool, first place, number and epoch' "${list:48:64}" "$(little 1 4)$(little 2048 4)$(little 4096 8)$(little 1 8)$(little 1 8)"

scenario='a transaction in doubt'
printf '%s\n' 'queue a' 'queue b' 'begin 01' 'put a 0a in 01' 'put b 0b in 01' 'prepare 01' 'doubt' 'list a' 'begin 02' >lines.txt
run doubted run 1 4 <lines.txt
ended 0 $'ok\nok\nok\nok 1\nok 1\nok\nok 1\n01\nok 1\n1 coming 01 0a\nok' ''
is 'files in use' "$(ids_in doubted/inuse)" '1 2 3 '
entry=$(bytes_of "$(file_at doubted 3)" | cut -c8193-8448)
nine=$(serial_of doubted 3)
is 'the entry' "${entry:0:82}" "514c536502000000$nine$(little 1 8)$(little 1 8)$(little 0 8)01"

scenario='what transactions are refused'
printf '%s\n' 'queue a' 'queue a' 'take b 1' 'put a 01 in 05' 'begin 05' 'prepare 05' 'put a 01 in 05' 'commit 05' 'put a 01' \
    'take a 9' 'drop a' 'take a 1' 'drop a' 'list a' >lines.txt
run refused run 1 4 <lines.txt
ended 0 "$(printf '%s\n' ok 'refused exists' 'refused queue' 'refused xid' ok ok 'refused phase' ok 'ok 1' 'refused message' \
    'refused busy' ok ok 'refused queue')" ''
is 'the machine' "$(machine)" "$out"

scenario='two hundred transactions over five queues, eight at once'
interleaved() {
    local turn slot xid queue
    printf 'queue q%s\n' 0 1 2 3 4
    for ((turn = 0; turn < 1600; turn++)); do
        slot=$((turn % 8))
        xid=$(printf %04x $((turn / 64 * 8 + slot)))
        queue=q$(((turn * 7 + turn / 8) % 5))
        case $((turn / 8 % 8)) in
        0) printf 'begin %s\n' "$xid" ;;
        1 | 3) printf 'put %s %04x in %s\n' $queue $turn "$xid" ;;
        2 | 4) printf 'take %s %s in %s\n' $queue $((turn / 40 + 1)) "$xid" ;;
        5) if ((0x$xid % 3 > 0)); then printf 'prepare %s\n' "$xid"; else printf 'put %s %04x\n' $queue $turn; fi ;;
        6) printf 'list %s\ndoubt\n' $queue ;;
        *) if ((0x$xid % 4 == 1)); then printf 'abort %s\n' "$xid"; else printf 'commit %s\n' "$xid"; fi ;;
        esac
    done
}
interleaved >lines.txt
timeout 600 "$qls" many run 1 8 <lines.txt >out.txt 2>err.txt
is status "$?" 0
is 'standard error' "$(cat err.txt)" ''
machine >wanted.txt
is 'replies' "$(cmp out.txt wanted.txt && wc -l <out.txt)" "$(wc -l <wanted.txt)"
is 'refusals and lists among them' "$(grep -c -e refused -e coming -e going wanted.txt | awk '{ print ($1 > 100) }')" 1

# ---- stores that live on over runs

# The rid, and the first place, number and epoch in the header of a file
rid_of() { bytes_of "$1" | cut -c33-48; }
place_number_epoch() { bytes_of "$1" | cut -c65-112; }

scenario='a second run after the files went back'
printf 'queue a\nput a 01\ntake a 1\n' >lines.txt
run lives run 1 4 <lines.txt
ended 0 $'ok\nok 1\nok' ''
run lives show </dev/null
ended 0 $'queues 1\nqueue a last 1 messages 0\ndoubt 0' ''
printf 'put a 02\n' >lines.txt
run lives run 1 4 <lines.txt
ended 0 'ok 2' ''
is 'files in use' "$(ids_in lives/inuse)" '1 '
is 'files in the pool' "$(ids_in lives/empty/1/4)" '2 '
is 'the rid in its header' "$(rid_of "$(file_at lives 1)")" "$(little 1 8)"
is 'its first place, number and epoch' "$(place_number_epoch "$(file_at lives 1)")" "$(little 4096 8)$(little 3 8)$(little 2 8)"

scenario='a run with nothing to do'
before=$(tree lives)
run lives run 1 4 </dev/null
ended 0 '' ''
is 'what lies there' "$(tree lives)" "$before"

scenario='a store that is continued by ten runs'
: >all.txt
for ((turn = 0; turn <= 10; turn++)); do
    {
        if ((turn == 0)); then printf 'queue q%s\n' 0 1 2; fi
        for ((step = 0; step < 12; step++)); do
            number=$((turn * 12 + step))
            printf 'put q%s %s\n' $((number % 3)) "$(repeat "$(printf %02x $number)" $((1 + number * 97)))"
            if ((step % 4 == 3)); then printf 'take q%s %s\n' $((turn % 3)) $((turn + step / 4 + 1)); fi
        done
        printf 'begin %02x\nput q0 aa in %02x\ntake q1 %s in %02x\n' $turn $turn $((turn * 3 + 2)) $turn
        if ((turn % 3 == 0)); then printf 'prepare %02x\n' $turn; fi
        if ((turn % 2 == 0)); then printf 'commit %02x\n' $turn; else printf 'abort %02x\n' $turn; fi
        printf 'list q0\nlist q1\nlist q2\ndoubt\n'
    } >lines.txt
    cat lines.txt >>all.txt
    run ten run 1 $((4 + 4 * (turn % 3))) <lines.txt
    is "status of run $turn" "$status" 0
    cat out.txt >>all_out.txt
done
cp all.txt lines.txt
machine >wanted.txt
is 'replies' "$(cmp all_out.txt wanted.txt && wc -l <all_out.txt)" "$(wc -l <wanted.txt)"

scenario='a transaction that was open as a run ended'
printf 'queue a\nbegin 01\nput a 0a in 01\n' >lines.txt
run opened run 1 4 <lines.txt
ended 0 $'ok\nok\nok 1' ''
printf 'begin 01\ncommit 01\nlist a\n' >lines.txt
run opened run 1 4 <lines.txt
ended 0 $'ok\nok\nok 0' ''
run opened show </dev/null
ended 0 $'queues 1\nqueue a last 1 messages 0\ndoubt 0' ''

scenario='a transaction in doubt over two runs'
printf 'doubt\nbegin 01\ncommit 01\nlist a\nlist b\n' >lines.txt
run doubted run 1 4 <lines.txt
ended 0 $'ok 1\n01\nrefused exists\nok\nok 1\n1 ready 0a\nok 1\n1 ready 0b' ''
run doubted show </dev/null
ended 0 $'queues 2\nqueue a last 1 messages 1\n1 ready 0a\nqueue b last 1 messages 1\n1 ready 0b\ndoubt 0' ''

# Runs the script in the file on the store `killed`, and kills the program after so many seconds; its replies are in out.txt
run_and_kill() {
    rm -rf killed
    "$qls" killed run 1 4 <"$2" >out.txt 2>err.txt &
    local victim=$!
    sleep "$1"
    kill -KILL $victim 2>err.txt
    # the shell says that it was killed
    { wait $victim; } 2>err.txt
}

scenario='runs that are killed at any point'
{
    printf 'queue a\n'
    for ((number = 1; number <= 3000; number++)); do printf 'put a %s\n' "$(repeat "$(printf %04x $number)" 2500)"; done
} >kills.txt
wrong=''
middle=0
for delay in 0.004 0.01 0.02 0.03 0.05 0.08 0.12 0.2 0.3 0.5 1; do
    run_and_kill "$delay" kills.txt
    answered=$(grep -c '^ok [0-9]*$' out.txt)
    run killed show </dev/null
    if [ "$status" -ne 0 ]; then wrong+=" $delay: show $status"; continue; fi
    if [ "$out" = $'queues 0\ndoubt 0' ]; then
        [ "$answered" -eq 0 ] || wrong+=" $delay: no queue"
        printf 'queue a\n' >lines.txt
        run killed run 1 4 <lines.txt
        [ "$status $out" = '0 ok' ] || wrong+=" $delay: run $status $out"
        continue
    fi
    many=$(sed -n 's/^queue a last \([0-9]*\) messages \1$/\1/p' out.txt)
    if [ -z "$many" ] || [ "$many" -lt "$answered" ] || [ "$many" -gt $((answered + 1)) ]; then
        wrong+=" $delay: $many of $answered"
        continue
    fi
    { head -n $((many + 1)) kills.txt; echo 'list a'; } >lines.txt
    machine | sed -n "$((many + 3)),\$p" >wanted.txt
    sed -n '3,$p' out.txt | sed '$d' | cmp -s - wanted.txt || wrong+=" $delay: bodies"
    printf 'put a 07\n' >lines.txt
    run killed run 1 4 <lines.txt
    [ "$status $out" = "0 ok $((many + 1))" ] || wrong+=" $delay: run $status $out"
    if [ "$many" -gt 0 ] && [ "$many" -lt 3000 ]; then middle=$((middle + 1)); fi
done
is 'what is wrong' "$wrong" ''
is 'some were killed in the middle' "$((middle > 0))" 1

scenario='transactions that are killed at any point'
{
    printf 'queue a\nqueue b\n'
    for ((number = 1; number <= 2000; number++)); do
        xid=$(printf %04x $number)
        printf 'begin %s\nput a %s in %s\nput b %s in %s\n' $xid $xid $xid $xid $xid
        if ((number % 2 == 0)); then printf 'prepare %s\n' $xid; fi
        printf 'commit %s\n' $xid
    done
} >kills.txt
wrong=''
middle=0
for delay in 0.01 0.02 0.04 0.06 0.1 0.15 0.25 0.4 1; do
    run_and_kill "$delay" kills.txt
    # each command has a reply of one line
    answered=$(head -n "$(wc -l <out.txt)" kills.txt | grep -c '^commit')
    run killed show </dev/null
    if [ "$status" -ne 0 ]; then wrong+=" $delay: show $status"; continue; fi
    sed -n '/^queue a /,/^queue b /p' out.txt | grep -v -e '^queue' -e '^doubt' >in_a.txt
    sed -n '/^queue b /,/^doubt /p' out.txt | grep -v -e '^queue' -e '^doubt' >in_b.txt
    cmp -s in_a.txt in_b.txt || wrong+=" $delay: not in both"
    many=$(grep -c ' ready ' in_a.txt)
    if [ "$many" -lt "$answered" ] || [ "$many" -gt $((answered + 1)) ]; then wrong+=" $delay: $many of $answered"; fi
    if [ "$many" -gt 0 ] && [ "$many" -lt 2000 ]; then middle=$((middle + 1)); fi
    cp out.txt shown.txt
    run killed run 1 4 </dev/null
    [ "$status" -eq 0 ] || wrong+=" $delay: run $status"
    run killed show </dev/null
    cmp -s out.txt shown.txt || wrong+=" $delay: another state after the opening"
done
is 'what is wrong' "$wrong" ''
is 'some were killed in the middle' "$((middle > 0))" 1

scenario='the tour of the README'
ln -sf "$qls" qls
awk '/^## A store/ { tour = 1; next } /^## / { tour = 0 } tour && /^    / { print substr($0, 5) }' "$top/README.md" >tour.txt
is 'commands' "$(grep -c '^\$ ' tour.txt)" 10
sed -n 's/^\$ //p' tour.txt >commands.txt
while IFS= read -r command; do
    printf '$ %s\n' "$command"
    timeout 60 bash -c "$command" </dev/null 2>&1
done <commands.txt >toured.txt
is 'the tour' "$(cmp tour.txt toured.txt 2>&1 && wc -l <toured.txt)" "$(wc -l <tour.txt)"

scenario='a folder that is empty, and what a cut left in it'
mkdir -p store/empty/1/4 store/empty/2/8 store/inuse
printf 'left' | tee "store/empty/1/4/$UNFINISHED" "store/empty/2/8/$UNFINISHED" >"store/inuse/$UNFINISHED"
run store run 1 4 <script.txt
is status "$status" 0
is replies "$out" $'ok\nok 1'
is 'the whole files' "$(cd store && find . -name '*.qls')" "./inuse/$FIRST"
serial=$(bytes_of "store/inuse/$FIRST" | cut -c17-32)
is 'the file' "$(bytes_of "store/inuse/$FIRST")" "$(whole_file "$serial")"
is 'what is passed over' "$(cd store && find . -name '*.new' | sort)" "./empty/2/8/$UNFINISHED
./inuse/$UNFINISHED"

scenario='pools with empty files'
THIRD=0000000000000000003.qls
FIFTH=0000000000000000005.qls
mkdir -p pools/empty/1/4 pools/empty/2/4
printf '%08192d' 3 >"pools/empty/1/4/$THIRD"
printf '%08192d' 5 >"pools/empty/1/4/$FIFTH"
printf '%08192d' 4 >"pools/empty/2/4/0000000000000000004.qls"
fifth=$(sha256sum <"pools/empty/1/4/$FIFTH")
printf 'queue a\n' >one.txt
run pools run 1 4 <one.txt
is status "$status" 0
is replies "$out" 'ok'
is 'the files' "$(cd pools && find . -type f | sort)" "./empty/1/4/$FIFTH
./empty/2/4/0000000000000000004.qls
./inuse/$THIRD"
serial=$(bytes_of "pools/inuse/$THIRD" | cut -c17-32)
is 'the header' "$(bytes_of "pools/inuse/$THIRD" | cut -c1-8192)" "$(header "$serial")"
is 'what lies behind it' "$(tail -c 4096 "pools/inuse/$THIRD")" "$(printf '%08192d' 3 | tail -c 4096)"
is 'the file that stays' "$(sha256sum <"pools/empty/1/4/$FIFTH")" "$fifth"

scenario='no file and no id'
mkdir -p last/empty/2/4
truncate -s 8192 last/empty/2/4/4611686018427387903.qls
before=$(tree last/empty)
printf 'put a 01\nqueue a\nqueue b\n' >three.txt
run last run 1 4 <three.txt
ended 9 'refused queue' 'counter spent'
is 'what lies there' "$(tree last/empty)" "$before"

scenario='a commit without a file for its last queue'
printf 'queue a\nqueue b\nbegin 01\nput a 0a in 01\nput b 0b in 01\nprepare 01\n' >lines.txt
run spent run 1 4 <lines.txt
ended 0 $'ok\nok\nok\nok 1\nok 1\nok' ''
mkdir -p spent/empty/2/4 spent/empty/1/4
truncate -s 8192 spent/empty/2/4/4611686018427387903.qls
# one for the list, where the commit is decided, one for queue a, and none for queue b
truncate -s 8192 "spent/empty/1/4/0000000000000000004.qls" "spent/empty/1/4/0000000000000000005.qls"
printf 'commit 01\nput a 01\n' >lines.txt
run spent run 1 4 <lines.txt
ended 9 '' 'counter spent'
before=$(tree spent)
run spent show </dev/null
ended 0 $'queues 2\nqueue a last 1 messages 1\n1 ready 0a\nqueue b last 1 messages 1\n1 ready 0b\ndoubt 0' ''
run spent run 1 4 </dev/null
ended 9 '' 'counter spent'
is 'what lies there' "$(tree spent)" "$before"
# the opening ends it in queue b, and then in the list, whose older files go back
printf 'put a 01\n' >lines.txt
truncate -s 8192 "spent/empty/1/4/0000000000000000006.qls"
run spent run 1 4 <lines.txt
ended 9 '' 'counter spent'
truncate -s 8192 "spent/empty/1/4/0000000000000000007.qls"
run spent run 1 4 <lines.txt
ended 0 'ok 2' ''
run spent show </dev/null
ended 0 $'queues 2\nqueue a last 2 messages 2\n1 ready 0a\n2 ready 01\nqueue b last 1 messages 1\n1 ready 0b\ndoubt 0' ''

scenario='an empty file of another size'
mkdir -p broken/empty/1/4
truncate -s 8193 "broken/empty/1/4/$FIRST"
before=$(tree broken)
run broken run 1 4 <script.txt
ended 3 'damaged file 1 rule pool' ''
is 'what lies there' "$(tree broken)" "$before"

scenario='a second run'
printf 'queue a\nput a 6869\nbegin 01\nput a 02 in 01\nbegin 02\nput a 03 in 02\nprepare 02\n' >lines.txt
run again run 1 4 <lines.txt
ended 0 $'ok\nok 1\nok\nok 2\nok\nok 3\nok' ''
printf 'doubt\nlist a\ncommit 02\ntake a 1\nput a 04\nlist a\n' >lines.txt
run again run 2 8 <lines.txt
ended 0 $'ok 1\n02\nok 2\n1 ready 6869\n3 coming 02 03\nok\nok\nok 4\nok 2\n3 ready 03\n4 ready 04' ''
run again show </dev/null
ended 0 $'queues 1\nqueue a last 4 messages 2\n3 ready 03\n4 ready 04\ndoubt 0' ''
is 'files of the other pool' "$(ids_in again/empty/2/8)" ''
before=$(tree again)
run again run 1 4 </dev/null
ended 0 '' ''
is 'what lies there' "$(tree again)" "$before"

scenario='the empty script'
run none run 1 4 </dev/null
is status "$status" 0
is replies "$out" ''
is 'what is made' "$(tree none)" ''

scenario='a second process'
mkfifo lines.fifo
timeout 60 "$qls" shared run 1 4 <lines.fifo >first.txt 2>&1 &
first=$!
exec 7>lines.fifo
printf 'queue a\n' >&7
for ((wait = 0; wait < 300; wait++)); do
    [ -s first.txt ] && break
    sleep 0.1
done
before=$(tree shared)
run shared run 1 4 <script.txt
ended 5 '' 'site fault'
is 'what lies there' "$(tree shared)" "$before"
run shared show </dev/null
ended 5 '' 'site fault'
printf 'put a 6869\n' >&7
exec 7>&-
wait "$first"
is 'status of the first' "$?" 0
is 'replies of the first' "$(cat first.txt)" $'ok\nok 1'

scenario='a folder without write permission'
if [ "$(id -u)" -eq 0 ]; then
    skip 'the tester is root, whom no permission stops'
else
    mkdir locked && chmod 555 locked
    before=$(tree locked)
    run locked run 1 4 <script.txt
    ended 5 '' 'site fault'
    is 'what lies there' "$(tree locked)" "$before"
fi

scenario='a full disk'
mkdir small
if mount -t tmpfs -o size=1m none small 2>/dev/null; then
    run small/store run 1 2048 <script.txt
else
    (
        trap '' XFSZ
        ulimit -f 1024
        timeout 60 "$qls" small/store run 1 2048 <script.txt >out.txt 2>err.txt
    )
    status=$?
    out=$(cat out.txt)
    err=$(cat err.txt)
fi
ended 5 '' 'site fault'
is 'the files' "$(find small -type f)" ''
umount small 2>/dev/null

scenario='a script that is a folder'
mkdir folder
run unread run 1 4 <folder
ended 4 '' 'source fault'
is 'what is made' "$(tree unread)" ''

scenario='standard output that is closed'
mkdir -p closed/inuse
timeout 60 "$qls" closed run 1 4 <script.txt >&- 2>err.txt
is status "$?" 5
is 'standard error' "$(cat err.txt)" 'site fault'
is 'the files' "$(find closed -type f)" ''

scenario='a pipe that nobody reads'
{
    sleep 0.5
    cat script.txt
} | timeout 60 "$qls" piped run 1 4 2>err.txt | true
is status "${PIPESTATUS[1]}" 5
is 'standard error' "$(cat err.txt)" 'site fault'
serial=$(bytes_of "piped/inuse/$FIRST" | cut -c17-32)
is 'the header, which no reply may touch' "$(bytes_of "piped/inuse/$FIRST" | cut -c1-8192)" "$(header "$serial")"

scenario='a full disk behind standard output'
if [ -c /dev/full ]; then
    timeout 60 "$qls" unheard run 1 4 <script.txt >/dev/full 2>err.txt
    is status "$?" 5
    is 'standard error' "$(cat err.txt)" 'site fault'
else
    skip 'there is no /dev/full'
fi

# faulty WHAT STORE: a store that must be a site fault and stay as it is
faulty() {
    scenario=$1
    local before
    before=$(tree "$2")
    run "$2" run 1 4 <script.txt
    ended 5 '' 'site fault'
    is 'what lies there' "$(tree "$2")" "$before"
}

printf 'no folder' >file
faulty 'a file in the place of the store' file
mkdir -p f1/inuse/$FIRST
faulty 'a folder in the place of a file' f1
mkdir -p f2/inuse && truncate -s 8192 elsewhere && ln -s ../../elsewhere f2/inuse/$FIRST
faulty 'a link in the place of a file' f2
mkdir -p f3/inuse && truncate -s 8192 f3/inuse/$FIRST && ln f3/inuse/$FIRST f3/other
faulty 'a file with a second name' f3
mkdir -p f4/inuse && : >f4/inuse/$'\xff.qls'
faulty 'a name that is no text' f4
mkdir -p f5/elsewhere && ln -s elsewhere f5/inuse
faulty 'a link in the place of a folder' f5
mkdir -p f6/empty && : >f6/empty/1
faulty 'a file in the place of a folder' f6
mkdir -p f7/inuse f7/empty/1/4 && truncate -s 8192 f7/inuse/$FIRST f7/empty/1/4/$FIRST
faulty 'an id in two places' f7
mkdir -p f8/inuse && mkfifo f8/inuse/$FIRST
faulty 'a pipe in the place of a file' f8
scenario='a file of another owner'
if [ "$(id -u)" -eq 0 ]; then
    mkdir -p f9/inuse && truncate -s 8192 f9/inuse/$FIRST && chown 65534 f9/inuse/$FIRST
    faulty "$scenario" f9
else
    skip 'the tester is not root, and can give no file away'
fi

# Words that aren't of the table: the status, the usage line, and no call on anything.
usage() {
    scenario="the words '$*'"
    run "$@" <folder
    ended 2 '' "$USAGE"
}
usage
usage d
usage d walk
usage d run 1
usage d run 1 4 5
usage d show 1
usage d show 1 4
usage d shows
usage '' run 1 4
usage '' run
usage '' show
usage d run 0 4
usage d run 1000 4
usage d run 01 4
usage d run 1 0
usage d run 1 6
usage d run 1 04
usage d run 1 65540
usage d run x 4
usage d run 1 -4
usage d run 1 18446744073709551620
usage $'\xff' run 1 4
scenario='words that are refused'
is 'what is made' "$(tree d)" ''

printf '%d passed, %d failed, %d skipped\n' "$passed" "$failed" "$skipped"
[ "$failed" -eq 0 ]
