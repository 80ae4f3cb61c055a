#!/usr/bin/env bash
# Tests of the tool: tool/test.sh TOOL, from the folder that holds tool/ and examples/.
# TOOL is built with sanitizers, which end it with status 99 at a fault of its own.
set -u

tool=$(realpath "$1")
home=$PWD
readme=$home/README.md # its console blocks are run as printed
work=$(mktemp -d)
trap 'rm -rf "$work"' EXIT
cd "$work" || exit 2
export LC_ALL=C ASAN_OPTIONS=exitcode=99 UBSAN_OPTIONS=exitcode=99:print_stacktrace=1

passed=0 failed=0 # checks
status=0          # of the last run; its output is in the files out and err
sentence='^seqopchi: refused ([0-9]+) \(([a-z ]+)\): .+$'

run() {
    "$tool" "$@" >out 2>err </dev/null
    status=$?
}

check() { # check WHAT COMMAND..: whether the command succeeds
    local what=$1
    shift
    if "$@"; then
        passed=$((passed + 1))
    else
        failed=$((failed + 1))
        echo "FAILED: $what (status $status)"
        head -n 20 out err
    fi
}

content=''
read_file() { # into content, without the last line end; no process is started
    IFS= read -r -d '' content <"$1"
    content=${content%$'\n'}
}

has() { read_file "$1"; [[ $content == *"$2"* ]]; }
is() { read_file "$1"; [[ $content == "$2" ]]; }
ended() { [[ $status -eq $1 ]]; }

good() { # good WORDS..: succeeds and complains of nothing
    run "$@"
    check "good: $*" ended 0
    check "quiet: $*" is err ''
}

refuses() { # refuses SENTENCE WORDS..: this sentence on standard error, nothing else
    local text=$1
    shift
    run "$@"
    check "refused: $*" ended 1
    check "sentence: $*" is err "seqopchi: refused $text"
    [[ $1 == list ]] || check "no output: $*" is out ''
}

wrong() { # wrong WORDS-IN-MESSAGE WORDS..: usage, reading or writing
    local text=$1
    shift
    run "$@"
    check "wrong: $*" ended 2
    check "message '$text': $*" has err "$text"
    check "no output: $*" is out ''
}

beyond() { # beyond LINE FIELD BYTE NUMBER LOW HIGH: this number of x.txt is refused when it is packed
    refuses "4 (value): line $1 of 'x.txt', $2 (byte $3 when packed), is $4; it must be from $5 to $6" pack x.txt -o y
}

too_old() { # too_old WORD NAME SINCE VERSION [SED]: a field of the nodes of x.txt, in a version that lacks it
    sed "s/^job $3/job $4/; ${5-}" x.txt >y.txt
    wrong "'y.txt', line 4: expected the end of the line, found '$1': nodes have a $2 from 'job $3' on" pack y.txt -o y
}

bytes_of() { # the bytes of a file, into the array bytes
    read -r -d '' -a bytes < <(od -An -v -tx1 "$1")
}

write_bytes() { # write_bytes FILE BYTE..: bytes in hexadecimal
    local file=$1 format=''
    shift
    [[ $# -eq 0 ]] || printf -v format '\\x%s' "$@"
    printf "$format" >"$file"
}

lines() { printf '%s\n' "$@"; }

. "$home/tool/test_sending.sh"
. "$home/tool/test_groups.sh"
. "$home/tool/test_order.sh"
. "$home/tool/test_asking.sh"
. "$home/tool/test_trace.sh"
. "$home/tool/test_times.sh"
. "$home/tool/test_trial.sh"
. "$home/tool/test_log.sh"
. "$home/tool/test_sentence.sh"

# --- good files -------------------------------------------------------------------

sample_tests() {
    good pack "$home/examples/sample.txt" -o j
    good list j
    check 'listing of sample 1' cmp -s out <(lines 'task primary at backup at' '0 0 0 1 5' '1 0 4 1 9')
    good plan j -o p
    check 'a plan is written silently' is out ''
    good judge j p
    check 'passed' cmp -s out <(lines passed)
    good replay j p
    check 'no loss' is out 'no loss
task  primary      backup        finish  deadline
   0  finished     not started        4        30
   1  finished     not started        7        30'
    good replay j p --lose 0@3
    check 'lost at 3' has out '   0  cut          finished           9        30
   1  not started  finished          12        30'
    good replay --lose 0@4 j p
    check 'lost at 4' has out '   0  finished     not started        4        30
   1  not started  finished          12        30'
    good replay j --lose 0@5 p
    check 'lost at 5' has out '   1  cut          finished          12        30'
    good replay j p --lose 2@4294967295
    good show j
    check 'show tells the run times' has out '   1        30                   3        3        3'
    check 'show without a plan' eval '! has out plan'
    check 'neither ready nor send times in version 1' eval '! has out ready && ! has out send'
    good show j p
    check 'show tells the verdict' has out 'plan, by the judge: passed'
    check 'show tells the lanes' has out '        9 to      12  backup  of task 1'
}

maximum_job() { # maximum_job VERSION READY SEND: a job of the greatest counts, as text; nodes 0 and 1 are in one group
    echo "job $1"
    for ((n = 0; n < 16; n++)); do echo "node $n detect 1000 ${3/%group/group $((n == 1 ? 0 : n))}"; done
    for ((t = 0; t < 64; t++)); do
        echo "task $t $2 deadline 1000000 run 1 2 3 4 5 6 7 8 9 10 11 12 13 14 15 1000000"
    done
    for ((t = 0, k = 0; k < 512; t++)); do
        for ((u = t + 1; u < 64 && u < t + 10 && k < 512; u++, k++)); do
            echo "link $t to $u delay $((k % 7))"
        done
    done
}

round_trip() { # round_trip TEXT [PLAN-TEXT]: packing and unpacking lose nothing
    good pack "$1" -o t.job
    good unpack t.job -o t.txt
    good pack t.txt -o u.job
    check "job of $1 twice" cmp -s t.job u.job
    good unpack u.job
    check "text of $1 twice" cmp -s t.txt out
    if [[ $# -eq 1 ]]; then
        good plan t.job -o t.plan
    else
        good pack "$2" --job t.job -o t.plan
    fi
    good unpack t.job t.plan -o t.txt
    good pack t.txt --job t.job -o u.plan
    check "plan of $1 twice" cmp -s t.plan u.plan
    good pack t.txt -o v.plan
    check "plan of $1 without its job" cmp -s t.plan v.plan
}

block() { # block NUMBER FILE: a block between fences
    awk -v want="$1" '/^```/ { fences++; next } fences == 2 * want - 1' "$2"
}

longest_job() { # longest_job TEXT BYTES
    round_trip "$1"
    check "the length of $1" test "$(wc -c <t.job)" -eq "$2"
    good chart t.job t.plan -o t.svg
    good chart t.job t.plan --lose 0@100 -o t.svg
    good show t.job t.plan
    traces t.job t.plan
}

round_trip_tests() {
    maximum_job 1 '' '' >max.txt
    maximum_job 2 'ready 1000' '' >max2.txt
    maximum_job 3 'ready 1000' 'send 1000' >max3.txt
    maximum_job 4 'ready 1000' 'send 1000 group' >max4.txt
    block 1 "$home/tool/TEXT.md" >described.txt
    block 2 "$home/tool/TEXT.md" >described2.txt
    block 3 "$home/tool/TEXT.md" >described3.txt
    block 4 "$home/tool/TEXT.md" >described4.txt
    block 5 "$home/tool/TEXT.md" >described-plan.txt
    for text in described.txt described2.txt described3.txt described4.txt; do
        round_trip $text described-plan.txt
        round_trip $text
    done
    round_trip "$home/examples/sample.txt"
    round_trip "$home/examples/lessons.txt"
    round_trip "$home/examples/slow-links.txt"
    round_trip "$home/examples/slow-cards.txt"
    round_trip "$home/examples/drawer.txt"
    round_trip "$home/examples/oscilloscope.txt"
    round_trip "$home/examples/oscilloscope.txt" "$home/examples/oscilloscope-refused.txt"
    round_trip "$home/examples/oscilloscope.txt" "$home/examples/oscilloscope-passed.txt"
    longest_job max.txt 10576
    longest_job max2.txt 10832
    longest_job max3.txt 10896
    longest_job max4.txt 10960
    printf 'job\t1\r\n\r\n  node 0 detect 1#x\nnode 1 detect 1\ntask 0 deadline 9 run 007 -' >odd.txt
    good pack odd.txt -o odd.job
    good unpack odd.job
    check 'an odd text' cmp -s out <(lines 'job 1' 'node 0 detect 1' 'node 1 detect 1' 'task 0 deadline 9 run 7 -')
}

example_tests() {
    good pack "$home/examples/oscilloscope.txt" -o o.job
    good plan o.job -o o.plan
    good pack "$home/examples/oscilloscope-passed.txt" --job o.job -o passed.plan
    good judge o.job passed.plan
    good pack "$home/examples/oscilloscope-refused.txt" --job o.job -o refused.plan
    refuses '13 (common loss): the loss of one node can stop both copies of task 10' judge o.job refused.plan
    good show o.job refused.plan
    check 'show tells the refusal' has out 'plan, by the judge: refused 13 (common loss): the loss'
    good chart o.job o.plan -o -
    check 'the chart of the plan' cmp -s out "$home/examples/oscilloscope-plan.svg"
    good chart o.job passed.plan --lose 1@16 -o -
    check 'the chart of the run' cmp -s out "$home/examples/oscilloscope-loss.svg"
    good chart o.job refused.plan -o -
    check 'the chart tells the refusal' has out 'refused 13 (common loss)'
    check 'a part for each copy' test "$(grep -c '^<g>' out)" -eq 22
    good chart o.job o.plan --lose 3@4000000000 -o -
    check 'a loss after the end' has out 'Primaries finished: 11. Backups finished: 0. Copies cut: 0.'
    good pack "$home/examples/slow-links.txt" -o s.job
    good list s.job
    check 'backup 2 does not wait for backup 1' cmp -s out <(lines 'task primary at backup at' '0 0 0 1 3' '1 1 0 0 3' '2 0 8 1 10')
    good pack "$home/examples/lessons.txt" -o l.job
    good plan l.job -o l.plan
    good chart l.job l.plan -o -
    check 'the chart of the lessons' cmp -s out "$home/examples/lessons-plan.svg"
    good pack "$home/examples/drawer.txt" -o w.job
    good plan w.job -o w.plan
    good chart w.job w.plan --lose 5@8 -o -
    check 'the chart of the drawer' cmp -s out "$home/examples/drawer-loss.svg"
}

# --- refusals, one of each number -------------------------------------------------

job_text() { # job_text LINE..: sample J with lines replaced; sed scripts
    sed "$1" "$home/examples/sample.txt" >x.txt
}

plan_of() { # plan_of PLACES PLACES: two tasks, each: node start node start
    local a b
    read -r -a a <<<"$1"
    read -r -a b <<<"$2"
    lines 'plan 1' "task 0 primary ${a[0]} at ${a[1]} backup ${a[2]} at ${a[3]}" \
        "task 1 primary ${b[0]} at ${b[1]} backup ${b[2]} at ${b[3]}" >x.txt
    good pack x.txt -o x.plan
}

job_fault_tests() {
    job_text 's/^job 1/job 0/'
    refuses "2 (version): line 2 of 'x.txt', the version (byte 0 when packed), is 0; it must be from 1 to 4" pack x.txt -o y
    job_text '/^node/d; s/run.*/run/'
    refuses "3 (count): 'x.txt', the node count (byte 4 when packed), is 0; it must be from 2 to 16" pack x.txt -o y
    job_text 's/node 1 detect 1/node 1 detect 1001/'
    beyond 5 'the detect time of node 1' 12 1001 0 1000
    job_text 's/deadline 30 run 3/deadline 0 run 3/'
    beyond 9 'the deadline of task 1' 40 0 1 1000000
    job_text 's/run 3 3 3/run 3 3 1000001/'
    beyond 9 'the run time of task 1 on node 2' 52 1000001 0 1000000
    job_text 's/link 0 to 1/link 2 to 1/'
    beyond 11 'the from of link 0' 60 2 0 1
    job_text 's/link 0 to 1/link 1 to 1/'
    refuses "4 (value): line 11 of 'x.txt', the to of link 0 (byte 64 when packed), is 1; no task comes after the last" pack x.txt -o y
    job_text 's/delay 2/delay 1000001/'
    beyond 11 'the delay of link 0' 68 1000001 0 1000000
    job_text '$p'
    refuses "5 (link order): line 12 of 'x.txt', link 1 (byte 72 when packed), from 0 to 1, does not rise above the link before, from 0 to 1" pack x.txt -o y
    check 'a refused text makes no file' test ! -e y
    : >x
    refuses "1 (short): 'x' has fewer than 4 bytes left at byte 0, for the version" list x
    check 'the refused listing' cmp -s out <(lines 'refused 1 0 0')
    head -c 46 j >x
    refuses "1 (short): 'x' has fewer than 4 bytes left at byte 44, for the run time of task 1 on node 0" plan x -o y
    cat j j >x
    refuses "6 (tail): byte 72 of 'x' follows the last section, where the file must end" unpack x
    cat max.txt >x.txt
    echo 'link 62 to 63 delay 0' >>x.txt
    refuses "3 (count): 'x.txt', the link count (byte 4428 when packed), is 513; it must be from 0 to 512" pack x.txt -o y
    check 'no file after a refusal' test ! -e y
}

plan_fault_tests() {
    : >x
    refuses "1 (short): 'x' has fewer than 4 bytes left at byte 0, for the version" judge j x
    head -c 20 p >x
    refuses "1 (short): 'x' has fewer than 4 bytes left at byte 20, for the backup start of task 0" replay j x
    bytes_of j
    write_bytes x 07 "${bytes[@]:1}"
    refuses "2 (version): byte 0 of 'x', the version, is 7; it must be from 1 to 4" judge x p
    bytes_of p
    write_bytes x 02 "${bytes[@]:1}"
    refuses "2 (version): byte 0 of 'x', the version, is 2; it must be 1" judge j x
    lines 'plan 1' 'task 0 primary 0 at 0 backup 1 at 5' >x.txt
    refuses "3 (count): 'x.txt', the task count (byte 4 when packed), is 1; it must be 2" pack x.txt --job j -o x.plan
    plan_of '0 0 3 5' '0 4 1 9'
    refuses "4 (value): byte 16 of 'x.plan', the backup node of task 0, is 3; it must be from 0 to 2" show j x.plan
    plan_of '0 0 1 5' '0 1000001 1 9'
    refuses "4 (value): byte 28 of 'x.plan', the primary start of task 1, is 1000001; it must be from 0 to 1000000" chart j x.plan -o y
    cat p j >x
    refuses "6 (tail): byte 40 of 'x' follows the last section, where the file must end" unpack j x
    job_text 's/run 3 3 3/run - 3 3/'
    good pack x.txt -o k
    refuses "7 (unable): byte 24 of 'p', the primary node of task 1, is 0, a node that cannot run the task (run time 0)" judge k p
    refuses "18 (no such node): node 3 is none of the job, whose nodes are 0 to 2" replay j p --lose 3@0
    refuses "18 (no such node): node 4294967295 is none of the job, whose nodes are 0 to 2" chart j p --lose 4294967295@0 -o y
    check 'no file after a refusal' test ! -e y
}

rule_tests() {
    plan_of '0 0 0 5' '0 4 1 9'
    refuses '8 (same node): task 0 has its primary and its backup on one node' judge j x.plan
    plan_of '0 0 1 4' '0 4 1 9'
    refuses "9 (early): the backup of task 0 starts before its primary's finish plus the detect time of the primary's node" judge j x.plan
    plan_of '0 0 1 5' '0 4 1 28'
    refuses '10 (late): the backup of task 1 finishes after the deadline' judge j x.plan
    plan_of '0 0 1 5' '0 3 1 9'
    refuses "11 (primary unfed): the result of task 0's primary arrives after the start of task 1's primary" judge j x.plan
    plan_of '0 0 1 5' '0 4 1 8'
    refuses "12 (backup unfed): a result of task 0 arrives after the start of task 1's backup" judge j x.plan
    plan_of '0 0 2 9' '2 6 1 10'
    refuses "12 (backup unfed): a result of task 0 arrives after the start of task 1's backup" judge j x.plan
    plan_of '0 0 1 5' '1 10 0 14'
    job_text 's/delay 2/delay 6/'
    good pack x.txt -o k
    good judge k x.plan
    check 'sample 8: the fault sets are apart' is out 'passed'
    plan_of '0 0 1 5' '2 10 0 15'
    refuses '13 (common loss): the loss of one node can stop both copies of task 1' judge j x.plan
    plan_of '0 0 2 8' '0 4 2 10'
    job_text /^link/d
    good pack x.txt -o k
    refuses '14 (overlap): a copy of task 0 and a copy of task 1 hold one node at the same time' judge k x.plan
    good replay k x.plan
    good chart k x.plan -o y.svg
    job_text 's/deadline 30 run 3/deadline 6 run 3/'
    good pack x.txt -o k
    refuses '15 (no primary): no node has a place for the primary of task 1' plan k -o y
    job_text 's/deadline 30 run 3/deadline 11 run 3/'
    good pack x.txt -o k
    refuses '16 (no backup): no node has a place for the backup of task 1' list k
    check 'the refused listing of sample 9' cmp -s out <(lines 'refused 16 1 1')
}

# --- ready times: sample J in version 2 -------------------------------------------

later_text() { # later_text READY READY [SED]: into x.txt
    sed "s/^job 1/job 2/; s/^task 0/& ready $1/; s/^task 1/& ready $2/; ${3-}" "$home/examples/sample.txt" >x.txt
}

later() { # later READY READY [SED]: into the file r
    later_text "$@"
    good pack x.txt -o r
}

ready_tests() {
    later 0 4
    good judge r p
    good list r
    check 'ready in time' cmp -s out <("$tool" list j)
    good unpack r
    check 'the text of version 2' cmp -s out <(grep '^[^#]' x.txt)
    later 2 12
    good list r
    check 'each primary waits, no backup' cmp -s out <(lines 'task primary at backup at' '0 0 2 1 7' '1 0 12 1 16')
    good plan r -o r.plan
    good judge r r.plan
    good unpack r r.plan
    check 'a plan stays in version 1' has out 'plan 1'
    good show r r.plan
    check 'show tells the ready times' has out '
task    ready  deadline  run time on node 0        1        2
   0        2        30                   4        4        4
   1       12        30                   3        3        3
'
    check 'show tells them with the places' has out '
task    ready  primary on     from       to  backup on     from       to  deadline
   0        2           0        2        6          1        7       11        30
   1       12           0       12       15          1       16       19        30
'
    later 0 28
    refuses '15 (no primary): no node has a place for the primary of task 1' plan r -o y
    later 0 1000000
    refuses '15 (no primary): no node has a place for the primary of task 1' plan r -o y
    ready_rule_tests
    ready_replay_tests
}

too_soon='starts before the task'\''s ready time'
ready_rule_tests() {
    later 0 5
    refuses "19 (too soon): the primary of task 1 $too_soon" judge r p
    good show r p
    check 'show tells the refusal' has out "plan, by the judge: refused 19 (too soon): the primary of task 1 $too_soon"
    later 1 5
    refuses "19 (too soon): the primary of task 0 $too_soon" judge r p
    plan_of '0 0 1 5' '0 4 0 9'
    refuses '8 (same node): task 1 has its primary and its backup on one node' judge r x.plan
    plan_of '0 0 1 4' '0 4 1 9'
    refuses "19 (too soon): the primary of task 0 $too_soon" judge r x.plan
    later 0 5
    refuses "19 (too soon): the primary of task 1 $too_soon" judge r x.plan
    later 0 4
    refuses "9 (early): the backup of task 0 starts before its primary's finish plus the detect time of the primary's node" judge r x.plan
}

ready_replay_tests() { # of the plan of version 1: primary 1 starts at 4, backup 1 at 9
    later 0 4
    good replay r p
    check 'a primary starts at its ready time' has out '   1  finished     not started        7        30'
    later 0 20
    good replay r p
    check 'a primary too soon does not start' is out 'no loss
task  primary      backup        finish  deadline
   0  finished     not started        4        30
   1  not started  finished          12        30'
    good replay r p --lose 1@10
    check 'nor with a loss' has out '   1  not started  cut             none        30'
    later 10 0
    good replay r p
    check 'what it feeds waits for its backup' has out '   0  not started  finished           9        30
   1  not started  finished          12        30'
}

# The marks of a chart: a post and, where the primary starts at another tick, a line.
marks() { [[ $(grep -c 'class="ready" d=' out) -eq $1 && $(grep -c 'class="wait" d=' out) -eq $2 ]]; }

ready_chart_tests() {
    good chart j p -o -
    check 'no mark in version 1' eval '! has out ready && ! has out wait'
    later 0 0
    good chart r p -o -
    check 'no mark at 0' marks 0 0
    check 'nor a word of it in the legend' eval '! has out ">ready<"'
    later 0 4
    good chart r p -o -
    check 'a mark, and one in the legend' marks 2 0
    check 'its word' has out '>ready</text>'
    check 'the mark stands at the start of its bar' mark_at 4
    check 'the hint of a primary' has out '<title>primary of task 1: node 0, 4 to 7, ready 4, deadline 30</title>'
    check 'the hint of a backup' has out '<title>backup of task 1: node 1, 9 to 12, deadline 30</title>'
    later 0 3
    good chart r p -o -
    check 'a line to a later start' marks 2 1
    check 'the mark stands before its bar' mark_at 3
    later 0 25
    good chart r p --lose 0@5 -o -
    check 'a line to a start too soon' marks 2 1
    check 'the mark stands behind its bar' mark_at 25
    check 'the chart tells the refusal' has out "refused 19 (too soon): the primary of task 1 $too_soon"
    later 0 1000000
    good chart r p -o -
    check 'a mark behind the axis is left out' marks 0 0
}

mark_at() { # mark_at TICK: of an axis that ends at 30, 880 pixels behind 92
    has out "class=\"ready\" d=\"M$(awk -v t="$1" 'BEGIN { printf "%.1f", 92 + 880 * t / 30 - 1 }') "
}

# The numbers of sample J, in file order.
job_fields() { # job_fields VERSION
    local task node
    lines 'the version' 'the node count'
    for node in 0 1 2; do
        echo "the detect time of node $node"
        [[ $1 -lt 3 ]] || echo "the send time of node $node"
        [[ $1 -lt 4 ]] || echo "the supply group of node $node"
    done
    echo 'the task count'
    for task in 0 1; do
        [[ $1 -lt 2 ]] || echo "the ready time of task $task"
        echo "the deadline of task $task"
        for node in 0 1 2; do echo "the run time of task $task on node $node"; done
    done
    lines 'the link count' 'the from of link 0' 'the to of link 0' 'the delay of link 0'
}

cut_job_tests() { # cut_job_tests VERSION JOB: cut before and within each number, and with a byte behind it
    local at=0 name
    while read -r name; do
        for rest in 0 3; do
            head -c $((at + rest)) "$2" >x
            refuses "1 (short): 'x' has fewer than 4 bytes left at byte $at, for $name" list x
        done
        at=$((at + 4))
    done < <(job_fields "$1")
    check 'the length of the job' test "$at" -eq "$(wc -c <"$2")"
    { cat "$2"; printf x; } >x
    refuses "6 (tail): byte $at of 'x' follows the last section, where the file must end" judge x p
}

ready_file_tests() {
    local version
    later 2 12
    cut_job_tests 1 j
    cut_job_tests 2 r
    for version in 0 5 6 258 4294967295; do
        bytes_of r
        write_bytes x $(printf '%02x ' $((version & 255)) $((version >> 8 & 255)) $((version >> 16 & 255)) $((version >> 24))) "${bytes[@]:4}"
        refuses "2 (version): byte 0 of 'x', the version, is $version; it must be from 1 to 4" show x
    done
    write_bytes x 01 "${bytes[@]:1}"
    refuses "4 (value): byte 60 of 'x', the from of link 0, is 3; it must be from 0 to 1" unpack x
    bytes_of j
    write_bytes x 02 "${bytes[@]:1}"
    refuses "4 (value): byte 68 of 'x', the from of link 0, is 2; it must be from 0 to 1" unpack x
}

ready_text_tests() {
    later_text 1000001 0
    beyond 8 'the ready time of task 0' 24 1000001 0 1000000
    later_text 0 4294967295
    beyond 9 'the ready time of task 1' 44 4294967295 0 1000000
    later_text 0 0 's/deadline 30 run 3/deadline 0 run 3/'
    beyond 9 'the deadline of task 1' 48 0 1 1000000
    job_text 's/^task 1/& ready 5/'
    wrong "'x.txt', line 9: expected 'deadline', found 'ready': tasks have a ready time from 'job 2' on" pack x.txt -o y
    job_text 's/^job 1/job 2/'
    wrong "'x.txt', line 8: expected 'ready', found 'deadline'" pack x.txt -o y
    later_text 0 ''
    wrong "'x.txt', line 9: expected the ready time, found 'deadline'" pack x.txt -o y
    later_text 0 -5
    wrong "'x.txt', line 9: expected the ready time, found '-5'" pack x.txt -o y
    later_text 0 0 's/ready 0 \(deadline 30\) run 3/\1 ready 0 run 3/'
    wrong "'x.txt', line 9: expected 'ready', found 'deadline'" pack x.txt -o y
    later_text 0 0 's/^job 2/job 5/; s/^node .*/& words of another version/'
    refuses "2 (version): line 2 of 'x.txt', the version (byte 0 when packed), is 5; it must be from 1 to 4" pack x.txt -o y
    check 'no file after a refusal' test ! -e y
    lines 'plan 2' 'task 0 primary 0 at 0 backup 1 at 5' 'task 1 primary 0 at 4 backup 1 at 9' >x.txt
    refuses "2 (version): line 1 of 'x.txt', the version (byte 0 when packed), is 2; it must be 1" pack x.txt --job r -o y
}

# --- damaged files ----------------------------------------------------------------

# Each damaged pair goes to some of the commands in turn: none may end in another way
# than with success or with a refusal in its form.
turn=0
damaged_pair() { # damaged_pair JOB PLAN COUNT
    local words
    for ((i = 0; i < $3; i++)); do
        case $((turn++ % 16)) in
        0) words=(judge "$1" "$2") ;;
        1) words=(show "$1" "$2") ;;
        2) words=(plan "$1" -o d.out) ;;
        3) words=(replay "$1" "$2" --lose 1@5) ;;
        4) words=(chart "$1" "$2" --lose 0@6 -o d.out) ;;
        5) words=(unpack "$1" "$2") ;;
        6) words=(list "$1") ;;
        7) words=(unpack "$1") ;;
        8) words=(ask "$1" "$2" d.task) ;;
        9) words=(commit "$1" "$2" d.task -o d.out d.plan2) ;;
        10) words=(trace "$1" "$2") ;;
        11) words=(replay "$1" "$2" --times d.times --lose 1@5) ;;
        12) words=(chart "$1" "$2" --times d.times -o d.out) ;;
        13) words=(trial "$1" "$2") ;;
        14) words=(times "$1" d.log -o d.out) ;;
        15) words=(show j p --new "$1") ;;
        esac
        [[ ! -e d.out ]] || rm d.out
        run "${words[@]}"
        check "damaged: ${words[*]}" ended_well "${words[0]}"
    done
}

ended_well() {
    read_file err
    [[ $status -eq 0 && -z $content ]] && return
    [[ $1 == trial && $status -eq 3 && -z $content ]] && return
    [[ $status -eq 1 && $content =~ $sentence && ! -e d.out ]] || return
    [[ $1 == list || ! -s out ]]
}

damage_tests() {
    later 2 12
    good plan r -o r.plan
    task_text 'task deadline 30 run 2 2 2' 'link from 1 delay 1'
    good pack n.txt --job j -o d.task
    numbers d.times 3 4 2 1
    numbers d.log 1 2 300 0 0 5
    damaged_job j p 3
    sed -i 's/^task/task ready 5/' n.txt
    good pack n.txt --job r -o d.task
    damaged_job r r.plan 5
    slow 3 0 1000
    damaged_job s r.plan 5
    grouped 1 0 1
    damaged_job g r.plan 5
    good pack "$home/examples/one-more-fit.txt" --job o.job -o d.task
    cp friday.times d.times
    cp friday.log d.log
    damaged_plan o.job o.plan
}

damaged_job() { # damaged_job JOB PLAN STEP: cut, with a tail, and each so many bits with one turned
    local length bit
    bytes_of "$1"
    for ((length = 0; length < ${#bytes[@]}; length++)); do
        write_bytes d.job "${bytes[@]:0:length}"
        damaged_pair d.job "$2" 1
    done
    for ((length = 1; length < 9; length++)); do
        write_bytes d.job "${bytes[@]}" "${bytes[@]:0:length}"
        damaged_pair d.job "$2" 1
    done
    for ((bit = 0; bit < 8 * ${#bytes[@]}; bit += $3)); do
        flip d.job $bit "${bytes[@]}"
        damaged_pair d.job "$2" 1
    done
}

damaged_plan() { # damaged_plan JOB PLAN
    local length bit
    bytes_of "$2"
    for ((length = 0; length < ${#bytes[@]}; length += 3)); do
        write_bytes d.plan "${bytes[@]:0:length}"
        damaged_pair "$1" d.plan 1
    done
    for ((length = 1; length < 9; length++)); do
        write_bytes d.plan "${bytes[@]}" "${bytes[@]:0:length}"
        damaged_pair "$1" d.plan 1
    done
    for ((bit = 0; bit < 8 * ${#bytes[@]}; bit += 11)); do
        flip d.plan $bit "${bytes[@]}"
        damaged_pair "$1" d.plan 1
    done
}

flip() { # flip FILE BIT BYTE..
    local file=$1 bit=$2 changed
    shift 2
    changed=("$@")
    printf -v "changed[$((bit / 8))]" %02x $((0x${changed[bit / 8]} ^ 1 << bit % 8))
    write_bytes "$file" "${changed[@]}"
}

# A damaged text is packed, refused, or ends with a message that names its line.
text_damage_tests() {
    local position
    later_text 2 12
    cp x.txt later.txt
    slow_text 3 0 1000
    cp x.txt slow.txt
    grouped_text 5 0 15
    for source in "$home/examples/sample.txt" later.txt slow.txt x.txt; do
        bytes_of "$source"
        for ((position = 0; position < ${#bytes[@]}; position += 3)); do
            write_bytes d.txt "${bytes[@]:0:position}"
            damaged_text
            flip d.txt $((8 * position + position % 8)) "${bytes[@]}"
            damaged_text
        done
    done
    for text in '' '#' 'job' 'job one' 'plan 1' 'job 4294967296' 'job 1 1' 'Job 1' 'plan 1\ntask 1' 'job 1\nnode 1 detect 1' \
        'job 1\nnode 0 detect' 'job 1\ntask 0 deadline 1 run\nnode 0 detect 1' 'job 1\nlink 0 to 1 delay -1' 'job 1\n\0' \
        'plan 1\ntask 0 primary 0 at 0 backup 1 at 5 6' 'job 1\nnode 0 detect 1\nnode 1 detect 1\ntask 0 deadline 1 run 1' \
        'job 2' 'job 3' 'job 4' 'job 5' 'job 2\ntask 0 ready' 'job 2\ntask 0 ready 1 ready 1' 'job 2\ntask 0 ready - deadline 1 run' \
        'job 1\ntask 0 ready 0 deadline 1 run' 'job 3\nnode 0 detect 1' 'job 3\nnode 0 detect 1 send' \
        'job 3\nnode 0 detect 1 send 1 send 1' 'job 2\nnode 0 detect 1 send 0' 'job 4\nnode 0 detect 1 send 1' \
        'job 4\nnode 0 detect 1 send 1 group' 'job 4\nnode 0 detect 1 send 1 group 1 group 1' 'job 3\nnode 0 detect 1 send 0 group 0' \
        'job 4\nnode 0 detect 1 group 1 send 1' 'job 4\nnode 0 detect 1 send 1 group 4294967296'; do
        printf "$text" >d.txt
        damaged_text
        check "no text: $text" test $status -ne 0 -o "$text" = 'plan 1'
    done
}

damaged_text() {
    [[ ! -e d.out ]] || rm d.out
    run pack d.txt -o d.out
    check 'damaged text' text_ended_well
}

text_ended_well() {
    read_file err
    [[ $status -eq 0 && -z $content && -s d.out ]] && return
    [[ ! -e d.out && ! -s out ]] || return
    [[ $status -eq 1 && $content =~ $sentence ]] && return
    [[ $status -eq 2 && $content =~ ^"seqopchi: 'd.txt', line "[0-9]+": expected " ]]
}

# --- usage, input and output ------------------------------------------------------

usage_tests() {
    wrong 'a command is missing'
    wrong "there is no command 'plot'" plot j
    wrong 'a file name is missing' judge j
    wrong 'a file name is missing' plan -o x
    wrong "one file name too many: 'p'" plan j p -o x
    wrong '-o FILE is missing' plan j
    wrong '-o FILE is missing' pack x.txt
    wrong '-o FILE is missing' chart j p
    wrong "a value is missing behind '-o'" plan j -o
    wrong "given twice: '-o'" plan j -o x -o y
    wrong "given twice: '--lose'" replay j p --lose 0@1 --lose 0@2
    wrong "there is no option '--lose'" judge j p --lose 0@1
    wrong "there is no option '-x'" list -x j
    wrong 'standard input can be only one' judge - -
    wrong 'standard input can be only one' pack - --job - -o x
    wrong '--job goes with a plan, a task, times or a log' pack "$home/examples/sample.txt" --job j -o x
    for loss in '' 0 @ 0@ @3 0@3x 0@-1 ' 0@3' 0@3@4 4294967296@0 0@4294967296; do
        wrong 'expected GROUP@TICK' replay j p --lose "$loss"
    done
    good --help
    good --version
    check 'version' is out 'seqopchi 1.8, for job files of versions 1 to 4 and plan files of version 1'
    for command in plan judge trial replay list show trace pack unpack chart ask commit times; do
        check "help lists $command" has <("$tool" --help) "  $command "
        good "$command" --help
        check "usage of $command" has out "Usage: seqopchi $command "
    done
}

input_tests() {
    wrong "cannot read 'none': No such file" list none
    wrong "cannot read '.'" judge . p
    wrong "cannot read 'none'" judge j none
    wrong "cannot read 'none'" pack "$home/examples/oscilloscope-passed.txt" --job none -o y
    wrong 'longer than' pack /dev/zero -o y
    refuses "2 (version): byte 0 of '/dev/zero', the version, is 0; it must be from 1 to 4" list /dev/zero
    "$tool" list - <j >out 2>err
    check 'a job from standard input' is out "$("$tool" list j)"
    "$tool" judge j - <p >out 2>err
    check 'a plan from standard input' is out passed
    "$tool" judge - p <j >out 2>err
    check 'a job from standard input, with a plan' is out passed
    "$tool" pack - -o - <"$home/examples/sample.txt" >out 2>err
    check 'pack through a pipe' cmp -s out j
    "$tool" plan - -o - <j 2>err | "$tool" unpack j - >out 2>>err
    check 'plan and unpack through a pipe' is out "$("$tool" unpack j p)"
    "$tool" list - </dev/null >out 2>err
    status=$?
    check 'empty standard input' ended 1
    check 'its name' has err "'standard input' has fewer than 4 bytes left at byte 0"
    cp j ./-o
    good list -- -o
}

output_tests() {
    wrong "cannot write 'none/x': No such file" plan j -o none/x
    wrong "cannot write 'j/x': Not a directory" chart j p -o j/x
    wrong "cannot write '.'" plan j -o .
    wrong "cannot write '/dev/full': No space" plan j -o /dev/full
    check 'a device stays' test -c /dev/full
    "$tool" show j >/dev/full 2>err
    status=$?
    check 'a full standard output' ended 2
    check 'its message' has err "cannot write 'standard output': No space"
    "$tool" show j 2>err >&-
    status=$?
    check 'a closed standard output' ended 2
    { "$tool" unpack max.job 2>err; echo $? >code; } | true
    check 'a closed pipe' grep -qx '[02]' code
    good list j -o listing
    check 'a listing in a file' is listing "$("$tool" list j)"
    mkdir kept && echo old >kept/file && chmod 640 kept/file && ln -s file kept/link
    refuses '16 (no backup): no node has a place for the backup of task 1' plan k -o kept/link
    check 'a refusal keeps the old file' is kept/file old
    good plan j -o kept/link
    check 'a link stays a link' test -L kept/link
    check 'the new file is whole' cmp -s kept/file p
    check 'its mode is kept' test "$(stat -c %a kept/file)" = 640
    check 'nothing is left beside it' test "$(ls kept | wc -l)" -eq 2
    good plan j -o kept/new
    check 'a new file' cmp -s kept/new p
    cp j kept/same
    good plan kept/same -o kept/same
    check 'from a file to itself' cmp -s kept/same p
}

# --- the week in the README -------------------------------------------------------

week_tests() { # runs each command of a console block and compares what it prints
    local line inside=no command='' want=''
    mkdir -p stage/build
    ln -s "$tool" stage/build/seqopchi
    ln -s "$home/examples" stage/examples
    while IFS= read -r line; do
        case $inside:$line in
        no:'```console') inside=yes ;;
        yes:'```') week_step; inside=no command='' ;;
        yes:'$ '*) week_step; command=${line#'$ '} want='' ;;
        yes:*) want+=$line$'\n' ;;
        esac
    done <"$readme"
    check 'the week has commands' test "$steps" -gt 10
}

demo_tests() { # what README shows of the demo is what it prints
    good pack "$home/examples/oscilloscope.txt" -o demo.job
    good plan demo.job -o demo.plan
    {
        "$tool" list demo.job
        echo
        "$tool" replay demo.job demo.plan --lose 1@16
        echo
        "$tool" ask demo.job demo.plan "$home/examples/one-more-fit.txt"
        echo
        echo 'The charts are demo/plan.svg and demo/loss.svg.'
    } >demo.out
    check 'the demo as README prints it' cmp -s demo.out <(sed -n '/^```text$/,/^```$/{/^```/d;p}' "$readme")
}

steps=0
week_step() {
    [[ -n $command ]] || return
    steps=$((steps + 1))
    (cd stage && bash -c "$command") >out 2>&1
    : >err
    check "as printed: $command" cmp -s out <(printf %s "$want")
}

for group in sample round_trip example job_fault plan_fault rule ready ready_chart ready_file ready_text \
    send send_chart send_file send_text group group_chart group_file group_text order ask commit stale full task_fault task_file task_text \
    trace trace_file trial trial_chart trial_file times times_fault times_chart times_text log log_fault show_new log_text \
    usage ask_usage trace_usage trial_usage times_usage log_usage input output commit_output week demo \
    explain_help explain no_sentence line explain_usage; do
    "${group}_tests"
done
ASAN_OPTIONS+=:detect_leaks=0 # half the time; leaks were looked for up to here
text_damage_tests
damage_tests
task_damage_tests
trace_damage_tests
trial_damage_tests
times_damage_tests
log_damage_tests
sentence_damage_tests
echo "tool: $passed passed, $failed failed"
[[ $failed -eq 0 ]]
