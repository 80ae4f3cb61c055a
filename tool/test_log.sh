# Tests of logs of the last runs: times, show --new, unpack --log, and their text form; read by test.sh, whose functions it uses.
# The files j and p are sample J and its plan (0 0 1 5, 0 4 1 9); task 0 is listed with 4 ticks on each node, task 1 with 3.

records_to() { # records_to FILE: the records on standard input, each: task node ticks; as bytes
    printf "$(awk '{ for (k = 1; k <= 3; k++) for (i = 0; i < 4; i++) { printf "\\x%02x", $k % 256; $k = int($k / 256) } }')" >"$1"
}

take_records() { # the records l.rec as the text l.txt and the packed l.log
    records_to l.log <l.rec
    awk 'BEGIN { print "log" } { print "task", $1, "node", $2, "took", $3 }' l.rec >l.txt
}

log_of() { # log_of RECORD..: each: task node ticks
    : >l.rec
    [[ $# -eq 0 ]] || lines "$@" >l.rec
    take_records
}

renewed() { # renewed TEXT: that of a job, with the largest ticks of the newest 256 records of l.rec, worked out here
    awk -v records=l.rec '
        BEGIN {
            while ((getline line < records) > 0) record[++count] = line
            for (k = count > 256 ? count - 255 : 1; k <= count; k++) {
                split(record[k], r, " ")
                if (r[3] > most[r[1], r[2]] + 0) most[r[1], r[2]] = r[3] + 0
            }
        }
        $1 == "task" {
            for (first = 1; $first != "run"; first++);
            for (i = first + 1; i <= NF; i++) if (($2, i - first - 1) in most) $i = most[$2, i - first - 1]
        }
        { print }' "$1"
}

renews() { # renews WHAT JOB: each byte of the new job, by the text and by the packed log; l.sum is what is printed
    local log
    good unpack "$2" -o old.txt
    renewed old.txt >new.txt
    good pack new.txt -o want.job
    for log in l.txt l.log; do
        good times "$2" $log -o got.job
        check "$1, by $log" cmp -s got.job want.job
        cp out l.sum
    done
}

tells() { # tells WHAT LINE..: what the last renewal has printed
    check "$1" cmp -s l.sum <(lines "${@:2}")
}

column='task  node   listed          new  records'

refuses_log() { # refuses_log SENTENCE JOB LOG: by each command that takes a log
    echo old >old.job
    refuses "$1" times "$2" "$3" -o old.job
    check "the old job after $3" is old.job old
    refuses "$1" unpack "$2" --log "$3" -o none.job
    check "no file of $3" test ! -e none.job
}

# --- times ------------------------------------------------------------------------

log_tests() {
    log_of '0 0 3'
    renews 'one record' j
    tells 'its summary' 'log: records 1, all count' "$column" '   0     0        4  ->        3        1'
    log_of '1 2 2' '0 0 3' '1 2 1' '0 1 1000000' '1 2 2' '0 0 1'
    renews 'the largest of several' j
    tells 'their summary' 'log: records 6, all count' "$column" '   0     0        4  ->        3        2' \
        '   0     1        4  ->  1000000        1' '   1     2        3  ->        2        3'
    good unpack got.job
    check 'its run times' has out 'run 3 1000000 4
task 1 deadline 30 run 3 3 2'
    log_of '0 0 4' '1 1 3' '0 0 2'
    renews 'nothing new' j
    tells 'their summary' 'log: records 3, all count' 'no run time changed'
    check 'the job as it was' cmp -s got.job j
    log_of
    check 'an empty log has no bytes' test ! -s l.log
    renews 'no record' j
    tells 'their summary' 'log: records 0' 'no run time changed'
    log_version_tests
    log_window_tests
    log_random_tests
    log_output_tests
    log_long_tests
}

log_version_tests() { # each version, and a node that cannot run the task
    local job
    log_of '0 0 5' '1 2 1' '0 2 77' '1 0 300'
    later 2 12
    slow 3 0 1000
    grouped 5 0 15
    for job in j r s g; do
        renews "job $job" $job
        tells "the summary of $job" 'log: records 4, all count' "$column" '   0     0        4  ->        5        1' \
            '   0     2        4  ->       77        1' '   1     0        3  ->      300        1' '   1     2        3  ->        1        1'
        good show $job --new got.job
        check "only run times differ, $job" has out '
new job: run times that differ: 4, nothing else does'
    done
    job_text 's/run 4 4 4/run - 4 4/; s/run 3 3 3/run 3 - -/'
    good pack x.txt -o x.job
    log_of '0 1 9' '1 0 1'
    renews 'a node that cannot run a task' x.job
    good unpack got.job
    check 'stays so' has out 'run - 9 4
task 1 deadline 30 run 1 - -'
}

repeated() { # repeated COUNT RECORD: so many of one
    yes "$2" | head -n "$1"
}

log_window_tests() {
    { repeated 44 '0 0 9'; repeated 256 '0 0 3'; } >l.rec
    take_records
    renews 'the oldest 44 of 300 do not count' j
    tells 'their summary' 'log: records 300, of which the newest 256 count' "$column" '   0     0        4  ->        3      256'
    { repeated 44 '1 1 9'; repeated 256 '0 0 4'; } >l.rec
    take_records
    renews 'nor those of another task' j
    tells 'their summary' 'log: records 300, of which the newest 256 count' 'no run time changed'
    { echo '0 0 9'; repeated 255 '0 0 3'; } >l.rec
    take_records
    renews 'the oldest of 256 counts' j
    tells 'their summary' 'log: records 256, all count' "$column" '   0     0        4  ->        9      256'
    echo '1 2 2' >>l.rec
    take_records
    renews 'and moves out with one more' j
    tells 'their summary' 'log: records 257, of which the newest 256 count' "$column" '   0     0        4  ->        3      255' \
        '   1     2        3  ->        2        1'
    { repeated 299 '0 0 3'; echo '0 0 1'; } >l.rec
    take_records
    renews 'the newest is no larger' j
    log_oldest_tests
}

log_oldest_tests() { # a fault in the oldest of 300 records, and in the newest of those that do not count
    { echo '0 0 0'; repeated 299 '0 0 3'; } >l.rec
    take_records
    beyond_log 2 'the time of task 0 on node 0 in record 0' 8 0 1 1000000
    { repeated 43 '0 0 3'; echo '0 3 3'; repeated 256 '0 0 3'; } >l.rec
    take_records
    beyond_log 45 'the node of task 0 in record 43' 520 3 0 2
    { echo '0 0 3'; repeated 299 '0 0 0'; } >l.rec
    take_records
    beyond_log 3 'the time of task 0 on node 0 in record 1' 20 0 1 1000000
}

some_records() { # some_records COUNT SEED JOB-TEXT: of tasks on nodes that can run them
    awk -v count="$1" -v seed="$2" '
        function next_number(below) { seed = seed * 16807 % 2147483647; return seed % below }
        $1 == "task" { for (first = 1; $first != "run"; first++); for (i = first + 1; i <= NF; i++) if ($i != "-") able[n++] = $2 " " i - first - 1 }
        END { for (k = 0; k < count; k++) print able[next_number(n)], 1 + next_number(k % 3 ? 30 : 1000000) }' "$3"
}

log_random_tests() {
    local count
    good unpack o.job -o o.txt
    for count in 1 40 255 256 257 300 900; do
        some_records $count $count o.txt >l.rec
        take_records
        renews "$count records" o.job
    done
    good pack max4.txt -o max.job
    some_records 700 1 max4.txt >l.rec
    take_records
    renews 'the longest job' max.job
    check 'its length' test "$(wc -c <got.job)" -eq 10960
    awk 'BEGIN { for (task = 0; task < 64; task++) for (node = 0; node < 16; node++) print task, node, task + node + 1 }' >l.rec
    take_records
    renews 'a record of each task and node' max.job
    check 'those of the last 16 tasks count' has l.sum 'log: records 1024, of which the newest 256 count'
    check 'all of these changed' test "$(wc -l <l.sum)" -eq 258
}

log_output_tests() { # where the job, the log and the new job may stand
    local log
    log_of '0 0 3'
    renews 'a usual log' j
    cp j over.job
    good times over.job l.txt -o over.job
    check 'over the job itself' cmp -s over.job got.job
    cp l.log over.log
    good times j over.log -o over.log
    check 'over the log' cmp -s over.log got.job
    good times j l.log -o -
    check 'on standard output it stands alone' cmp -s out got.job
    "$tool" times j l.txt -o - 2>err | "$tool" list - >out 2>>err
    check 'planned through a pipe' cmp -s out <("$tool" list got.job)
    for log in l.txt l.log; do
        "$tool" times j - -o x.job <$log >out 2>err
        check "$log from standard input" cmp -s x.job got.job
    done
    "$tool" times - l.txt -o x.job <j >out 2>err
    check 'a job from standard input' cmp -s out l.sum
    "$tool" times j - -o x.job </dev/null >out 2>err
    check 'an empty standard input' cmp -s x.job j
    wrong "cannot write 'none/x': No such file" times j l.log -o none/x
    wrong "cannot write '/dev/full': No space" times j l.log -o /dev/full
    "$tool" times j l.log -o x.job >/dev/full 2>err
    status=$?
    check 'a full standard output' ended 2
    check 'its message' has err "cannot write 'standard output': No space"
}

log_long_tests() { # longer than any other text, and than what is read of a file at once
    local task
    good unpack j -o old.txt
    some_records 100000 7 old.txt >l.rec
    awk 'BEGIN { print "log" } { print "task", $1, "node", $2, "took", $3 }' l.rec >l.txt
    check 'a long text' test "$(wc -c <l.txt)" -gt 2000000
    good pack l.txt -o l.log
    check 'its length' test "$(wc -c <l.log)" -eq 1200000
    good pack l.txt --job j -o x.log
    check 'the same with its job' cmp -s l.log x.log
    good unpack j --log l.log
    check 'and back' cmp -s out l.txt
    renews 'by a long log' j
    check 'its records' has l.sum 'log: records 100000, of which the newest 256 count'
    { cat l.log; head -c 7 l.log; } >x.log
    read -r task _ <l.rec
    refuses_log "1 (short): 'x.log' has fewer than 4 bytes left at byte 1200004, for the node of task $task in record 100000" j x.log
    echo 'task 2 node 0 took 1' >>l.txt
    refuses_log "4 (value): line 100002 of 'l.txt', the task of record 100000 (byte 1200000 when packed), is 2; it must be from 0 to 1" j l.txt
    echo 'task' >>l.txt
    wrong "'l.txt', line 100003: expected the task that ran, but the line ends" times j l.txt -o none.job
    { yes '#' | head -c 1100000; cat l.txt; } >x.txt
    wrong 'longer than' times j x.txt -o none.job
    log_endless_tests
}

log_endless_tests() { # what cannot be a log is not read to its end
    refuses_log "4 (value): byte 8 of '/dev/zero', the time of task 0 on node 0 in record 0, is 0; it must be from 1 to 1000000" j /dev/zero
    wrong 'longer than' times j <(yes '#') -o none.job
    wrong 'longer than' unpack j --log <(yes)
    wrong 'longer than' pack <(yes) -o none.log
    head -c 20 j >x
    refuses_log "1 (short): 'x' has fewer than 4 bytes left at byte 20, for the task count" x /dev/zero
    check 'no file after all that' test ! -e none.job -a ! -e none.log
}

# --- faults of a log --------------------------------------------------------------

beyond_log() { # beyond_log LINE FIELD BYTE NUMBER LOW HIGH: of l.txt and l.log, by each command
    local limits="is $4; it must be from $5 to $6"
    refuses_log "4 (value): line $1 of 'l.txt', $2 (byte $3 when packed), $limits" j l.txt
    refuses_log "4 (value): byte $3 of 'l.log', $2, $limits" j l.log
    refuses "4 (value): line $1 of 'l.txt', $2 (byte $3 when packed), $limits" pack l.txt --job j -o none.log
    good pack l.txt -o x.log
    check 'packed unasked' cmp -s x.log l.log
}

log_fault_tests() {
    local number
    for number in 2 3 256 65536 16777216 4294967295; do
        log_of '1 2 1' "$number 9 0"
        beyond_log 3 'the task of record 1' 12 $number 0 1
    done
    for number in 3 4 259 4294967295; do
        log_of "1 $number 0" '5 5 5'
        beyond_log 2 'the node of task 1 in record 0' 4 $number 0 2
    done
    for number in 0 1000001 2000000 16777217 4294967295; do
        log_of '0 0 1' '0 0 1' "1 2 $number" '5 5 5'
        beyond_log 4 'the time of task 1 on node 2 in record 2' 32 $number 1 1000000
    done
    run times j l.log -o none.job
    check 'no file after a refusal' test $status -eq 1 -a ! -e none.job -a ! -e none.log
    log_of '0 0 1' '1 2 1000000'
    renews 'each number at its limit' j
    log_unable_tests
    log_length_tests
    log_order_tests
}

log_unable_tests() { # found before the ticks, and behind the limits of the node
    local ticks no_time='is 0, for which the job lists no run time of that task'
    job_text 's/run 3 3 3/run - 3 3/'
    good pack x.txt -o x.job
    for ticks in 3 0 4294967295; do
        log_of '0 0 3' "1 0 $ticks" '9 9 9'
        refuses_log "7 (unable): line 3 of 'l.txt', the node of task 1 in record 1 (byte 16 when packed), $no_time" x.job l.txt
        refuses_log "7 (unable): byte 16 of 'l.log', the node of task 1 in record 1, $no_time" x.job l.log
        refuses "7 (unable): line 3 of 'l.txt', the node of task 1 in record 1 (byte 16 when packed), $no_time" pack l.txt --job x.job -o none.log
    done
    head -c 20 l.log >x.log
    refuses_log "7 (unable): byte 16 of 'x.log', the node of task 1 in record 1, $no_time" x.job x.log
    log_of '1 3 1'
    refuses_log "4 (value): byte 4 of 'l.log', the node of task 1 in record 0, is 3; it must be from 0 to 2" x.job l.log
    { repeated 44 '1 0 3'; repeated 256 '0 0 3'; } >l.rec
    take_records
    refuses_log "7 (unable): byte 4 of 'l.log', the node of task 1 in record 0, $no_time" x.job l.log
    log_of '0 0 3' '1 1 2'
    renews 'where it can run' x.job
}

log_length_tests() { # cut before and within each number: only whole records make a log
    local length=0 field rest
    log_of '0 0 3' '1 2 2'
    for field in 'the task of record 0' 'the node of task 0 in record 0' 'the time of task 0 on node 0 in record 0' \
        'the task of record 1' 'the node of task 1 in record 1' 'the time of task 1 on node 2 in record 1' 'the task of record 2'; do
        for rest in 0 1 2 3; do
            { cat l.log; printf '\0\0\0'; } | head -c $((length + rest)) >x.log
            if [[ $((length % 12)) -eq 0 && $rest -eq 0 ]]; then
                good times j x.log -o x.job
                check "whole records, $length bytes" has out "log: records $((length / 12))"
            else
                refuses_log "1 (short): 'x.log' has fewer than 4 bytes left at byte $length, for $field" j x.log
            fi
        done
        length=$((length + 4))
    done
    check 'the length of the log' test "$((length - 4))" -eq "$(wc -c <l.log)"
    log_of '1 2 2'
    head -c 1 l.log >x.log
    wrong "'x.log', line 1: expected 'log', found '?'" times j x.log -o none.job
}

log_order_tests() { # the job comes before a faulty log, the first fault of this before the later ones
    local log
    log_of '9 9 9' '0 9 9'
    head -c 20 j >x
    for log in l.txt l.log; do
        refuses_log "1 (short): 'x' has fewer than 4 bytes left at byte 20, for the task count" x $log
    done
    refuses "1 (short): 'x' has fewer than 4 bytes left at byte 20, for the task count" pack l.txt --job x -o none.log
    cat j j >x
    refuses_log "6 (tail): byte 72 of 'x' follows the last section, where the file must end" x l.log
    refuses_log "4 (value): byte 0 of 'l.log', the task of record 0, is 9; it must be from 0 to 1" j l.log
    log_of '0 3 0' '0 9 9'
    refuses_log "7 (unable): byte 4 of 'l.log', the node of task 0 in record 0, is 3, for which the job lists no run time of that task" o.job l.log
    check 'no file after a refusal' test ! -e none.log
}

# --- show, of two jobs ------------------------------------------------------------

compared() { # compared WHAT JOB JOB LINE..: what show says behind the links of the first
    good show "$2" --new "$3"
    check "$1" cmp -s <(sed -n '/^new job: /,$p' out) <(lines "${@:4}")
}

differs() { # differs WHAT SED LINE..: of sample J and with this script
    job_text "$2"
    good pack x.txt -o x.job
    compared "$1" j x.job 'new job: run times that differ: 0, and also' "${@:3}"
    good show j
    cp out j.out
    good show j --new x.job
    check "the job itself, $1" cmp -s j.out <(sed '/^new job: /,$d' out | sed '$d')
}

show_new_tests() {
    log_of '0 0 3' '1 2 1000000' '1 1 1' '0 0 2'
    renews 'a usual log' j
    good show j --new got.job
    check 'the new run times beneath the old' has out '
   0        30                   4        4        4
 new                             3
   1        30                   3        3        3
 new                                      1  1000000
'
    check 'else the job' cmp -s <("$tool" show j) <(sed '/^ new /d; /^new job: /d' out | sed '$d')
    compared 'the same job' j j 'new job: the same'
    compared 'the other way round' got.job j 'new job: run times that differ: 3, nothing else does'
    good show got.job --new j
    check 'the old run times are the new ones' has out '
   0        30                   3        4        4
 new                             4
   1        30                   3        1  1000000
 new                                      3        3
'
    differs 'a deadline' 's/deadline 30 run 3/deadline 29 run 3/' 'deadline of task 1: 30, new 29'
    differs 'a detect time' 's/node 1 detect 1/node 1 detect 0/' 'detect time of node 1: 1, new 0'
    differs 'a delay' 's/delay 2/delay 3/' 'link 0 to 1: delay 2, new 3'
    differs 'a link less' '/^link/d' 'links: 1, new 0' 'link 0 to 1: delay 2, in the old job only'
    compared 'a link more' x.job j 'new job: run times that differ: 0, and also' 'links: 0, new 1' 'link 0 to 1: delay 2, in the new job only'
    show_new_shape_tests
    show_new_version_tests
    show_new_plan_tests
}

show_new_shape_tests() { # other counts, and links that are in one job only
    job_text 's/^task 1.*/&\ntask 2 deadline 9 run 1 1 1/; s/run 3 3 3/run 3 - 3/; $a link 0 to 2 delay 7'
    good pack x.txt -o x.job
    compared 'a task more' j x.job 'new job: run times that differ: 1, and also' 'tasks: 2, new 3' 'links: 1, new 2' \
        'link 0 to 2: delay 7, in the new job only'
    check 'a run time that is no more' has out '
   1        30                   3        3        3
 new                                      -
'
    compared 'a task less' x.job j 'new job: run times that differ: 1, and also' 'tasks: 3, new 2' 'links: 2, new 1' \
        'link 0 to 2: delay 7, in the old job only'
    lines 'job 1' 'node 0 detect 1' 'node 1 detect 1' 'task 0 deadline 30 run 9 4' 'task 1 deadline 30 run 3 3' 'link 0 to 1 delay 2' >y.txt
    good pack y.txt -o y.job
    compared 'a node less' j y.job 'new job: run times that differ: 1, and also' 'nodes: 3, new 2'
    compared 'a node more' y.job j 'new job: run times that differ: 1, and also' 'nodes: 2, new 3'
    lines 'job 1' 'node 0 detect 1' 'node 1 detect 1' 'task 0 deadline 9 run 1 1' 'task 1 deadline 9 run 1 1' 'task 2 deadline 9 run 1 1' >x.txt
    lines 'link 0 to 1 delay 1' 'link 0 to 2 delay 1' | cat x.txt - >y.txt
    good pack y.txt -o x.job
    lines 'link 0 to 2 delay 5' 'link 1 to 2 delay 1' | cat x.txt - >y.txt
    good pack y.txt -o y.job
    compared 'other links, as many' x.job y.job 'new job: run times that differ: 0, and also' 'link 0 to 1: delay 1, in the old job only' \
        'link 0 to 2: delay 1, new 5' 'link 1 to 2: delay 1, in the new job only'
    good show max.job --new j
    good show j --new max.job
}

show_new_version_tests() { # what a version lacks counts as for the library
    later 0 0
    compared 'only the version' j r 'new job: run times that differ: 0, and also' 'version: 1, new 2'
    later 2 12
    compared 'ready times' r j 'new job: run times that differ: 0, and also' 'version: 2, new 1' 'ready time of task 0: 2, new 0' \
        'ready time of task 1: 12, new 0'
    slow 3 0 1000
    compared 'send times' j s 'new job: run times that differ: 0, and also' 'version: 1, new 3' 'send time of node 0: 0, new 3' \
        'send time of node 2: 0, new 1000'
    grouped 0 1 2
    compared 'each node its own group' j g 'new job: run times that differ: 0, and also' 'version: 1, new 4'
    cp g h
    grouped 5 1 5
    compared 'groups' h g 'new job: run times that differ: 0, and also' 'supply group of node 0: 0, new 5' 'supply group of node 2: 2, new 5'
    log_of '1 1 1'
    renews 'a usual log' g
    good show g --new got.job
    check 'beneath a task with a ready time' has out '
   1        0        30                   3        3        3
 new                                               1
'
}

show_new_plan_tests() { # a plan is judged for both jobs
    log_of '0 0 5'
    renews 'a longer run time' j
    good show j p --new got.job
    check 'refused for the new job' has out '
plan, by the judge: passed
the same plan for the new job: refused 9 (early): the backup of task 0 starts before'
    check 'the places are those of the job' has out '   0           0        0        4          1        5        9        30'
    good show got.job p --new j
    check 'the other way round' has out "backup of task 0 starts before its primary's finish plus the detect time of the primary's node
the same plan for the new job: passed
"
    good show j p --new o.job
    check 'a plan of another job' has out "
the same plan for the new job: refused 3 (count): byte 4 of 'p', the task count, is 2; it must be 11
"
    good show j p
    check 'no word of a new job without one' eval '! has out new'
    good show j p --new j -o shown.txt
    check 'into a file' has shown.txt 'new job: the same'
}

# --- the text form ----------------------------------------------------------------

log_round_trip() { # log_round_trip TEXT JOB
    good pack "$1" --job "$2" -o u.log
    good unpack "$2" --log u.log -o u.txt
    good pack u.txt --job "$2" -o v.log
    check "log of $1 twice" cmp -s u.log v.log
    good pack u.txt -o w.log
    check "log of $1 without its job" cmp -s u.log w.log
    good unpack "$2" --log "$1"
    check "text of $1 at once" cmp -s u.txt out
}

log_text_tests() {
    block 9 "$home/tool/TEXT.md" >described-log.txt
    log_round_trip described-log.txt d.job
    check 'the text of a log' cmp -s u.txt <(sed 's/ *#.*//' described-log.txt)
    log_round_trip "$home/examples/friday-log.txt" o.job
    check 'its length' test "$(wc -c <u.log)" -eq 396
    cp u.log friday.log
    check 'its text' cmp -s u.txt <(sed 's/ *#.*//; /^$/d' "$home/examples/friday-log.txt")
    log_of
    log_round_trip l.txt j
    check 'an empty one' is u.txt log
    log_of '1 2 3' '0 1 1000000' '1 0 65536'
    log_round_trip l.txt j
    check 'the numbers in their order' cmp -s u.log l.log
    check 'and in the text' cmp -s u.txt l.txt
    printf '# x\n\r\n\tlog\t# y\n\n task 0 node\t001 took 1\r\ntask 1 node 2 took 12#z' >x.txt
    good pack x.txt --job j -o u.log
    good unpack j --log u.log
    check 'an odd text' cmp -s out <(lines log 'task 0 node 1 took 1' 'task 1 node 2 took 12')
    log_wrong_tests
    log_example_tests
}

log_example_tests() { # the rack's log on Friday
    good times o.job "$home/examples/friday-log.txt" -o next.job
    cp out l.sum
    sed -n 's/^task \([0-9]*\) node \([0-9]*\) took /\1 \2 /p' "$home/examples/friday-log.txt" >l.rec
    good unpack o.job -o old.txt
    renewed old.txt >new.txt
    good pack new.txt -o want.job
    check "next Monday's job" cmp -s next.job want.job
    good plan next.job -o next.plan
    good judge next.job next.plan
    good chart next.job next.plan -o -
    check "the chart of next Monday's plan" cmp -s out "$home/examples/oscilloscope-next.svg"
}

log_wrong() { # log_wrong WORDS-IN-MESSAGE LINE..: the text l.txt, by each command that takes it
    lines "${@:2}" >l.txt
    wrong "'l.txt', line $1" times j l.txt -o none.job
    wrong "'l.txt', line $1" unpack j --log l.txt
    [[ ${2-} != log* ]] || wrong "'l.txt', line $1" pack l.txt --job j -o none.log
    check "no file, $1" test ! -e none.job -a ! -e none.log
}

log_wrong_tests() {
    local first='task 0 node 0 took 4' text
    log_wrong "2: expected 'log', but the text ends" '# none'
    log_wrong "1: expected 'log', found 'task'" "$first"
    log_wrong "1: expected 'log', found 'times'" times 'task 0 primary 4 backup 4'
    log_wrong "1: expected 'log', found 'Log'" Log "$first"
    log_wrong "1: expected 'log', found '-log'" -log "$first"
    log_wrong "1: expected the end of the line, found '1'" 'log 1' "$first"
    log_wrong "1: expected the end of the line, found 'task'" "log $first"
    log_wrong "2: expected 'task', found 'node'" log 'node 0 task 0 took 4'
    log_wrong "3: expected 'task', found 'log'" log "$first" log
    log_wrong '2: expected the task that ran, but the line ends' log task
    log_wrong "2: expected the task that ran, found '-'" log 'task - node 0 took 4'
    log_wrong "4: expected 'node', found 'primary'" log "$first" '' 'task 0 primary 4 backup 4'
    log_wrong "2: expected 'node', but the line ends" log 'task 0'
    log_wrong '2: expected the node that it ran on, but the line ends' log 'task 0 node'
    log_wrong "2: expected the node that it ran on, found '0x1'" log 'task 0 node 0x1 took 4'
    log_wrong "2: expected 'took', found '4'" log 'task 0 node 0 4'
    log_wrong "2: expected 'took', but the line ends" log 'task 0 node 0'
    log_wrong '3: expected the ticks that it took, but the line ends' log "$first" 'task 1 node 0 took'
    log_wrong "3: expected the ticks that it took, found '-1'" log "$first" 'task 1 node 0 took -1'
    log_wrong "3: expected the ticks that it took, found '4294967296'" log "$first" 'task 1 node 0 took 4294967296'
    log_wrong "2: expected the task that ran, found '99999999999999999999'" log 'task 99999999999999999999 node 0 took 4'
    log_wrong "2: expected the end of the line, found '5'" log "$first 5" "$first"
    wrong "'l.txt', line 2: expected the end of the line" pack l.txt -o none.log
    for text in 'job 1' 'plan 1' 'times' 'task deadline 3'; do
        log_wrong "1: expected 'log', found '${text%% *}'" "$text"
    done
    lines 'plot 1' >l.txt
    wrong "'l.txt', line 1: expected 'job', 'plan', 'task', 'times' or 'log' as the first word" pack l.txt -o none.log
    check 'no file of it' test ! -e none.log
}

# --- usage ------------------------------------------------------------------------

log_usage_tests() {
    local command
    log_of '0 0 3'
    wrong '-o FILE is missing' times j l.txt
    wrong 'a file name is missing' times j -o none
    wrong 'a file name is missing' times -o none
    wrong "one file name too many: 'l.txt'" times j p l.txt -o none
    wrong 'standard input can be only one' times - - -o none
    wrong "there is no option '--log'" times j --log l.txt -o none
    wrong "there is no option '--times'" times j l.txt --times t.txt -o none
    wrong "there is no option '--job'" times l.txt --job j -o none
    wrong "given twice: '-o'" times j l.txt -o none -o none2
    wrong "cannot read 'none'" times none l.txt -o none2
    for command in 'times j none -o none2' 'unpack j --log none' 'pack none --job j -o none2' 'show j --new none'; do
        wrong "cannot read 'none': No such file" $command
    done
    for command in 'times j . -o none' 'unpack j --log .' 'show j --new .'; do wrong "cannot read '.'" $command; done
    wrong '--log goes with a job alone' unpack j p --log l.txt
    wrong '--log goes with a job alone' unpack j p n.txt --log l.txt
    wrong '--times goes with a job and a plan' unpack j --log l.txt --times t.txt
    wrong '--log goes with a job alone' unpack j p --log l.txt --times t.txt
    wrong "a value is missing behind '--log'" unpack j --log
    wrong "given twice: '--log'" unpack j --log l.txt --log l.txt
    wrong 'standard input can be only one' unpack - --log -
    log_option_tests
    log_pack_usage_tests
    check 'no file after all that' test ! -e none -a ! -e none2
    good times --help
    check 'help tells of the newest' has out 'Of the newest 256'
    good show --help
    check 'help tells of --new' has out 'With --new the job is compared'
}

log_option_tests() {
    local command log
    wrong "a value is missing behind '--new'" show j --new
    wrong "given twice: '--new'" show j --new j --new j
    wrong 'standard input can be only one' show - --new -
    wrong 'standard input can be only one' show j - --new -
    "$tool" show j --new - <j >out 2>err
    check 'a new job from standard input' has out 'new job: the same'
    head -c 20 j >x
    refuses "1 (short): 'x' has fewer than 4 bytes left at byte 20, for the task count" show j --new x
    refuses "1 (short): 'x' has fewer than 4 bytes left at byte 20, for the task count" show x --new j
    refuses "2 (version): byte 0 of 'l.txt', the version, is 174550892; it must be from 1 to 4" show j p --new l.txt
    for command in 'plan j -o none' 'judge j p' 'replay j p' 'list j' 'trace j p' 'trial j p' 'chart j p -o none' 'pack l.txt -o none' \
        'ask j p n.txt' 'commit j p n.txt -o none none2'; do
        wrong "there is no option '--log'" $command --log l.txt
        wrong "there is no option '--new'" $command --new j
    done
    wrong "there is no option '--log'" show j --log l.txt
    wrong "there is no option '--new'" unpack j --new j
    for log in l.txt l.log; do
        "$tool" unpack j --log - <$log >out 2>err
        check "$log from standard input" cmp -s out l.txt
    done
}

log_pack_usage_tests() {
    wrong "has no times: --plan goes with a list of them" pack l.txt --job j --plan p -o none
    wrong "has no times: --plan goes with a list of them" pack l.txt --plan p -o none
    wrong "cannot read 'none'" pack l.txt --job none -o none
    wrong 'standard input can be only one' pack - --job - -o none
    "$tool" pack - --job j -o - <l.txt 2>err | "$tool" unpack j --log - >out 2>>err
    check 'pack and unpack through a pipe' cmp -s out l.txt
    "$tool" pack l.txt --job - -o x.log <j 2>err
    check 'a job from standard input' cmp -s x.log l.log
}

# --- damaged logs -----------------------------------------------------------------

# Each goes to times and unpack in turn: none may end in another way than with success or with a refusal in its form.
log_turn=0
damaged_log() { # damaged_log JOB FILE
    rm -f d.out
    if ((log_turn++ % 2)); then
        run times "$1" "$2" -o d.out
    else
        run unpack "$1" --log "$2"
    fi
}

log_damage_tests() {
    local bit at
    log_of '0 2 3' '1 1 1000000' '0 0 65537'
    bytes_of l.log
    for ((bit = 0; bit < 8 * ${#bytes[@]}; bit++)); do
        flip d.log $bit "${bytes[@]}"
        damaged_log j d.log
        check "damaged log, bit $bit" ended_well times
    done
    bytes_of friday.log
    for ((at = 1; at < ${#bytes[@]}; at += 5)); do
        write_bytes d.log "${bytes[@]:0:at}" "${bytes[@]:at+1}"
        damaged_log o.job d.log
        check "damaged log, without byte $at" ended_well times
        write_bytes d.log "${bytes[@]:0:at}"
        damaged_log o.job d.log
        check "damaged log, $at bytes" ended_well times
    done
    log_text_damage_tests
}

log_text_damage_tests() { # a damaged text is taken, refused, or ends with a message that names its line
    local at
    log_of '0 2 3' '1 1 1000000'
    bytes_of l.txt
    for ((at = 0; at < ${#bytes[@]}; at++)); do
        write_bytes d.txt "${bytes[@]:0:at}"
        damaged_log j d.txt
        check "damaged text, $at bytes" list_ended_well
        flip d.txt $((8 * at + at % 8)) "${bytes[@]}"
        damaged_log j d.txt
        check "damaged text, byte $at" list_ended_well
    done
}
