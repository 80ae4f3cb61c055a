# Tests of ask, commit and the files of one more task; read by test.sh, whose functions it uses.
# The files j and p are sample J and its plan (0 0 1 5, 0 4 1 9), r, s and g are sample J in versions 2 to 4.

# What ask and commit answer to the usual task: two ticks on each node, behind task 1.
usual=('task deadline 30 run 2 2 2' 'link from 1 delay 1')
usual_places='primary on node 0 from 7 to 9
backup on node 1 from 12 to 14, deadline 30'
usual_place='place primary 0 at 7 backup 1 at 12'

task_text() { lines "$@" >n.txt; } # task_text LINE..

offers() { # offers PRIMARY FROM TO BACKUP FROM TO JOB PLAN TASK: what ask prints, but for the first line and the deadline
    good ask "${@:7}"
    check "the places of ${*:7}" has out "; nothing is booked
primary on node $1 from $2 to $3
backup on node $4 from $5 to $6, deadline "
    check "the last line of ask ${*:7}" has out "
place primary $1 at $2 backup $4 at $5"
}

books() { # books JOB PLAN TASK: into y.job and y.plan, which pass
    good commit "$@" -o y.job y.plan
    good judge y.job y.plan
}

keeps() { # keeps SENTENCE JOB PLAN TASK: a refused commit leaves the file that is there, and makes none
    echo old >old.job
    refuses "$1" commit "${@:2}" -o old.job none.plan
    check "the old job after commit ${*:2}" is old.job old
    check "no plan after commit ${*:2}" test ! -e none.plan
}

refuses_both() { # refuses_both SENTENCE JOB PLAN TASK: by ask and by commit
    refuses "$1" ask "${@:2}"
    keeps "$@"
}

wrong_both() { # wrong_both WORDS-IN-MESSAGE TASK: by ask, by commit and by pack, beside j and p
    wrong "$1" ask j p "$2"
    wrong "$1" commit j p "$2" -o none.job none.plan
    wrong "$1" pack "$2" --job j -o none.task
    check "no file of $2" test ! -e none.job -a ! -e none.plan -a ! -e none.task
}

# --- asking -----------------------------------------------------------------------

ask_tests() {
    local before
    task_text "${usual[@]}"
    cp j j.kept
    cp p p.kept
    before=$(ls)
    good ask j p n.txt
    check 'what ask prints' is out "task 2 would find room; nothing is booked
$usual_places
$usual_place"
    check 'ask makes no file' test "$(ls)" = "$before"
    check 'ask leaves the job' cmp -s j j.kept
    check 'ask leaves the plan' cmp -s p p.kept
    good ask j p n.txt
    check 'asked again' has out "$usual_place"
    good ask j p n.txt -o answer
    check 'the answer in a file' has answer "$usual_place"
    check 'and nothing printed' is out ''
    good pack n.txt --job j -o n.task
    offers 0 7 9 1 12 14 j p n.task
    "$tool" ask j p - <n.txt >out 2>err
    check 'a text from standard input' has out "$usual_place"
    "$tool" ask - p n.task <j >out 2>err
    check 'a job from standard input' has out "$usual_place"
    task_text 'task deadline 1000000 run - 1000 3'
    offers 2 0 3 1 4 1004 j p n.txt
    task_text 'task deadline 6 run 3 3 3'
    offers 1 0 3 2 4 7 j p <(sed 's/deadline 6/deadline 7/' n.txt)
    refuses '16 (no backup): no node has a place for the backup of task 2' ask j p n.txt
    task_text 'task deadline 2 run 3 3 3'
    refuses '15 (no primary): no node has a place for the primary of task 2' ask j p n.txt
    task_text 'task deadline 30 run - - -'
    refuses '15 (no primary): no node has a place for the primary of task 2' ask j p n.txt
    ask_beside_tests
}

ask_beside_tests() { # beside copies that the planner did not place, ready times and send times
    task_text "${usual[@]}"
    plan_of '0 0 1 5' '0 10 1 20'
    offers 0 13 15 1 23 25 j x.plan n.txt
    later 0 4
    task_text 'task ready 8 deadline 30 run 2 2 2' 'link from 1 delay 1'
    offers 0 8 10 1 12 14 r p n.txt
    task_text 'task ready 1 deadline 30 run 2 2 2' 'link from 1 delay 1'
    offers 0 7 9 1 12 14 r p n.txt
    task_text 'task ready 29 deadline 30 run 2 2 2'
    refuses '15 (no primary): no node has a place for the primary of task 2' ask r p n.txt
    slow 3 0 1000
    task_text 'task ready 0 deadline 30 run - 2 2' 'link from 1 delay 1'
    offers 2 11 13 1 14 16 s p n.txt
    slow 2 0 1000
    offers 2 10 12 1 13 15 s p n.txt
    ask_group_tests
}

ask_group_tests() { # not beside its primary's group, which is said
    task_text 'task ready 0 deadline 30 run 2 2 2' 'link from 1 delay 1'
    grouped 5 3 3
    good ask g p n.txt
    check 'the places with their groups' is out 'task 2 would find room; nothing is booked
primary on node 0 (group 5) from 7 to 9
backup on node 1 (group 3) from 12 to 14, deadline 30
place primary 0 at 7 backup 1 at 12'
    sed -i 's/run 2 2 2/run 2 2 5/' n.txt
    plan_of '0 0 2 5' '0 4 2 9'
    grouped 5 5 3
    good ask g x.plan n.txt
    check 'no backup in the drawer of its primary' has out '
primary on node 0 (group 5) from 7 to 9
backup on node 2 (group 3) from 12 to 17, deadline 30
'
    grouped 5 0 3
    good ask g x.plan n.txt
    check 'one on the other supply' has out '
backup on node 1 (group 0) from 13 to 15, deadline 30
'
    grouped 5 5 5
    refuses '8 (same node): task 0 has its primary and its backup in one supply group' ask g p n.txt
}

# --- committing -------------------------------------------------------------------

commit_tests() {
    task_text "${usual[@]}"
    books j p n.txt
    good commit j p n.txt -o y.job y.plan
    check 'what commit prints' is out "task 2 is booked
$usual_places"
    good plan y.job -o x.plan
    check "the planner's plan of the longer job" cmp -s x.plan y.plan
    task_text 'task deadline 30 run 2 2 -' 'link from 0 delay 5' 'link from 1 delay 1'
    books j p n.txt
    good unpack y.job
    check 'links in order' is out 'job 1
node 0 detect 1
node 1 detect 1
node 2 detect 1
task 0 deadline 30 run 4 4 4
task 1 deadline 30 run 3 3 3
task 2 deadline 30 run 2 2 -
link 0 to 1 delay 2
link 0 to 2 delay 5
link 1 to 2 delay 1'
    booking_tests
    version_tests
    sequence_tests
    in_place_tests
}

booking_tests() { # with a place, the asked one or another that keeps the rules
    task_text "${usual[@]}"
    good commit j p n.txt -o x.job x.plan
    task_text "${usual[@]}" "$usual_place"
    books j p n.txt
    check 'the asked place, job' cmp -s x.job y.job
    check 'the asked place, plan' cmp -s x.plan y.plan
    good pack n.txt --job j -o n.task
    books j p n.task
    check 'packed, job' cmp -s x.job y.job
    check 'packed, plan' cmp -s x.plan y.plan
    "$tool" commit j p - -o y.job y.plan <n.task >out 2>err
    check 'packed, from standard input' has out 'task 2 is booked'
    task_text "${usual[@]}" 'place primary 0 at 15 backup 1 at 28'
    books j p n.txt
    good unpack y.job y.plan
    check 'another place' is out 'plan 1
task 0 primary 0 at 0 backup 1 at 5
task 1 primary 0 at 4 backup 1 at 9
task 2 primary 0 at 15 backup 1 at 28'
}

books_in() { # books_in JOB WHAT TEXT: n.txt beside p; the longer job says this, and is planned as it is booked
    books "$1" p n.txt
    good unpack y.job
    check "$2" has out "$3"
    good plan y.job -o x.plan
    check "the planner's plan of it" cmp -s x.plan y.plan
}

version_tests() { # the longer job is in the version of the job
    task_text 'task ready 8 deadline 30 run 2 2 2' 'link from 1 delay 1'
    later 0 4
    books_in r 'version 2, ready times' 'job 2
node 0 detect 1
node 1 detect 1
node 2 detect 1
task 0 ready 0 deadline 30 run 4 4 4
task 1 ready 4 deadline 30 run 3 3 3
task 2 ready 8 deadline 30 run 2 2 2
link 0 to 1 delay 2
link 1 to 2 delay 1'
    slow 3 0 1000
    books_in s 'version 3, send times' 'job 3
node 0 detect 1 send 3
node 1 detect 1 send 0
node 2 detect 1 send 1000
task 0 ready 0 '
    grouped 15 3 15
    books_in g 'version 4, groups' 'job 4
node 0 detect 1 send 0 group 15
node 1 detect 1 send 0 group 3
node 2 detect 1 send 0 group 15
task 0 ready 0 '
    longest_commit_tests
}

longest_commit_tests() { # the longest job without its last task, then that task
    sed '/^task 63 /d; / to 63 /d' max4.txt >x.txt
    good pack x.txt -o x.job
    good plan x.job -o x.plan
    sed -n 's/^task 63 /task /p; s/^link \([0-9]*\) to 63 /link from \1 /p' max4.txt >n.txt
    books x.job x.plan n.txt
    good pack max4.txt -o t.job
    check 'the longest job, by commit' cmp -s y.job t.job
    good plan t.job -o x.plan
    check "the planner's plan of it" cmp -s x.plan y.plan
}

sequence_tests() { # asks and commits in turn: each plan held passes and is the planner's
    cp o.job s.job
    cp o.plan s.plan
    for from in 4 5 11 0 12; do
        task_text 'task deadline 200 run 9 16 11 16' "link from $from delay 3"
        good ask s.job s.plan n.txt
        tail -n 1 out >>n.txt
        good commit s.job s.plan n.txt -o s.job s.plan
        good judge s.job s.plan
        good plan s.job -o x.plan
        check "the planner's plan behind task $from" cmp -s x.plan s.plan
    done
    check 'five more tasks' test "$(wc -c <s.plan)" -eq $((8 + 16 * 16))
    keeps '21 (stale): the place proposed for task 16 breaks a rule beside the copies held; ask again' s.job s.plan n.txt
    task_text 'task deadline 20 run 9 16 11 16' 'link from 4 delay 3'
    refuses_both '15 (no primary): no node has a place for the primary of task 16' s.job s.plan n.txt
}

in_place_tests() { # onto the files that are read
    cp j s.job
    cp p s.plan
    task_text "${usual[@]}"
    good commit j p n.txt -o y.job y.plan
    good commit s.job s.plan n.txt -o s.job s.plan
    check 'the job onto itself' cmp -s s.job y.job
    check 'the plan onto itself' cmp -s s.plan y.plan
    cp n.txt s.txt
    good commit j p s.txt -o s.txt s.plan
    check 'the job onto the task' cmp -s s.txt y.job
    cp j s.job
    cp p s.plan
    good commit s.job s.plan n.txt -o s.plan s.job
    check 'the plan onto the job' cmp -s s.job y.plan
}

# --- stale and full ---------------------------------------------------------------

stale='21 (stale): the place proposed for task 2 breaks a rule beside the copies held; ask again'
breaks() { # breaks RULE LONGER-JOB JOB PLACE [TASK-LINE]: the judge names the rule, commit says stale
    task_text "${5-${usual[0]}}" "${usual[1]}" "place primary $4"
    { "$tool" unpack j p; echo "task 2 primary $4"; } >x.txt
    good pack x.txt --job "$2" -o x.plan
    run judge "$2" x.plan
    check "rule $1 by $4" has err "refused $1 ("
    keeps "$stale" "$3" p n.txt
}

stale_tests() {
    task_text "${usual[@]}"
    good commit j p n.txt -o long.job long.plan
    breaks 8 long.job j '0 at 7 backup 0 at 12'
    breaks 9 long.job j '0 at 7 backup 1 at 9'
    breaks 10 long.job j '0 at 7 backup 1 at 29'
    breaks 11 long.job j '0 at 6 backup 1 at 12'
    breaks 12 long.job j '0 at 7 backup 1 at 11'
    breaks 12 long.job j '0 at 7 backup 2 at 12'
    breaks 13 long.job j '2 at 8 backup 0 at 15'
    breaks 14 long.job j '1 at 8 backup 2 at 20'
    breaks 9 long.job j '0 at 1000000 backup 1 at 1000000'
    later 0 4
    task_text 'task ready 8 deadline 30 run 2 2 2' 'link from 1 delay 1'
    good commit r p n.txt -o long2.job long2.plan
    breaks 19 long2.job r '0 at 7 backup 1 at 12' 'task ready 8 deadline 30 run 2 2 2'
    sed -i 's/ready 8/ready 7/' n.txt
    books r p n.txt
    stale_send_tests
    stale_group_tests
    task_text "${usual[@]}" 'place primary 0 at 7 backup 2 at 13'
    books j p n.txt
    task_text "${usual[@]}" "$usual_place"
    keeps "${stale/task 2/task 3}" long.job long.plan n.txt
    good pack n.txt --job long.job -o n.task
    keeps "${stale/task 2/task 3}" long.job long.plan n.task
}

stale_send_tests() { # a result that is still on its way
    slow 3 2 1000
    task_text 'task ready 0 deadline 30 run 2 2 2' "${usual[1]}"
    good commit s p n.txt -o long3.job long3.plan
    breaks 11 long3.job s '2 at 10 backup 1 at 20' 'task ready 0 deadline 30 run 2 2 2'
    breaks 12 long3.job s '0 at 7 backup 2 at 14' 'task ready 0 deadline 30 run 2 2 2'
    sed -i 's/at 14/at 15/' n.txt
    books s p n.txt
}

stale_group_tests() { # a backup that would go dark with its primary, or with one that feeds it
    local task='task ready 0 deadline 30 run 2 2 2'
    grouped 5 3 5
    task_text "$task" "${usual[1]}"
    good commit g p n.txt -o long4.job long4.plan
    breaks 13 long4.job g '1 at 8 backup 2 at 20' "$task"
    breaks 8 long4.job g '0 at 7 backup 2 at 13' "$task"
    grouped 5 3 3
    books g p n.txt
}

wide_job() { # wide_job TASKS LINKS: into w.job and w.plan, of two nodes
    local t u k=0
    {
        lines 'job 1' 'node 0 detect 1' 'node 1 detect 1'
        for ((t = 0; t < $1; t++)); do echo "task $t deadline 1000000 run 1 1"; done
        for ((t = 0; t < $1; t++)); do
            for ((u = t + 1; u < $1 && k < $2; u++, k++)); do echo "link $t to $u delay 0"; done
        done
    } >w.txt
    good pack w.txt -o w.job
    good plan w.job -o w.plan
}

links_from() { # links_from COUNT: a link from each of so many tasks
    for ((t = 0; t < $1; t++)); do echo "link from $t delay 0"; done
}

full_tests() {
    local task='task deadline 1000000 run 1 1' place='place primary 0 at 500 backup 1 at 600'
    local tasks='20 (full): the job has 64 tasks, and no job has more'
    local links='20 (full): with task 63 the job would have 513 links, and no job has more than 512'
    wide_job 63 512
    task_text "$task"
    books w.job w.plan n.txt
    refuses_both "$tasks" y.job y.plan n.txt
    task_text "$task" 'link from 5 delay 0'
    refuses_both "$links" w.job w.plan n.txt
    task_text "$task" 'link from 5 delay 0' "$place"
    keeps "$links" w.job w.plan n.txt
    task_text 'task deadline 1 run 1 1' 'link from 5 delay 0'
    refuses_both "$links" w.job w.plan n.txt
    wide_job 63 511
    task_text "$task" 'link from 5 delay 0'
    books w.job w.plan n.txt
    check 'the longest job of two nodes' test "$(wc -c <y.job)" -eq $((16 + 8 + 12 * 64 + 12 * 512))
    task_text "$task" 'link from 5 delay 0' 'link from 7 delay 0'
    refuses_both "$links" w.job w.plan n.txt
    full_order_tests
}

full_order_tests() { # behind the faults and the tail, before no place and stale
    local tasks='20 (full): the job has 64 tasks, and no job has more'
    wide_job 64 0
    task_text 'task deadline 1 run 1 1'
    refuses_both "$tasks" w.job w.plan n.txt
    lines 'place primary 0 at 0 backup 1 at 0' >>n.txt
    keeps "$tasks" w.job w.plan n.txt
    good pack n.txt --job w.job -o n.task
    refuses "6 (tail): byte 16 of 'n.task', the place, is for commit; ask takes a description without one" ask w.job w.plan n.task
    { cat n.task; printf x; } >x
    keeps "6 (tail): byte 32 of 'x' follows the last section, where the file must end" w.job w.plan x
    { lines 'task deadline 1 run 1 1'; links_from 64; } >n.txt
    refuses_both "$tasks" w.job w.plan n.txt
    lines 'link from 64 delay 0' >>n.txt
    refuses_both "4 (value): line 66 of 'n.txt', the from of link 64 (byte 528 when packed), is 64; it must be from 0 to 63" w.job w.plan n.txt
    wide_job 63 0
    { lines 'task deadline 1000000 run 1 1'; links_from 63; } >n.txt
    books w.job w.plan n.txt
}

# --- faults of a description and of a booking -------------------------------------

task_fault() { # task_fault SENTENCE LINE..: a text that is refused, also by pack
    task_text "${@:2}"
    [[ ${*:2} == *place* ]] || refuses "$1" ask j p n.txt
    keeps "$1" j p n.txt
    refuses "$1" pack n.txt --job j -o none.task
    check 'no file after a refusal' test ! -e none.task
}

task_fault_tests() {
    local run='of the new task on node'
    task_fault "4 (value): line 1 of 'n.txt', the deadline of the new task (byte 0 when packed), is 0; it must be from 1 to 1000000" \
        'task deadline 0 run 1 1 1'
    task_fault "4 (value): line 1 of 'n.txt', the deadline of the new task (byte 0 when packed), is 1000001; it must be from 1 to 1000000" \
        'task deadline 1000001 run 1 1 1'
    task_fault "4 (value): line 1 of 'n.txt', the run time $run 2 (byte 12 when packed), is 4294967295; it must be from 0 to 1000000" \
        'task deadline 9 run 1 1 4294967295'
    task_fault "4 (value): line 3 of 'n.txt', the from of link 1 (byte 28 when packed), is 2; it must be from 0 to 1" \
        "${usual[0]}" 'link from 0 delay 0' 'link from 2 delay 0'
    task_fault "4 (value): line 2 of 'n.txt', the delay of link 0 (byte 24 when packed), is 1000001; it must be from 0 to 1000000" \
        "${usual[0]}" 'link from 0 delay 1000001'
    task_fault "5 (link order): line 3 of 'n.txt', link 1 (byte 28 when packed), from 0, does not rise above the link before, from 1" \
        "${usual[@]}" 'link from 0 delay 0'
    task_fault "5 (link order): line 4 of 'n.txt', link 1 (byte 28 when packed), from 1, does not rise above the link before, from 1" \
        "${usual[@]}" '' 'link from 1 delay 0'
    task_fault "4 (value): line 3 of 'n.txt', the delay of link 1 (byte 32 when packed), is 1000001; it must be from 0 to 1000000" \
        "${usual[@]}" 'link from 1 delay 1000001'
    task_fault "4 (value): line 3 of 'n.txt', the primary node of the place (byte 28 when packed), is 3; it must be from 0 to 2" \
        "${usual[@]}" 'place primary 3 at 0 backup 1 at 12'
    task_fault "4 (value): line 3 of 'n.txt', the primary start of the place (byte 32 when packed), is 1000001; it must be from 0 to 1000000" \
        "${usual[@]}" 'place primary 0 at 1000001 backup 3 at 12'
    task_fault "4 (value): line 3 of 'n.txt', the backup node of the place (byte 36 when packed), is 3; it must be from 0 to 2" \
        "${usual[@]}" 'place primary 0 at 7 backup 3 at 12'
    task_fault "4 (value): line 3 of 'n.txt', the backup start of the place (byte 40 when packed), is 1000001; it must be from 0 to 1000000" \
        "${usual[@]}" 'place primary 0 at 7 backup 1 at 1000001'
    task_fault "7 (unable): line 2 of 'n.txt', the primary node of the place (byte 20 when packed), is 2, a node that cannot run the task (run time 0)" \
        'task deadline 30 run 2 2 -' 'place primary 2 at 1000001 backup 1 at 12'
    task_fault "7 (unable): line 2 of 'n.txt', the backup node of the place (byte 28 when packed), is 2, a node that cannot run the task (run time 0)" \
        'task deadline 30 run 2 2 -' 'place primary 0 at 7 backup 2 at 12'
    task_text "${usual[@]}" "$usual_place"
    refuses "6 (tail): line 3 of 'n.txt', the place (byte 28 when packed), is for commit; ask takes a description without one" ask j p n.txt
    later 0 4
    task_text 'task ready 1000001 deadline 0 run 2 2 2'
    refuses_both "4 (value): line 1 of 'n.txt', the ready time of the new task (byte 0 when packed), is 1000001; it must be from 0 to 1000000" r p n.txt
    link_count_tests
    fault_order_tests
}

number() { # number VALUE: its four bytes in hexadecimal
    printf '%02x ' $(($1 & 255)) $(($1 >> 8 & 255)) $(($1 >> 16 & 255)) $(($1 >> 24))
}

numbers() { # numbers FILE VALUE..
    local file=$1 all=''
    shift
    for value in "$@"; do all+=$(number "$value")' '; done
    write_bytes "$file" $all
}

link_count_tests() { # a count above the tasks is none of the limits: the links end it
    { lines 'task deadline 30 run 2 2 2'; links_from 513; } >n.txt
    refuses_both "3 (count): 'n.txt', the link count (byte 16 when packed), is 513; it must be from 0 to 512" j p n.txt
    sed -i '$d' n.txt
    refuses_both "4 (value): line 4 of 'n.txt', the from of link 2 (byte 36 when packed), is 2; it must be from 0 to 1" j p n.txt
    for count in 513 4294967295; do
        numbers x 30 2 2 2 $count
        refuses_both "3 (count): byte 16 of 'x', the link count, is $count; it must be from 0 to 512" j p x
    done
    numbers x 30 2 2 2 512 0 0 1 0
    refuses_both "1 (short): 'x' has fewer than 4 bytes left at byte 36, for the from of link 2" j p x
    numbers x 30 2 2 2 512 0 0 1 0 1 0
    refuses_both "5 (link order): byte 36 of 'x', link 2, from 1, does not rise above the link before, from 1" j p x
    refuses "5 (link order): byte 36 of 'x', link 2, from 1, does not rise above the link before, from 1" unpack j p x
    numbers x 4294967295 2 2 2 0
    refuses_both "4 (value): byte 0 of 'x', the deadline of the new task, is 4294967295; it must be from 1 to 1000000" j p x
}

fault_order_tests() { # job, plan and judge come before a faulty description, and before its text is taken apart
    task_text 'task deadline 0 run 1 1 1'
    lines 'no task' >m.txt
    head -c 20 j >x
    plan_of '0 0 1 5' '2 10 0 15'
    for task in n.txt m.txt; do
        refuses_both "1 (short): 'x' has fewer than 4 bytes left at byte 20, for the task count" x p $task
        refuses_both "3 (count): byte 4 of 'o.plan', the task count, is 11; it must be 2" j o.plan $task
        refuses_both '13 (common loss): the loss of one node can stop both copies of task 1' j x.plan $task
    done
    refuses '13 (common loss): the loss of one node can stop both copies of task 1' unpack j x.plan n.txt
    wrong "'m.txt', line 1: expected 'task', found 'no'" ask j p m.txt
}

# The numbers of a description with two links, and of a booking, in file order.
task_fields() { # task_fields VERSION
    [[ $1 -eq 1 ]] || echo 'the ready time of the new task'
    echo 'the deadline of the new task'
    for node in 0 1 2; do echo "the run time of the new task on node $node"; done
    lines 'the link count' 'the from of link 0' 'the delay of link 0' 'the from of link 1' 'the delay of link 1'
    lines 'the primary node of the place' 'the primary start of the place' 'the backup node of the place' 'the backup start of the place'
}

task_file_tests() {
    later 0 4
    task_text 'task deadline 30 run 2 2 2' 'link from 0 delay 3' 'link from 1 delay 1' 'place primary 0 at 7 backup 1 at 12'
    cut_tests 1 j
    sed -i 's/^task/task ready 7/' n.txt
    cut_tests 2 r
}

cut_tests() { # cut_tests VERSION JOB: the booking in n.txt cut within and before each number, and with bytes behind it
    local at=0 name end=$((32 + 4 * $1)) length
    good pack n.txt --job "$2" -o n.task
    while read -r name; do
        for rest in 0 1 2 3; do
            [[ $((at + rest)) -gt 1 ]] || continue # less holds no zero byte, so it is taken for a text
            head -c $((at + rest)) n.task >x
            task_cut "$2" $((at + rest)) $end "1 (short): 'x' has fewer than 4 bytes left at byte $at, for $name"
        done
        at=$((at + 4))
    done < <(task_fields "$1")
    check 'the length of the booking' test "$at" -eq "$(wc -c <n.task)"
    for length in 1 3 4 16 17; do
        { cat n.task; head -c $length n.task; } >x
        keeps "6 (tail): byte $at of 'x' follows the last section, where the file must end" "$2" p x
        { head -c $end n.task; head -c $length n.task; } >x
        [[ $length -eq 16 ]] || refuses "6 (tail): byte $end of 'x' follows the last section, where the file must end" ask "$2" p x
    done
}

task_cut() { # task_cut JOB LENGTH END SENTENCE: a description ends there for ask, and may for commit
    if [[ $2 -eq $3 ]]; then
        good ask "$1" p x
        books "$1" p x
    elif [[ $2 -gt $3 ]]; then
        refuses "6 (tail): byte $3 of 'x' follows the last section, where the file must end" ask "$1" p x
        keeps "$4" "$1" p x
        refuses "$4" unpack "$1" p x
    else
        refuses_both "$4" "$1" p x
        refuses "$4" unpack "$1" p x
    fi
}

# --- the text form ----------------------------------------------------------------

task_round_trip() { # task_round_trip TEXT JOB PLAN
    good pack "$1" --job "$2" -o t.task
    good unpack "$2" "$3" t.task -o t.txt
    good pack t.txt --job "$2" -o u.task
    check "task of $1 twice" cmp -s t.task u.task
    good unpack "$2" "$3" u.task
    check "text of $1 twice" cmp -s t.txt out
    good unpack "$2" "$3" "$1"
    check "text of $1 at once" cmp -s t.txt out
}

task_text_tests() {
    later 0 4
    good pack described.txt -o d.job
    good pack described-plan.txt --job d.job -o d.plan
    good pack described2.txt -o d2.job
    good plan d2.job -o d2.plan
    good pack described3.txt -o d3.job
    good pack described4.txt -o d4.job
    block 6 "$home/tool/TEXT.md" >described-task.txt
    block 7 "$home/tool/TEXT.md" >described-booking.txt
    task_round_trip described-task.txt d.job d.plan
    task_round_trip described-booking.txt d2.job d2.plan
    task_round_trip described-booking.txt d3.job d.plan
    task_round_trip described-booking.txt d4.job d.plan
    books d.job d.plan described-task.txt
    books d2.job d2.plan described-booking.txt
    task_round_trip "$home/examples/one-more-fit.txt" o.job o.plan
    task_text 'task deadline 30 run - - 2'
    task_round_trip n.txt j p
    check 'the text of a description' cmp -s t.txt n.txt
    task_text 'task ready 0 deadline 30 run 2 2 2' 'link from 0 delay 1' 'link from 1 delay 0' 'place primary 0 at 30 backup 1 at 3'
    task_round_trip n.txt r p
    check 'the text of a booking, stale or not' cmp -s t.txt n.txt
    good pack max4.txt -o t.job
    good plan t.job -o t.plan
    { lines 'task ready 1 deadline 1 run - 1 1 1 1 1 1 1 1 1 1 1 1 1 1 1'; links_from 64; lines 'place primary 1 at 1 backup 2 at 2'; } >n.txt
    task_round_trip n.txt t.job t.plan
    check 'the longest booking' test "$(wc -c <t.task)" -eq 604
    printf '# x\n\r\n\ttask deadline\t007 run - 1 1 # y\n\n link from 1 delay 0' >n.txt
    good pack n.txt --job j -o t.task
    good unpack j p t.task
    check 'an odd text' cmp -s out <(lines 'task deadline 7 run - 1 1' 'link from 1 delay 0')
    task_wrong_tests
    task_job_tests
}

task_wrong() { # task_wrong WORDS-IN-MESSAGE LINE..: the text n.txt, by each command that takes it
    task_text "${@:2}"
    wrong_both "'n.txt', line $1" n.txt
}

task_wrong_tests() {
    task_wrong "1: expected 'deadline', found '0'" 'task 0 deadline 30 run 2 2 2'
    task_wrong "1: expected 'deadline', but the line ends" 'task'
    task_wrong "1: expected the deadline, found 'x'" 'task deadline x run 2 2 2'
    task_wrong "1: expected the deadline, found '4294967296'" 'task deadline 4294967296 run 2 2 2'
    task_wrong "1: expected 'run', found '2'" 'task deadline 30 2 2 2'
    task_wrong '1: expected a run time for each node, but the line ends' 'task deadline 30 run 2 2'
    task_wrong "1: expected the end of the line, found '2'" 'task deadline 30 run 2 2 2 2'
    task_wrong "1: expected 'deadline', found 'ready': tasks have a ready time from 'job 2' on" 'task ready 5 deadline 30 run 2 2 2'
    task_wrong "2: expected 'from', found '1'" "${usual[0]}" 'link 1 delay 1'
    task_wrong "2: expected 'delay', found 'to'" "${usual[0]}" 'link from 1 to 2 delay 1'
    task_wrong '2: expected the task that the link comes from, but the line ends' "${usual[0]}" 'link from'
    task_wrong '2: expected the delay, but the line ends' "${usual[0]}" 'link from 1 delay'
    task_wrong "2: expected a line that begins with 'link' or 'place'" "${usual[0]}" "${usual[0]}"
    task_wrong "3: expected 'primary', found '0'" "${usual[@]}" 'place 0 at 7 backup 1 at 12'
    task_wrong "3: expected 'backup', but the line ends" "${usual[@]}" 'place primary 0 at 7'
    task_wrong "3: expected a start, found '-'" "${usual[@]}" 'place primary 0 at 7 backup 1 at -'
    task_wrong "3: expected the end of the line, found '3'" "${usual[@]}" 'place primary 0 at 7 backup 1 at 12 3'
    task_wrong '4: expected the end of the text behind the place' "${usual[@]}" "$usual_place" 'link from 1 delay 1'
    task_wrong '4: expected the end of the text behind the place' "${usual[@]}" "$usual_place" "$usual_place"
    later 0 4
    task_text "${usual[@]}"
    wrong "'n.txt', line 1: expected 'ready', found 'deadline'" ask r p n.txt
    wrong "'n.txt', line 1: expected 'ready', found 'deadline'" pack n.txt --job r -o none.task
    : >n.txt
    wrong "'n.txt', line 1: expected 'task', but the text ends" ask j p n.txt
    lines 'job 1' >n.txt
    wrong "'n.txt', line 1: expected 'task', found 'job'" commit j p n.txt -o none.job none.plan
    check 'no file of a wrong text' test ! -e none.job -a ! -e none.plan
}

task_job_tests() { # the job beside a task that is packed
    task_text "${usual[@]}"
    wrong "'n.txt' describes a task: --job JOB is missing" pack n.txt -o none.task
    wrong "cannot read 'none'" pack n.txt --job none -o none.task
    head -c 20 j >x
    refuses "1 (short): 'x' has fewer than 4 bytes left at byte 20, for the task count" pack n.txt --job x -o none.task
    check 'no file after a refusal' test ! -e none.task
    job_text 's/deadline 30 run 3/deadline 11 run 3/'
    good pack x.txt -o k
    refuses '16 (no backup): no node has a place for the backup of task 1' plan k -o y
    task_text 'task deadline 0 run 2 2 2'
    good pack n.txt --job k -o n.task
    refuses "4 (value): line 1 of 'n.txt', the deadline of the new task (byte 0 when packed), is 0; it must be from 1 to 1000000" \
        pack n.txt --job j -o none.task
}

# --- usage, input and output ------------------------------------------------------

ask_usage_tests() {
    task_text "${usual[@]}"
    wrong 'a file name is missing' ask j p
    wrong 'a file name is missing' commit j p -o y.job y.plan
    wrong "one file name too many: 'x'" ask j p n.txt x
    wrong '-o FILE is missing' commit j p n.txt
    wrong "a value is missing behind '-o'" commit j p n.txt -o
    wrong "a second file name is missing behind '-o'" commit j p n.txt -o none.job
    wrong "given twice: '-o'" commit j p n.txt -o none.job none.plan -o none.job none.plan
    wrong "one file name too many: 'none.txt'" commit j p n.txt -o none.job none.plan none.txt
    wrong "there is no option '--job'" ask p n.txt --job j
    wrong 'standard output is none of the two files' commit j p n.txt -o - none.plan
    wrong 'standard output is none of the two files' commit j p n.txt -o none.job -
    wrong "the two files are one: 'none.job'" commit j p n.txt -o none.job none.job
    cp j s.job
    ln -sf s.job s.link
    wrong "the two files are one: 's.link'" commit s.job p n.txt -o ./s.job s.link
    check 'that file stays' cmp -s s.job j
    wrong 'standard input can be only one' ask - p -
    wrong 'standard input can be only one' ask j - -
    wrong 'standard input can be only one' unpack - j -
    wrong "cannot read 'none'" ask none p n.txt
    wrong "cannot read 'none'" ask j none n.txt
    wrong "cannot read 'none'" ask j p none
    wrong "cannot read 'none'" commit j p none -o none.job none.plan
    wrong "cannot read '.'" ask j p .
    wrong 'longer than' ask j p <(yes '#')
    refuses "4 (value): byte 0 of '/dev/zero', the deadline of the new task, is 0; it must be from 1 to 1000000" ask j p /dev/zero
    check 'no file after all that' test ! -e none.job -a ! -e none.plan
    good commit -o y.job y.plan j p n.txt
    check 'options first' has out 'task 2 is booked'
}

commit_output_tests() { # both files or none
    local fault
    task_text "${usual[@]}"
    good commit j p n.txt -o x.job x.plan
    mkdir both
    lines old >both/job
    lines old >both/plan
    chmod 640 both/job both/plan
    ln -s plan both/link
    for fault in 'both/job none/x' 'none/x both/plan' 'both/job .' '. both/plan' 'both/job /dev/full' '/dev/full both/plan' 'both/job both/job/x'; do
        wrong 'cannot write ' commit j p n.txt -o $fault
        check "the old job, $fault" is both/job old
        check "the old plan, $fault" is both/plan old
        check "nothing beside them, $fault" test "$(ls both | wc -l)" -eq 3
    done
    check 'a device stays' test -c /dev/full
    good commit j p n.txt -o both/job both/link
    check 'the new job is whole' cmp -s both/job x.job
    check 'the new plan is whole' cmp -s both/plan x.plan
    check 'a link stays a link' test -L both/link
    check 'the modes are kept' test "$(stat -c %a both/job both/plan | tr '\n' ' ')" = '640 640 '
    check 'nothing is left beside them' test "$(ls both | wc -l)" -eq 3
    good commit j p n.txt -o /dev/null both/new
    check 'a new file' cmp -s both/new x.plan
    "$tool" ask j p n.txt >/dev/full 2>err
    status=$?
    check 'a full standard output' ended 2
    "$tool" commit j p n.txt -o x.job x.plan >/dev/full 2>err
    status=$?
    check 'a full standard output of commit' ended 2
    check 'its message' has err "cannot write 'standard output': No space"
}

# --- damaged tasks ----------------------------------------------------------------

# Each damaged file goes to ask, commit and unpack in turn: none may end in another way than
# with success or with a refusal in its form.
task_turn=0
damaged_task() { # damaged_task JOB PLAN
    local words
    case $((task_turn++ % 3)) in
    0) words=(ask "$1" "$2" d.task) ;;
    1) words=(commit "$1" "$2" d.task -o d.out d.plan2) ;;
    2) words=(unpack "$1" "$2" d.task) ;;
    esac
    rm -f d.out d.plan2
    run "${words[@]}"
    check "damaged: ${words[*]}" ended_well "${words[0]}"
    [[ $status -eq 0 && ${words[0]} == commit ]] || return
    check 'both files' test -s d.out -a -s d.plan2
    good judge d.out d.plan2
}

task_damage_tests() {
    later 0 4
    task_text "${usual[@]}" "$usual_place"
    good pack n.txt --job j -o n.task
    damaged_tasks j 3
    task_text 'task ready 7 deadline 30 run 2 2 2' 'link from 0 delay 3' 'link from 1 delay 1'
    good pack n.txt --job r -o n.task
    damaged_tasks r 5
    slow 3 0 1000
    damaged_tasks s 17
    grouped 5 3 5
    damaged_tasks g 19
    task_text_damage_tests
}

damaged_tasks() { # damaged_tasks JOB STEP: of n.task, each so many bits turned, and zeros and ones for each byte
    local bit at
    bytes_of n.task
    for ((bit = 0; bit < 8 * ${#bytes[@]}; bit += $2)); do
        flip d.task $bit "${bytes[@]}"
        damaged_task "$1" p
    done
    for ((at = 0; at < ${#bytes[@]}; at++)); do
        write_bytes d.task "${bytes[@]:0:at}" ff "${bytes[@]:at+1}"
        damaged_task "$1" p
        write_bytes d.task "${bytes[@]:0:at}" "${bytes[@]:at+1}"
        damaged_task "$1" p
    done
}

# A damaged text is booked, refused, or ends with a message that names its line.
task_text_damage_tests() {
    local position
    task_text "${usual[@]}" "$usual_place"
    bytes_of n.txt
    for ((position = 0; position < ${#bytes[@]}; position += 2)); do
        write_bytes d.txt "${bytes[@]:0:position}"
        damaged_task_text
        flip d.txt $((8 * position + position % 8)) "${bytes[@]}"
        damaged_task_text
    done
}

damaged_task_text() {
    rm -f d.out d.plan2
    run commit j p d.txt -o d.out d.plan2
    check 'damaged text' task_text_ended_well
}

task_text_ended_well() {
    read_file err
    [[ $status -eq 0 && -z $content && -s d.out && -s d.plan2 ]] && return
    [[ ! -e d.out && ! -e d.plan2 && ! -s out ]] || return
    [[ $status -eq 1 && $content =~ $sentence ]] && return
    [[ $status -eq 2 && $content =~ ^"seqopchi: 'd.txt', line "[0-9]+": expected " ]]
}
