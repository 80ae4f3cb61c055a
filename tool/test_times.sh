# Tests of lists of times: --times of replay, chart and unpack, and their text form; read by test.sh, whose functions it uses.
# The files j and p are sample J and its plan (0 0 1 5, 0 4 1 9); task 0 is listed with 4 ticks on each node, task 1 with 3.

times_of() { # times_of TICKS TICKS: of two tasks, each: primary backup; the text t.txt and the packed t.times
    local a b
    read -r -a a <<<"$1"
    read -r -a b <<<"$2"
    lines times "task 0 primary ${a[0]} backup ${a[1]}" "task 1 primary ${b[0]} backup ${b[1]}" >t.txt
    numbers t.times "${a[@]}" "${b[@]}"
}

runs() { # runs WHAT LINES WORDS..: what replay prints of the tasks, with the text and with the packed list
    local list
    for list in t.txt t.times; do
        good replay "${@:3}" --times $list
        check "$1, by $list" cmp -s <(tail -n +3 out) <(lines "$2")
    done
}

refuses_times() { # refuses_times SENTENCE JOB PLAN TIMES: by each command that takes a list
    refuses "$1" replay "$2" "$3" --times "$4"
    refuses "$1" replay "$2" "$3" --times "$4" --lose 0@3
    refuses "$1" chart "$2" "$3" --times "$4" -o none.svg
    refuses "$1" unpack "$2" "$3" --times "$4"
    check "no file of $4" test ! -e none.svg
}

# --- replay -----------------------------------------------------------------------

times_tests() {
    times_of '3 4' '2 3'
    good replay j p --times t.txt
    check 'a run with times' is out 'no loss, actual times
task  primary      backup        finish  deadline     took   listed
   0  finished     not started        3        30        3        4
   1  finished     not started        6        30        2        3'
    good replay j p --lose 0@5 --times t.txt
    check 'with a loss' is out 'node 0 lost at tick 5, actual times
task  primary      backup        finish  deadline     took   listed
   0  finished     not started        3        30        3        4
   1  cut          finished          12        30        3        3'
    good replay --times t.txt j p --lose 0@6 -o run.txt
    check 'a copy ends at the loss' has run.txt '   1  finished     not started        6        30        2        3'
    check 'nothing printed' is out ''
    times_of '4 1' '3 1'
    runs 'a backup that takes one tick' '   0  cut          finished           6        30        1        4
   1  not started  finished          10        30        1        3' j p --lose 0@3
    plan_of '0 0 1 5' '0 4 0 9'
    runs 'no copy finished' '   0  finished     not started        4        30        4        4
   1  cut          not started     none        30     none     none' j x.plan --lose 0@5
    times_rule_tests
    times_group_tests
    times_listed_tests
    times_input_tests
    times_survival_tests
}

times_rule_tests() { # when a result leaves, and what goes by the listed run time still
    plan_of '0 0 1 5' '2 5 1 11'
    times_of '3 4' '3 3'
    runs 'a result that leaves a tick sooner' '   0  finished     not started        3        30        3        4
   1  finished     not started        8        30        3        3' j x.plan
    times_of '4 4' '3 3'
    runs 'and one that does not' '   0  finished     not started        4        30        4        4
   1  not started  finished          14        30        3        3' j x.plan
    plan_of '0 0 1 4' '0 4 1 9'
    times_of '2 4' '3 3'
    runs "a backup before its primary's listed finish and the detect time" '   0  cut          not started     none        30     none     none
   1  not started  not started     none        30     none     none' j x.plan --lose 0@1
    plan_of '0 0 1 5' '0 9 1 14'
    times_of '1 4' '1 3'
    runs 'a start is that of the plan' '   0  finished     not started        1        30        1        4
   1  finished     not started       10        30        1        3' j x.plan
    later 0 5
    runs 'a primary too soon does not start' '   0  finished     not started        1        30        1        4
   1  not started  finished          12        30        3        3' r p
}

times_group_tests() {
    plan_of '0 0 2 5' '1 6 2 10'
    grouped 5 5 0
    times_of '2 4' '2 2'
    good replay g x.plan --lose 5@7 --times t.txt
    check 'both nodes of a group' is out 'group 5 lost at tick 7 (nodes 0, 1), actual times
task  primary      backup        finish  deadline     took   listed
   0  finished     not started        2        30        2        4
   1  cut          finished          12        30        2        3'
    runs 'the loss a tick later' '   0  finished     not started        2        30        2        4
   1  finished     not started        8        30        2        3' g x.plan --lose 5@8
}

times_listed_tests() { # with the listed run times the run is that without a list, which says nothing of times
    local loss
    times_of '4 4' '3 3'
    for loss in '' '--lose 0@0' '--lose 0@3' '--lose 0@4' '--lose 0@5' '--lose 1@6' '--lose 2@4294967295'; do
        good replay j p $loss
        sed '1s/$/, actual times/' out >listed.out
        check "nothing of times, $loss" eval '! has out times && ! has out took'
        good replay j p $loss --times t.txt
        check "the listed run times, $loss" cmp -s listed.out <(sed '2,$s/..................$//' out)
    done
}

times_input_tests() {
    times_of '3 4' '2 3'
    good replay j p --times t.txt -o run.txt
    for list in t.txt t.times; do
        "$tool" replay j p --times - <$list >out 2>err
        check "$list from standard input" cmp -s out run.txt
    done
    "$tool" replay - p --times t.txt <j >out 2>err
    check 'a job from standard input' cmp -s out run.txt
    "$tool" replay j - --times t.times <p >out 2>err
    check 'a plan from standard input' cmp -s out run.txt
}

times_survival_tests() { # a passed plan, Friday's record, one tick for each copy, and the longest
    local list loss
    for ((task = 0; task < 11; task++)); do echo "task $task primary 1 backup 1"; done | cat <(echo times) - >ones.txt
    good pack "$home/examples/friday-times.txt" --job o.job --plan passed.plan -o friday.times
    for list in friday.times ones.txt; do
        for loss in 0@1 0@40 0@48 1@0 1@13 1@16 1@30 2@4 2@13 2@40 3@6 3@22 3@53; do
            good replay o.job passed.plan --lose $loss --times $list
            check "each task is finished, $loss, $list" eval '[[ $(wc -l <out) -eq 13 ]] && ! has out none'
        done
    done
    good pack max4.txt -o t.job
    good plan t.job -o t.plan
    for ((task = 0; task < 64; task++)); do echo "task $task primary 1 backup 1"; done | cat <(echo times) - >ones.txt
    good pack ones.txt --job t.job --plan t.plan -o t.times
    check 'the longest list' test "$(wc -c <t.times)" -eq 512
    good replay t.job t.plan --lose 2@100 --times t.times
    good chart t.job t.plan --lose 2@100 --times t.times -o t.svg
}

# --- faults of a list -------------------------------------------------------------

beyond_time() { # beyond_time LINE COPY TASK NODE BYTE NUMBER MOST: of t.txt and t.times, by each command
    local what="the time of the $2 of task $3 on node $4" limits="it must be from 1 to $7, its listed run time"
    refuses_times "4 (value): line $1 of 't.txt', $what (byte $5 when packed), is $6; $limits" j p t.txt
    refuses_times "4 (value): byte $5 of 't.times', $what, is $6; $limits" j p t.times
    refuses "4 (value): line $1 of 't.txt', $what (byte $5 when packed), is $6; $limits" pack t.txt --job j --plan p -o none.times
    good pack t.txt -o u.times
    check 'packed unasked' cmp -s u.times t.times
}

times_fault_tests() {
    local number
    for number in 0 5 260 16777216 4294967295; do
        times_of "$number 4" '3 3'
        beyond_time 2 primary 0 0 0 $number 4
        times_of "4 $number" '0 0'
        beyond_time 2 backup 0 1 4 $number 4
    done
    for number in 0 4 4294967295; do
        times_of '4 4' "$number $number"
        beyond_time 3 primary 1 0 8 $number 3
        times_of '1 1' "1 $number"
        beyond_time 3 backup 1 1 12 $number 3
    done
    check 'no file after a refusal' test ! -e none.times
    times_of '4 4' '3 3'
    good replay j p --times t.txt
    times_node_tests
    times_length_tests
    times_order_tests
}

times_node_tests() { # the limit is that of the planned node
    job_text 's/run 4 4 4/run 4 6 1/'
    good pack x.txt -o x.job
    times_of '4 6' '3 3'
    good replay x.job p --times t.times
    times_of '4 7' '3 3'
    refuses_times "4 (value): byte 4 of 't.times', the time of the backup of task 0 on node 1, is 7; it must be from 1 to 6, its listed run time" \
        x.job p t.times
    plan_of '2 0 1 5' '0 4 1 9'
    times_of '2 6' '3 3'
    refuses_times "4 (value): line 2 of 't.txt', the time of the primary of task 0 on node 2 (byte 0 when packed), is 2; it must be 1, its listed run time" \
        x.job x.plan t.txt
}

times_length_tests() { # cut before and within each number, and with bytes or a line behind it
    local at=0 rest copy
    times_of '4 4' '3 3'
    for copy in 'primary of task 0 on node 0' 'backup of task 0 on node 1' 'primary of task 1 on node 0' 'backup of task 1 on node 1'; do
        for rest in 0 1 2 3; do
            [[ $((at + rest)) -gt 1 ]] || continue # less holds no zero byte, so it is taken for a text
            head -c $((at + rest)) t.times >x
            refuses_times "1 (short): 'x' has fewer than 4 bytes left at byte $at, for the time of the $copy" j p x
        done
        at=$((at + 4))
    done
    check 'the length of the list' test "$at" -eq "$(wc -c <t.times)"
    for rest in 1 2 3 4 8 9 16; do
        { cat t.times; head -c $rest t.times; } >x
        refuses_times "6 (tail): byte 16 of 'x' follows the last section, where the file must end" j p x
    done
    lines 'task 2 primary 1 backup 0' >>t.txt
    refuses_times "6 (tail): line 4 of 't.txt', task 2 (byte 16 when packed), is none of the job, whose last task is 1" j p t.txt
    refuses "6 (tail): line 4 of 't.txt', task 2 (byte 16 when packed), is none of the job, whose last task is 1" \
        pack t.txt --job j --plan p -o none.times
    sed -i '3,$d' t.txt
    refuses_times "1 (short): 't.txt' ends before the time of the primary of task 1 on node 0 (byte 8 when packed)" j p t.txt
    refuses "1 (short): 't.txt' ends before the time of the primary of task 1 on node 0 (byte 8 when packed)" \
        pack t.txt --job j --plan p -o none.times
    check 'no file after a refusal' test ! -e none.times
}

times_order_tests() { # job, plan and a group that is not there come before a faulty list; what does not pass is replayed
    local list
    times_of '0 4' '3 3'
    head -c 20 j >x
    for list in t.txt t.times; do
        refuses_times "1 (short): 'x' has fewer than 4 bytes left at byte 20, for the task count" x p $list
        refuses_times "3 (count): byte 4 of 'o.plan', the task count, is 11; it must be 2" j o.plan $list
        refuses '18 (no such node): node 3 is none of the job, whose nodes are 0 to 2' replay j p --lose 3@0 --times $list
        refuses '18 (no such node): node 3 is none of the job, whose nodes are 0 to 2' chart j p --lose 3@0 --times $list -o none.svg
    done
    refuses "1 (short): 'x' has fewer than 4 bytes left at byte 20, for the task count" pack t.txt --job x --plan p -o none.times
    refuses "3 (count): byte 4 of 'o.plan', the task count, is 11; it must be 2" pack t.txt --job j --plan o.plan -o none.times
    check 'no file after a refusal' test ! -e none.svg -a ! -e none.times
    plan_of '0 0 0 0' '0 0 0 0'
    times_of '4 4' '3 3'
    good replay j x.plan --times t.txt
    good pack t.txt --job j --plan x.plan -o u.times
    good unpack j x.plan --times u.times
    check 'a list for a plan that does not pass' cmp -s out t.txt
}

# --- the chart --------------------------------------------------------------------

# How many open parts, finished primaries and backups, copies that did not start and crosses; the legend has one of each.
parts() {
    local class counts=''
    for class in open primary backup idle; do counts+="$(grep -c "^<rect class=\"$class\" " out) "; done
    [[ "$counts$(grep -c 'class="cut" d=' out)" == "$1" ]]
}

part() { # part CLASS FROM TO: such a bar between two ticks, on an axis that ends at 30, 880 pixels behind 92
    has out "<rect class=\"$1\" $(awk -v f="$2" -v t="$3" 'BEGIN {
        x = 880 / 30
        printf "x=\"%.1f\" y=\"99.0\" width=\"%.1f\"", 92 + x * f + .5, x * (t - f) - 1
    }')"
}

times_chart_tests() {
    times_of '1 4' '3 3'
    good chart j p --times t.txt -o -
    check 'the parts of a run' parts '2 3 1 3 0'
    check 'a primary up to its end' part primary 0 1
    check 'and open up to its listed finish' part open 0 4
    check 'one that took as long as listed' part primary 4 7
    check 'the label in the part that ran' has out '<text class="on" x="106.7" y="114.5">P0</text>'
    check 'the title' has out '<title>Run with no loss, actual times: 2 tasks on 3 nodes</title>'
    check 'the subtitle' has out '>Primaries finished: 2. Backups finished: 0. Copies cut: 0. Finished sooner than listed: 1. The judge'
    check 'the word in the legend' has out '>listed, not needed</text>'
    check 'no cut and no lost node there' eval '! has out ">cut<" && ! has out ">node lost<"'
    check 'the hint of a copy that ended sooner' has out '<title>primary of task 0: node 0, 0 to 4, deadline 30, finished at 1</title>'
    check 'the hint of another' has out '<title>primary of task 1: node 0, 4 to 7, deadline 30, finished</title>'
    check 'the hint of a backup' has out '<title>backup of task 0: node 1, 5 to 9, deadline 30, not started</title>'
    times_of '3 1' '1 2'
    good chart j p --times t.times -o -
    check 'two open parts' parts '3 3 1 3 0'
    times_loss_chart_tests
    times_plain_chart_tests
}

times_loss_chart_tests() { # a cut copy is drawn as without a list
    times_of '4 1' '3 2'
    good chart j p --lose 0@3 -o -
    grep -A 6 '^<g><title>primary of task 0' out >cut.out
    good chart j p --lose 0@3 --times t.txt -o -
    check 'the parts of a run with a loss' parts '3 2 3 3 2'
    check 'the cut copy' cmp -s cut.out <(grep -A 6 '^<g><title>primary of task 0' out)
    check 'the title' has out '<title>Run with node 0 lost at tick 3, actual times: 2 tasks on 3 nodes</title>'
    check 'the hint of a backup' has out '<title>backup of task 1: node 1, 9 to 12, deadline 30, finished at 11</title>'
    check 'cut and lost node in the legend' eval 'has out ">cut<" && has out ">node lost<"'
    good chart j p --lose 0@3 --times t.times -o chart.svg
    good chart j p --lose 0@3 --times t.txt -o -
    check 'a chart in a file, of the packed list' cmp -s out chart.svg
    grouped 5 5 0
    plan_of '0 0 2 5' '1 6 2 10'
    good chart g x.plan --lose 5@7 --times t.txt -o -
    check 'with brackets' has out '<title>Run with group 5 lost at tick 7, actual times: 2 tasks on 3 nodes</title>'
}

times_plain_chart_tests() { # without a list no word of it, and the chart in README
    local loss
    for loss in '' '--lose 0@3'; do
        good chart j p $loss -o -
        check "no open part, $loss" eval '! has out open && ! has out times && ! has out sooner'
    done
    good chart o.job passed.plan --lose 1@16 --times "$home/examples/friday-times.txt" -o -
    check "the chart of Friday's record" cmp -s out "$home/examples/friday-times.svg"
    sed 's/^task 6 primary 7/task 6 primary 1/' "$home/examples/friday-times.txt" >t.txt
    good chart o.job passed.plan --times t.txt -o -
    check 'a label that does not fit the part that ran' has out '<text class="off" x="335.7" y="250.5">P6</text>'
}

# --- the text form ----------------------------------------------------------------

times_round_trip() { # times_round_trip TEXT JOB PLAN
    good pack "$1" --job "$2" --plan "$3" -o t.times
    good unpack "$2" "$3" --times t.times -o t.txt
    good pack t.txt --job "$2" --plan "$3" -o u.times
    check "times of $1 twice" cmp -s t.times u.times
    good pack t.txt -o v.times
    check "times of $1 without job and plan" cmp -s t.times v.times
    good unpack "$2" "$3" --times "$1"
    check "text of $1 at once" cmp -s t.txt out
}

times_text_tests() {
    block 8 "$home/tool/TEXT.md" >described-times.txt
    times_round_trip described-times.txt d.job d.plan
    check 'the text of a list' cmp -s t.txt <(sed 's/ *#.*//' described-times.txt)
    times_round_trip "$home/examples/friday-times.txt" o.job passed.plan
    check 'its length' test "$(wc -c <t.times)" -eq 88
    numbers x 4 3 1 2
    good unpack j p --times x
    check 'the numbers in their order' cmp -s out <(lines times 'task 0 primary 4 backup 3' 'task 1 primary 1 backup 2')
    printf '# x\n\r\n\ttimes\t# y\n\n task 0 primary\t004 backup 1\r\ntask 1 primary 1 backup 2' >x.txt
    good pack x.txt --job j --plan p -o t.times
    good unpack j p --times t.times
    check 'an odd text' cmp -s out <(lines times 'task 0 primary 4 backup 1' 'task 1 primary 1 backup 2')
    times_wrong_tests
}

times_wrong() { # times_wrong WORDS-IN-MESSAGE LINE..: the text t.txt, by each command that takes it
    lines "${@:2}" >t.txt
    wrong "'t.txt', line $1" replay j p --times t.txt
    wrong "'t.txt', line $1" chart j p --lose 0@3 --times t.txt -o none.svg
    wrong "'t.txt', line $1" unpack j p --times t.txt
    [[ ${2-} != times* ]] || wrong "'t.txt', line $1" pack t.txt --job j --plan p -o none.times
    check "no file, $1" test ! -e none.svg -a ! -e none.times
}

times_wrong_tests() {
    local first='task 0 primary 4 backup 4'
    : >t.txt
    wrong "'t.txt', line 1: expected 'times', but the text ends" replay j p --times t.txt
    times_wrong "2: expected 'times', but the text ends" '# none'
    times_wrong "1: expected 'times', found 'task'" "$first"
    times_wrong "1: expected 'times', found 'Times'" Times "$first"
    times_wrong "1: expected the end of the line, found '1'" 'times 1' "$first"
    times_wrong "1: expected the end of the line, found 'task'" "times $first"
    times_wrong "2: expected 'task', but the text ends" times
    times_wrong "4: expected 'task', but the text ends" times '' '# none'
    times_wrong "2: expected 'task', found 'node'" times 'node 0 primary 4 backup 4'
    times_wrong "2: expected task 0, found '1'" times 'task 1 primary 3 backup 3'
    times_wrong "3: expected task 1, found '0'" times "$first" "$first"
    times_wrong '2: expected task 0, but the line ends' times task
    times_wrong "2: expected 'primary', found '4'" times 'task 0 4 4'
    times_wrong "2: expected 'primary', found 'backup'" times 'task 0 backup 4 primary 4'
    times_wrong '2: expected the ticks that the primary took, but the line ends' times 'task 0 primary'
    times_wrong "2: expected the ticks that the primary took, found '-'" times 'task 0 primary - backup 4'
    times_wrong "2: expected 'backup', found 'at'" times 'task 0 primary 0 at 0 backup 1 at 5'
    times_wrong "2: expected 'backup', but the line ends" times 'task 0 primary 4'
    times_wrong "3: expected the ticks that the backup took, found '4294967296'" times "$first" 'task 1 primary 3 backup 4294967296'
    times_wrong "3: expected the ticks that the backup took, found '-1'" times "$first" 'task 1 primary 3 backup -1'
    times_wrong "4: expected the end of the line, found '3'" times "$first" '' 'task 1 primary 3 backup 3 3'
    lines 'plot 1' >t.txt
    wrong "'t.txt', line 1: expected 'job', 'plan', 'task', 'times' or 'log' as the first word" pack t.txt -o none.times
}

# --- usage ------------------------------------------------------------------------

times_usage_tests() {
    local command
    times_of '4 4' '3 3'
    for command in replay 'chart -o none.svg' unpack; do
        wrong "a value is missing behind '--times'" $command j p --times
        wrong "given twice: '--times'" $command j p --times t.txt --times t.txt
        wrong 'standard input can be only one' $command j - --times -
        wrong "cannot read 'none': No such file" $command j p --times none
        wrong "cannot read '.'" $command j p --times .
        wrong 'longer than' $command j p --times <(yes '#')
        refuses "4 (value): byte 0 of '/dev/zero', the time of the primary of task 0 on node 0, is 0; it must be from 1 to 4, its listed run time" \
            $command j p --times /dev/zero
    done
    for command in 'plan j -o none' 'judge j p' 'list j' 'show j p' 'trace j p' 'pack t.txt -o none' 'ask j p n.txt' 'commit j p n.txt -o none none2'; do
        wrong "there is no option '--times'" $command --times t.txt
    done
    wrong '--times goes with a job and a plan' unpack j --times t.txt
    wrong '--times goes with a job and a plan' unpack j p n.txt --times t.txt
    wrong "one file name too many: 't.txt'" replay j p t.txt
    wrong "there is no option '--plan'" replay j p --plan p
    times_pack_usage_tests
    check 'no file after all that' test ! -e none -a ! -e none2 -a ! -e none.svg
    good replay --help
    check 'help tells of the list' has out 'With --times each copy takes as long'
    good --help
    check 'a long usage has its subject on the next line' has out '
  replay JOB PLAN [--lose GROUP@TICK] [--times TIMES]
                                                  run a plan, with or without a loss
'
}

times_pack_usage_tests() {
    wrong "'t.txt' lists times: --job JOB and --plan PLAN go together" pack t.txt --job j -o none
    wrong "'t.txt' lists times: --job JOB and --plan PLAN go together" pack t.txt --plan p -o none
    wrong "has no times: --plan goes with a list of them" pack "$home/examples/sample.txt" --plan p -o none
    wrong "has no times: --plan goes with a list of them" pack "$home/examples/oscilloscope-passed.txt" --job o.job --plan o.plan -o none
    wrong "has no times: --plan goes with a list of them" pack "$home/examples/one-more-fit.txt" --job o.job --plan o.plan -o none
    wrong "given twice: '--plan'" pack t.txt --job j --plan p --plan p -o none
    wrong "a value is missing behind '--plan'" pack t.txt -o none --plan
    wrong "cannot read 'none'" pack t.txt --job j --plan none -o none
    wrong 'standard input can be only one' pack - --job j --plan - -o none
    "$tool" pack t.txt --job j --plan - -o u.times <p 2>err
    check 'a plan from standard input' cmp -s u.times t.times
    "$tool" pack - --job j --plan p -o - <t.txt 2>err | "$tool" unpack j p --times - >out 2>>err
    check 'pack and unpack through a pipe' cmp -s out t.txt
}

# --- damaged lists ----------------------------------------------------------------

# Each goes to replay, chart and unpack in turn: none may end in another way than with success or with a refusal in its form.
times_turn=0
damaged_list() { # damaged_list JOB PLAN FILE
    local words
    case $((times_turn++ % 3)) in
    0) words=(replay "$1" "$2" --lose 0@3 --times "$3") ;;
    1) words=(chart "$1" "$2" --times "$3" -o d.out) ;;
    2) words=(unpack "$1" "$2" --times "$3") ;;
    esac
    rm -f d.out
    run "${words[@]}"
}

times_damage_tests() {
    local bit at
    times_of '4 4' '3 3'
    bytes_of t.times
    for ((bit = 0; bit < 8 * ${#bytes[@]}; bit++)); do
        flip d.times $bit "${bytes[@]}"
        damaged_list j p d.times
        check "damaged list, bit $bit" ended_well replay
    done
    bytes_of friday.times
    for ((at = 2; at < ${#bytes[@]}; at++)); do
        write_bytes d.times "${bytes[@]:0:at}" "${bytes[@]:at+1}"
        damaged_list o.job passed.plan d.times
        check "damaged list, without byte $at" ended_well replay
    done
    times_text_damage_tests
}

times_text_damage_tests() { # a damaged text is taken, refused, or ends with a message that names its line
    local at
    times_of '4 4' '3 3'
    bytes_of t.txt
    for ((at = 0; at < ${#bytes[@]}; at++)); do
        write_bytes d.txt "${bytes[@]:0:at}"
        damaged_list j p d.txt
        check "damaged text, $at bytes" list_ended_well
        flip d.txt $((8 * at + at % 8)) "${bytes[@]}"
        damaged_list j p d.txt
        check "damaged text, byte $at" list_ended_well
    done
}

list_ended_well() {
    read_file err
    [[ $status -eq 0 && -z $content ]] && return
    [[ ! -e d.out && ! -s out ]] || return
    [[ $status -eq 1 && $content =~ $sentence ]] && return
    [[ $status -eq 2 && $content =~ ^"seqopchi: 'd.txt', line "[0-9]+": expected " ]]
}
