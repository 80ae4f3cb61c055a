# Tests of trial: every loss at every tick; read by test.sh, whose functions it uses.
# The files j and p are sample J and its plan (0 0 1 5, 0 4 1 9), u is sample J without its link.

seqopchi() { "$tool" "$@"; } # for the commands that trial prints

says_yes() { # says_yes JOB PLAN
    good trial "$1" "$2"
    check "yes: trial $1 $2" is out yes
}

says_no() { # says_no CAUSE WRONG JOB PLAN: the run that shows it, and what goes wrong there
    run trial "$3" "$4"
    check "no: trial $3 $4" ended 3
    check "quiet: trial $3 $4" is err ''
    check "$1: $2" cmp -s <(head -n 3 out) <(lines no "$1" "$2")
    check "shown: trial $3 $4" is_seen "$3" "$4"
}

is_seen() { # is_seen JOB PLAN: whether the commands that trial printed, in out, print and draw a run that goes wrong as it says
    local answer
    mapfile -t answer <out
    [[ ${#answer[@]} -eq 5 && ${answer[3]} == 'print the run: seqopchi replay '* ]] || return
    [[ ${answer[4]} =~ ^"draw the "(run|plan)": seqopchi chart ".*" -o FILE.svg"$ ]] || return
    eval "${answer[3]#*: }" >shown.run && eval "${answer[4]#*: }" && "$tool" show "$1" "$2" >shown.plan || return
    [[ $(head -n 1 shown.run) == "${answer[1]}" ]] && goes_wrong "${answer[2]}" || return
    [[ ${answer[1]} == 'no loss' ]] || grep -q 'class="clash"' FILE.svg || [[ ${answer[2]} != *' both hold '* ]]
}

goes_wrong() { # goes_wrong SENTENCE: whether it is true of shown.run and shown.plan
    awk -v sentence="$1" '
        FNR == NR && FNR == 1 { lost = $0 != "no loss" }
        FNR == NR && FNR > 2 {
            idle["primary", $1] = substr($0, 7, 11) == "not started"; idle["backup", $1] = substr($0, 20, 11) == "not started"
            finish[$1] = $(NF - 1); deadline[$1] = $NF
        }
        FNR == NR { next }
        /^node [0-9]/ { on = $2 + 0 }
        / of task [0-9]+$/ { node[$4, $7] = on; start[$4, $7] = $1; end[$4, $7] = $3 }
        END {
            n = split(sentence, w, " "); a = w[2] SUBSEP w[5]; b = w[8] SUBSEP w[11]
            if (sentence ~ /^the primary of task [0-9]+ does not start$/) exit !(idle["primary", w[5]] && !lost)
            if (sentence ~ /^task [0-9]+ is not done; its deadline is [0-9]+$/) exit !(finish[w[2]] == "none" && deadline[w[2]] == w[n])
            if (sentence ~ /^task [0-9]+ is done at [0-9]+, after its deadline, [0-9]+$/)
                exit !(finish[w[2]] == w[6] + 0 && deadline[w[2]] == w[n] && w[6] + 0 > w[n] + 0)
            from = start[a] > start[b] ? start[a] : start[b]; to = end[a] < end[b] ? end[a] : end[b]
            exit !(sentence ~ /^the [a-z]+ of task [0-9]+ and the [a-z]+ of task [0-9]+ both hold node [0-9]+ from [0-9]+ to [0-9]+$/ &&
                !idle[a] && !idle[b] && node[a] == w[15] && node[b] == w[15] && from == w[17] && to == w[19] && from < to)
        }' shown.run shown.plan
}

unlinked() { # sample J without its link, into the file u
    job_text '/^link/d'
    good pack x.txt -o u
}

trial_tests() {
    says_yes j p
    plan_of '0 0 1 5' '1 6 2 11'
    refuses '14 (overlap): a copy of task 0 and a copy of task 1 hold one node at the same time' judge j x.plan
    says_yes j x.plan
    unlinked
    run trial u x.plan
    check 'the answer no' is out 'no
node 0 lost at tick 3
the backup of task 0 and the primary of task 1 both hold node 1 from 6 to 9
print the run: seqopchi replay u x.plan --lose 0@3
draw the run: seqopchi chart u x.plan --lose 0@3 -o FILE.svg'
    check 'its status' ended 3
    says_no 'node 0 lost at tick 3' 'the backup of task 0 and the primary of task 1 both hold node 1 from 6 to 9' u x.plan
    trial_edge_tests
    trial_no_loss_tests
    trial_deadline_tests
    trial_version_tests
    trial_example_tests
    trial_times_tests
}

trial_edge_tests() { # primary 1 beside backup 0, which holds node 1 from 5 to 9: a common tick, and none
    local both='the backup of task 0 and the primary of task 1 both hold node 1 from'
    plan_of '0 0 1 5' '1 8 2 12'
    says_no 'node 0 lost at tick 3' "$both 8 to 9" u x.plan
    plan_of '0 0 1 5' '1 9 2 13'
    says_yes u x.plan
    plan_of '0 0 1 5' '1 3 2 7'
    says_no 'node 0 lost at tick 3' "$both 5 to 6" u x.plan
    plan_of '0 0 1 5' '1 2 2 6'
    says_yes u x.plan
    plan_of '0 0 2 8' '0 4 2 8'
    says_no 'node 0 lost at tick 3' 'the backup of task 0 and the backup of task 1 both hold node 2 from 8 to 11' u x.plan
    plan_of '0 0 2 5' '1 0 2 4'
    says_yes u x.plan
}

trial_no_loss_tests() { # what the run without loss shows, and how it is called up
    plan_of '0 0 1 5' '0 3 1 9'
    says_no 'no loss' 'the primary of task 1 does not start' j x.plan
    check 'replay without a loss, and chart of the plan' cmp -s <(tail -n 2 out) <(lines 'print the run: seqopchi replay j x.plan' \
        'draw the plan: seqopchi chart j x.plan -o FILE.svg')
    says_no 'no loss' 'the primary of task 0 and the primary of task 1 both hold node 0 from 3 to 4' u x.plan
    later 0 5
    says_no 'no loss' 'the primary of task 1 does not start' r p
    job_text 's/deadline 30 run 3/deadline 6 run 3/'
    good pack x.txt -o x.job
    says_no 'no loss' 'task 1 is done at 7, after its deadline, 6' x.job p
}

trial_deadline_tests() { # a backup that is done in time and late, and no copy that is done
    job_text 's/deadline 30 run 3/deadline 12 run 3/'
    good pack x.txt -o x.job
    says_yes x.job p
    job_text 's/deadline 30 run 3/deadline 11 run 3/'
    good pack x.txt -o x.job
    says_no 'node 0 lost at tick 3' 'task 1 is done at 12, after its deadline, 11' x.job p
    plan_of '0 0 1 5' '2 10 0 15'
    says_no 'node 0 lost at tick 3' 'task 1 is not done; its deadline is 30' j x.plan
    plan_of '0 0 0 5' '1 6 2 11'
    says_no 'node 0 lost at tick 3' 'task 0 is not done; its deadline is 30' j x.plan
    plan_of '1 0 2 5' '0 6 0 10'
    says_no 'node 0 lost at tick 8' 'task 1 is not done; its deadline is 30' u x.plan
}

trial_version_tests() { # send times and groups, by which a loss takes several nodes
    plan_of '0 0 1 5' '1 6 2 11'
    slow 1000 0 1000
    says_no 'no loss' 'the primary of task 1 does not start' s x.plan
    slow 0 0 1000
    says_yes s x.plan
    slow 0 1 0
    says_no 'node 0 lost at tick 3' 'task 1 is not done; its deadline is 30' s x.plan
    grouped 15 0 3
    says_yes g x.plan
    grouped 15 0 15
    says_no 'group 15 lost at tick 3 (nodes 0, 2)' 'task 1 is not done; its deadline is 30' g x.plan
    check 'the loss of a group' has out 'replay g x.plan --lose 15@3'
    grouped 7 7 15
    says_no 'group 7 lost at tick 3 (nodes 0, 1)' 'task 0 is not done; its deadline is 30' g x.plan
    grouped 15 0 3 '/^link/d'
    says_no 'group 15 lost at tick 3 (node 0)' 'the backup of task 0 and the primary of task 1 both hold node 1 from 6 to 9' g x.plan
}

trial_example_tests() {
    for text in "$home"/examples/{sample,lessons,slow-links,slow-cards,drawer,oscilloscope}.txt; do
        good pack "$text" -o x.job
        good plan x.job -o x.plan
        says_yes x.job x.plan
    done
    says_yes o.job passed.plan
    says_no 'node 1 lost at tick 3' 'task 10 is not done; its deadline is 64' o.job refused.plan
    good pack "$home/examples/oscilloscope-shared.txt" --job o.job -o shared.plan
    refuses '14 (overlap): a copy of task 3 and a copy of task 6 hold one node at the same time' judge o.job shared.plan
    says_yes o.job shared.plan
    good pack "$home/examples/oscilloscope-clash.txt" --job o.job -o clash.plan
    refuses '14 (overlap): a copy of task 5 and a copy of task 6 hold one node at the same time' judge o.job clash.plan
    says_no 'node 1 lost at tick 3' 'the backup of task 5 and the primary of task 7 both hold node 2 from 23 to 29' o.job clash.plan
    good pack max4.txt -o x.job
    good plan x.job -o x.plan
    says_yes x.job x.plan
}

trial_times_tests() { # a yes is for the listed times: backup 0, if it ends sooner, feeds primary 2 beside backup 1
    lines 'job 1' 'node 0 detect 1' 'node 1 detect 1' 'node 2 detect 1' 'node 3 detect 1' 'task 0 deadline 30 run 2 4 4 4' \
        'task 1 deadline 30 run 2 4 4 4' 'task 2 deadline 30 run 2 2 2 2' 'link 0 to 2 delay 0' >x.txt
    good pack x.txt -o x.job
    lines 'plan 1' 'task 0 primary 0 at 2 backup 1 at 5' 'task 1 primary 0 at 0 backup 2 at 5' 'task 2 primary 2 at 6 backup 3 at 9' >x.txt
    good pack x.txt --job x.job -o x.plan
    refuses '14 (overlap): a copy of task 1 and a copy of task 2 hold one node at the same time' judge x.job x.plan
    says_yes x.job x.plan
    good chart x.job x.plan --lose 0@1 -o -
    check 'no clash by the listed times' eval '! has out clash'
    lines times 'task 0 primary 2 backup 1' 'task 1 primary 2 backup 4' 'task 2 primary 2 backup 2' >x.txt
    good chart x.job x.plan --lose 0@1 --times x.txt -o -
    check 'a clash by others' has out '>clash</text>'
}

# --- the chart --------------------------------------------------------------------

band() { # band CLASS FROM TO: such a band between two ticks, on an axis that ends at 30, 880 pixels behind 92
    has out "class=\"$1\" x=\"$(awk -v f="$2" -v t="$3" 'BEGIN { x = 880 / 30; printf "%.1f\" y=\"", 92 + x * f }')" &&
        grep -q "class=\"$1\" x=.* width=\"$(awk -v f="$2" -v t="$3" 'BEGIN { printf "%.1f", 880 / 30 * (t - f) }')\" height=\"66.0\"" out
}

below() { # below HINT HINT: the bars of two copies stand below each other
    awk -v one="$1" -v other="$2" '
        index($0, "<title>" one) { at = 1 } index($0, "<title>" other) { at = 2 }
        at && /^<rect/ { split($0, w, "\""); top[at] = w[6]; at = 0 }
        END { d = top[1] - top[2]; exit !(top[1] && top[2] && (d >= 22 || d <= -22)) }' out
}

trial_chart_tests() { # a primary and a backup that share time: in the plan, in a run with one started, in a run with both
    plan_of '0 0 1 5' '1 6 2 11'
    good chart j x.plan -o -
    check 'the time that they share in the plan' band shared 6 9
    check 'its words' has out '>shared time</text>'
    check 'both bars' below 'backup of task 0' 'primary of task 1'
    good chart j x.plan --lose 0@3 -o -
    check 'in a run with one started' band shared 6 9
    check 'there is no clash' eval '! has out clash'
    check 'the one that is started' has out 'backup of task 0: node 1, 5 to 9, deadline 30, finished'
    check 'the one that is not' has out 'primary of task 1: node 1, 6 to 9, deadline 30, not started'
    check 'both bars' below 'backup of task 0' 'primary of task 1'
    good chart u x.plan --lose 0@3 -o -
    check 'in a run with both' band clash 6 9
    check 'its word' has out '>clash</text>'
    check 'both bars are full' below 'backup of task 0: node 1, 5 to 9, deadline 30, finished' 'primary of task 1: node 1, 6 to 9, deadline 30, finished'
    good chart u x.plan --lose 0@4 -o -
    check 'a loss that does not call on the backup' band shared 6 9
    times_of '4 1' '3 3'
    good chart u x.plan --lose 0@3 --times t.txt -o -
    check 'a backup that ends before the primary starts' eval '! has out clash'
    times_of '4 2' '3 3'
    good chart u x.plan --lose 0@3 --times t.txt -o -
    check 'and one that ends a tick later' band clash 6 7
    plan_of '0 0 1 5' '0 2 1 9'
    good chart u x.plan --lose 0@3 -o -
    check 'up to the loss where both are cut' eval 'has out ">clash<" && has out "class=\"clash\" x=\"150.7\""'
    good chart j p -o -
    check 'no other words where backups alone may share' eval 'has out ">time shared by backups<" && ! has out clash'
    good chart o.job shared.plan --lose 3@10 -o -
    check 'the chart of shared time' cmp -s out "$home/examples/oscilloscope-shared.svg"
    good chart o.job clash.plan --lose 1@3 -o -
    check 'the chart of a clash' cmp -s out "$home/examples/oscilloscope-clash.svg"
}

# --- files and usage --------------------------------------------------------------

# What reads badly ends as with judge, word for word. Else a passed plan gets a yes, and any other a no that can be
# shown, but for an overlap, which may get either.
beside_judge() { # beside_judge JOB PLAN
    local judged number=0
    run judge "$1" "$2"
    judged=$status
    read_file err
    [[ ! $content =~ $sentence ]] || number=${BASH_REMATCH[1]}
    mv err judge.err
    run trial "$1" "$2"
    if [[ $judged -eq 2 || $number -ge 1 && $number -le 7 ]]; then
        ended $judged && cmp -s err judge.err && is out ''
    elif [[ $judged -eq 0 || $number -eq 14 && $status -eq 0 ]]; then
        ended 0 && is out yes && is err ''
    else
        ended 3 && is err '' && is_seen "$1" "$2"
    fi
}

trial_cut() { # trial_cut FILE JOB PLAN: FILE cut to each length, and with a byte behind it, as x
    local length
    for ((length = $(wc -c <"$1"); length-- > 0; )); do
        head -c $length "$1" >x
        check "$1, $length bytes" beside_judge "$2" "$3"
        check "$1, $length bytes: refused" ended 1
    done
    { cat "$1"; printf x; } >x
    check "$1 and a byte" beside_judge "$2" "$3"
    check "$1 and a byte: refused" ended 1
}

trial_file_tests() {
    later 2 12
    slow 3 0 1000
    grouped 0 5 0
    trial_cut j x p
    trial_cut r x p
    trial_cut s x p
    trial_cut g x p
    trial_cut p j x
    head -c 20 p >x.plan
    refuses "1 (short): 'x.plan' has fewer than 4 bytes left at byte 20, for the backup start of task 0" trial j x.plan
    refuses "3 (count): byte 4 of 'o.plan', the task count, is 11; it must be 2" trial j o.plan
    job_text 's/run 3 3 3/run - 3 3/'
    good pack x.txt -o x.job
    refuses "7 (unable): byte 24 of 'p', the primary node of task 1, is 0, a node that cannot run the task (run time 0)" trial x.job p
}

trial_usage_tests() {
    local name
    wrong 'a file name is missing' trial
    wrong 'a file name is missing' trial j
    wrong "one file name too many: 'x'" trial j p x
    wrong "there is no option '--lose'" trial j p --lose 0@1
    wrong "there is no option '--times'" trial j p --times t.txt
    wrong "given twice: '-o'" trial j p -o none -o none
    wrong 'standard input can be only one' trial - -
    wrong "cannot read 'none': No such file" trial none p
    wrong "cannot read 'none': No such file" trial j none
    wrong "cannot write 'none/x': No such file" trial j p -o none/x
    refuses "2 (version): byte 0 of '/dev/zero', the version, is 0; it must be from 1 to 4" trial /dev/zero p
    check 'help tells the status' has <("$tool" --help) '3 the trial'
    plan_of '0 0 1 5' '1 6 2 11'
    good trial j x.plan -o x.answer
    check 'nothing printed' is out ''
    check 'an answer in a file' is x.answer yes
    run trial u x.plan -o x.answer
    check 'the status of a no in a file' ended 3
    check 'nothing printed' is out ''
    check 'a no in a file' test "$(head -n 1 x.answer)" = no
    run trial u x.plan -o none/x
    check 'a no that cannot be written' ended 2
    "$tool" trial - p <j >out 2>err
    check 'a job from standard input' is out yes
    "$tool" trial u x.plan >/dev/full 2>err
    status=$?
    check 'a full standard output' ended 2
    for name in "a job's" 'two  words' '$u;*' -u; do
        cp u "./$name"
        run trial -- "$name" x.plan
        check "a file named $name" is_seen u x.plan
        check "its name as a shell takes it" test "$(eval "set -- $(sed -n '4s/.*replay//p' out)" && echo "${1#./}")" = "$name"
        rm "./$name"
    done
}

# --- damaged files ----------------------------------------------------------------

trial_damage_tests() {
    rm -f d.out
    slow 3 1 1000
    plan_of '0 0 1 5' '2 12 0 16'
    damaged_trials s 7 d x.plan
    damaged_trials x.plan 5 s d
    plan_of '0 0 1 5' '1 6 2 11'
    damaged_trials j 5 d x.plan
    damaged_trials x.plan 3 j d
    grouped 3 1 0
    damaged_trials g 7 d x.plan
    damaged_trials o.job 31 d shared.plan
    damaged_trials shared.plan 13 o.job d
}

damaged_trials() { # damaged_trials FILE STEP JOB PLAN: each so many bits one is turned in FILE, which then is the one named d
    local bit
    bytes_of "$1"
    for ((bit = 0; bit < 8 * ${#bytes[@]}; bit += $2)); do
        flip d "$bit" "${bytes[@]}"
        check "damaged: trial ${*:3}, bit $bit" beside_judge "${@:3}"
    done
}
