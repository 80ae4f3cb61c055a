# Tests of trace: how fault sets come about; read by test.sh, whose functions it uses.
# The files j and p are sample J and its plan (0 0 1 5, 0 4 1 9), r, s and g are sample J in versions 2 to 4.

traces() { # traces JOB PLAN: what is printed can be followed
    good trace "$1" "$2"
    check "followed: trace $1 $2" followed
}

# Whether in out each set is the primary's group, or its node where no group is said, and what the weak links
# bring, the tasks stand in turn, and the links at the task that they arrive at, rising, with ticks that fit.
followed() {
    awk '
        /^task / { task = $2 + 0; bad += task != tasks++; own = $7 == "(group" ? $8 + 0 : $6; from = -1; split("", has) }
        /^  begins with / { bad += $3 + 0 != own; has[own] = 1 }
        /^  link / {
            there = $16 + 0; start = $21 + 0; brings = ""
            bad += $4 != task || $2 <= from || $2 >= task
            bad += $5 == "strong" ? $7 != start - there || NF != 21 : $5 != "weak" || $7 != there - start || $7 == 0
            for (i = 23; i <= NF; i++) { brings = brings " " $i; has[$i] = 1 }
            bad += $5 == "weak" && brings != set[$2]
            from = $2
        }
        /^  no link arrives$/ { bad += from >= 0; from = 0 }
        /^  fault set of task / {
            want = ""
            for (n = 0; n < 32; n++) if (n in has) want = want " " n
            set[task] = substr($0, index($0, ":") + 1)
            bad += $5 + 0 != task || set[task] != want || from < 0
        }
        END { exit bad > 0 || tasks == 0 }' out
}

arrives() { # arrives LINE..: what is printed of task 1 behind its primary's node or group
    read_file out
    content=${content##*"its primary's "}
    check "$1" test "${content#*$'\n'}" = "$(lines "$@")"
}

trace_tests() {
    traces j p
    check 'the trace of sample 1' is out "plan, by the judge: passed
task 0: primary on node 0 from 0 to 4, backup on node 1 from 5 to 9
  begins with 0, its primary's node
  no link arrives
  fault set of task 0: 0
task 1: primary on node 0 from 4 to 7, backup on node 1 from 9 to 12
  begins with 0, its primary's node
  link 0 to 1    weak by 7         backup 0 ends at 9, is there at 11; primary 1 starts at 4; brings 0
  fault set of task 1: 0"
    good pack "$home/examples/slow-links.txt" -o x.job
    good plan x.job -o x.plan
    traces x.job x.plan
    check 'the trace of an example' is out "plan, by the judge: passed
task 0: primary on node 0 from 0 to 2, backup on node 1 from 3 to 5
  begins with 0, its primary's node
  no link arrives
  fault set of task 0: 0
task 1: primary on node 1 from 0 to 2, backup on node 0 from 3 to 5
  begins with 1, its primary's node
  no link arrives
  fault set of task 1: 1
task 2: primary on node 0 from 8 to 9, backup on node 1 from 10 to 11
  begins with 0, its primary's node
  link 0 to 2    weak by 3         backup 0 ends at 5, is there at 11; primary 2 starts at 8; brings 0
  link 1 to 2    strong by 3       backup 1 ends at 5, is there at 5; primary 2 starts at 8
  fault set of task 2: 0"
    trace_chain_tests
    trace_edge_tests
    trace_send_tests
    trace_group_tests
    trace_far_tests
    trace_example_tests
}

trace_example_tests() {
    for text in "$home"/examples/{sample,lessons,slow-links,slow-cards,drawer,oscilloscope}.txt; do
        good pack "$text" -o x.job
        good plan x.job -o x.plan
        traces x.job x.plan
    done
    traces o.job passed.plan
    traces o.job refused.plan
    check 'the verdict stands first' test "$(head -n 1 out)" = \
        'plan, by the judge: refused 13 (common loss): the loss of one node can stop both copies of task 10'
    check 'the fault sets by themselves' cmp -s <(grep '^  fault set' out | tail -n 3) <(lines \
        '  fault set of task 8: 1' '  fault set of task 9: 1 2' '  fault set of task 10: 1 2 3')
}

trace_chain_tests() { # task 2 is not linked to 0, but has the node of its primary by way of 1
    lines 'job 1' 'node 0 detect 1' 'node 1 detect 1' 'node 2 detect 1' 'node 3 detect 1' \
        'task 0 deadline 90 run 4 4 4 4' 'task 1 deadline 90 run 3 3 3 3' 'task 2 deadline 90 run 5 5 5 5' \
        'link 0 to 1 delay 2' 'link 1 to 2 delay 1' >x.txt
    good pack x.txt -o x.job
    lines 'plan 1' 'task 0 primary 0 at 0 backup 3 at 5' 'task 1 primary 1 at 6 backup 3 at 10' 'task 2 primary 2 at 12 backup 3 at 18' >x.txt
    good pack x.txt --job x.job -o x.plan
    traces x.job x.plan
    check 'a chain of weak links' is out "plan, by the judge: passed
task 0: primary on node 0 from 0 to 4, backup on node 3 from 5 to 9
  begins with 0, its primary's node
  no link arrives
  fault set of task 0: 0
task 1: primary on node 1 from 6 to 9, backup on node 3 from 10 to 13
  begins with 1, its primary's node
  link 0 to 1    weak by 5         backup 0 ends at 9, is there at 11; primary 1 starts at 6; brings 0
  fault set of task 1: 0 1
task 2: primary on node 2 from 12 to 17, backup on node 3 from 18 to 23
  begins with 2, its primary's node
  link 1 to 2    weak by 2         backup 1 ends at 13, is there at 14; primary 2 starts at 12; brings 0 1
  fault set of task 2: 0 1 2"
    sed -i 's/at 12 backup 3 at 18/at 14 backup 3 at 20/' x.txt
    good pack x.txt --job x.job -o x.plan
    traces x.job x.plan
    check 'the chain ends at a strong link' has out 'link 1 to 2    strong by 0       backup 1 ends at 13, is there at 14; primary 2 starts at 14
  fault set of task 2: 2'
}

trace_edge_tests() { # just in time and a tick late, between two nodes (samples 5 and 4) and on one
    plan_of '0 0 1 5' '2 11 0 15'
    traces j x.plan
    check 'passed' has out 'plan, by the judge: passed
'
    arrives '  link 0 to 1    strong by 0       backup 0 ends at 9, is there at 11; primary 1 starts at 11' \
        '  fault set of task 1: 2'
    plan_of '0 0 1 5' '2 10 0 15'
    traces j x.plan
    check 'a refused plan has a trace' is out "plan, by the judge: refused 13 (common loss): the loss of one node can stop both copies of task 1
task 0: primary on node 0 from 0 to 4, backup on node 1 from 5 to 9
  begins with 0, its primary's node
  no link arrives
  fault set of task 0: 0
task 1: primary on node 2 from 10 to 13, backup on node 0 from 15 to 18
  begins with 2, its primary's node
  link 0 to 1    weak by 1         backup 0 ends at 9, is there at 11; primary 1 starts at 10; brings 0
  fault set of task 1: 0 2"
    plan_of '0 0 1 5' '1 9 2 13'
    traces j x.plan
    arrives '  link 0 to 1    strong by 0       backup 0 ends at 9, is there at 9; primary 1 starts at 9' \
        '  fault set of task 1: 1'
    plan_of '0 0 1 5' '1 8 1 8'
    traces j x.plan
    check 'the first rule that is broken' has out 'plan, by the judge: refused 8 (same node): task 1 '
    arrives '  link 0 to 1    weak by 1         backup 0 ends at 9, is there at 9; primary 1 starts at 8; brings 0' \
        '  fault set of task 1: 0 1'
}

trace_send_tests() { # the sender's time, none on one node, and none in older versions
    local job
    plan_of '0 0 1 5' '2 11 0 15'
    later 0 0
    slow 1000 0 1000
    for job in r s; do
        traces $job x.plan
        arrives '  link 0 to 1    strong by 0       backup 0 ends at 9, is there at 11; primary 1 starts at 11' \
            '  fault set of task 1: 2'
    done
    slow 0 1 0
    traces s x.plan
    arrives '  link 0 to 1    weak by 1         backup 0 ends at 9, is there at 12; primary 1 starts at 11; brings 0' \
        '  fault set of task 1: 0 2'
    plan_of '0 0 1 5' '1 9 2 13'
    slow 0 1000 0
    traces s x.plan
    arrives '  link 0 to 1    strong by 0       backup 0 ends at 9, is there at 9; primary 1 starts at 9' \
        '  fault set of task 1: 1'
}

trace_group_tests() { # the group of the primary's node, and of the senders
    plan_of '0 0 2 5' '1 6 2 10'
    grouped 15 15 3
    traces g x.plan
    check 'the trace of two nodes in one group' is out "plan, by the judge: passed
task 0: primary on node 0 (group 15) from 0 to 4, backup on node 2 (group 3) from 5 to 9
  begins with 15, its primary's group
  no link arrives
  fault set of task 0: 15
task 1: primary on node 1 (group 15) from 6 to 9, backup on node 2 (group 3) from 10 to 13
  begins with 15, its primary's group
  link 0 to 1    weak by 5         backup 0 ends at 9, is there at 11; primary 1 starts at 6; brings 15
  fault set of task 1: 15"
    grouped 15 0 3
    traces g x.plan
    arrives '  link 0 to 1    weak by 5         backup 0 ends at 9, is there at 11; primary 1 starts at 6; brings 15' \
        '  fault set of task 1: 0 15'
    plan_of '0 0 2 5' '1 11 2 15'
    traces g x.plan
    arrives '  link 0 to 1    strong by 0       backup 0 ends at 9, is there at 11; primary 1 starts at 11' \
        '  fault set of task 1: 0'
}

trace_far_tests() { # the latest arrival that a plan can have, and the earliest
    slow 0 1000 0 's/run 4 4 4/run 4 1000000 1/; s/delay 2/delay 1000000/'
    plan_of '0 0 1 1000000' '2 0 1 0'
    traces s x.plan
    arrives '  link 0 to 1    weak by 3001000   backup 0 ends at 2000000, is there at 3001000; primary 1 starts at 0; brings 0' \
        '  fault set of task 1: 0 2'
    plan_of '0 0 2 0' '2 1000000 1 0'
    traces s x.plan
    arrives '  link 0 to 1    strong by 999999  backup 0 ends at 1, is there at 1; primary 1 starts at 1000000' \
        '  fault set of task 1: 2'
}

# --- files and usage --------------------------------------------------------------

plan_fields() { # the numbers of a plan of two tasks, in file order
    local task part
    lines 'the version' 'the task count'
    for task in 0 1; do
        for part in 'primary node' 'primary start' 'backup node' 'backup start'; do echo "the $part of task $task"; done
    done
}

trace_cut() { # trace_cut FILE JOB PLAN: FILE, whose numbers are read, cut to each length, and with a byte behind it, as x
    local at=0 name
    while read -r name; do
        for rest in 0 1 2 3; do
            head -c $((at + rest)) "$1" >x
            refuses "1 (short): 'x' has fewer than 4 bytes left at byte $at, for $name" trace "$2" "$3"
        done
        at=$((at + 4))
    done
    check "the length of $1" test "$at" -eq "$(wc -c <"$1")"
    { cat "$1"; printf x; } >x
    refuses "6 (tail): byte $at of 'x' follows the last section, where the file must end" trace "$2" "$3"
}

trace_file_tests() {
    later 2 12
    slow 3 0 1000
    trace_cut j x p < <(job_fields 1)
    trace_cut r x p < <(job_fields 2)
    trace_cut s x p < <(job_fields 3)
    grouped 0 5 0
    trace_cut g x p < <(job_fields 4)
    trace_cut p j x < <(plan_fields)
    bytes_of s
    write_bytes x 05 "${bytes[@]:1}"
    refuses "2 (version): byte 0 of 'x', the version, is 5; it must be from 1 to 4" trace x p
    head -c 20 p >x.plan
    refuses "2 (version): byte 0 of 'x', the version, is 5; it must be from 1 to 4" trace x x.plan
    refuses "1 (short): 'x.plan' has fewer than 4 bytes left at byte 20, for the backup start of task 0" trace s x.plan
    refuses "3 (count): byte 4 of 'o.plan', the task count, is 11; it must be 2" trace j o.plan
    plan_of '0 0 1 5' '3 4 1 9'
    refuses "4 (value): byte 24 of 'x.plan', the primary node of task 1, is 3; it must be from 0 to 2" trace j x.plan
    job_text 's/run 3 3 3/run - 3 3/'
    good pack x.txt -o x.job
    refuses "7 (unable): byte 24 of 'p', the primary node of task 1, is 0, a node that cannot run the task (run time 0)" trace x.job p
    bytes_of j
    write_bytes x "${bytes[@]:0:56}" 02 "${bytes[@]:57}" "${bytes[@]:60}"
    refuses "5 (link order): byte 72 of 'x', link 1, from 0 to 1, does not rise above the link before, from 0 to 1" trace x p
}

trace_usage_tests() {
    wrong 'a file name is missing' trace
    wrong 'a file name is missing' trace j
    wrong "one file name too many: 'x'" trace j p x
    wrong "there is no option '--lose'" trace j p --lose 0@1
    wrong "given twice: '-o'" trace j p -o none -o none
    wrong 'standard input can be only one' trace - -
    wrong "cannot read 'none': No such file" trace none p
    wrong "cannot read 'none': No such file" trace j none
    wrong "cannot read '.'" trace j .
    wrong "cannot write 'none/x': No such file" trace j p -o none/x
    refuses "2 (version): byte 0 of '/dev/zero', the version, is 0; it must be from 1 to 4" trace /dev/zero p
    refuses "2 (version): byte 0 of '/dev/zero', the version, is 0; it must be 1" trace j /dev/zero
    good trace j p -o x.trace
    check 'nothing printed' is out ''
    good trace j p
    check 'a trace in a file' cmp -s out x.trace
    "$tool" trace - p <j >out 2>err
    check 'a job from standard input' cmp -s out x.trace
    "$tool" trace j - <p >out 2>err
    check 'a plan from standard input' cmp -s out x.trace
    "$tool" trace j p >/dev/full 2>err
    status=$?
    check 'a full standard output' ended 2
    check 'its message' has err "cannot write 'standard output': No space"
}

# --- damaged files ----------------------------------------------------------------

trace_damage_tests() { # what still reads well can be followed
    rm -f d.out
    slow 3 1 1000
    plan_of '0 0 1 5' '2 12 0 16'
    damaged_traces s 7 d x.plan
    damaged_traces x.plan 5 s d
    grouped 3 1 0
    damaged_traces g 7 d x.plan
    damaged_traces o.job 31 d o.plan
    damaged_traces o.plan 13 o.job d
}

damaged_traces() { # damaged_traces FILE STEP JOB PLAN: each so many bits one is turned in FILE, which then is the one named d
    local bit
    bytes_of "$1"
    for ((bit = 0; bit < 8 * ${#bytes[@]}; bit += $2)); do
        flip d "$bit" "${bytes[@]}"
        run trace "${@:3}"
        check "damaged: trace ${*:3}, bit $bit" ended_well trace
        [[ $status -ne 0 ]] || check "followed: trace ${*:3}, bit $bit" followed
    done
}
