# Tests of supply groups: sample J in version 4; read by test.sh, whose functions it uses.
# The file p is the plan of sample J in version 1 (0 0 1 5, 0 4 1 9).

grouped_text() { # grouped_text GROUP GROUP GROUP [SED]: into x.txt; sending takes no time
    sed "s/^job 1/job 4/; s/^task ./& ready 0/; s/^node 0.*/& send 0 group $1/; s/^node 1.*/& send 0 group $2/
        s/^node 2.*/& send 0 group $3/; ${4-}" "$home/examples/sample.txt" >x.txt
}

grouped() { # grouped GROUP GROUP GROUP [SED]: into the file g
    grouped_text "$@"
    good pack x.txt -o g
}

fourth() { # fourth GROUP: a script that puts a fourth node behind the third
    echo "s/^node 2.*/&\nnode 3 detect 1 send 0 group $1/; s/run 4 4 4/& 4/; s/run 3 3 3/& 3/"
}

one_group='in one supply group'
group_tests() {
    grouped 0 1 2
    lists g '0 0 1 5' '0 4 1 9'
    grouped 15 0 7
    lists g '0 0 1 5' '0 4 1 9'
    good unpack g
    check 'the text of version 4' cmp -s out <(sed 's/ *#.*//; /^$/d' x.txt)
    grouped 5 5 3
    lists g '0 0 2 5' '0 4 2 9'
    good plan g -o g.plan
    good judge g g.plan
    good unpack g g.plan
    check 'a plan stays in version 1' has out 'plan 1'
    refuses "8 (same node): task 0 has its primary and its backup $one_group" judge g p
    grouped 5 3 5
    good judge g p
    grouped 5 5 5
    refuses '16 (no backup): no node has a place for the backup of task 0' plan g -o y
    grouped 5 5 3 's/run 3 3 3/run 3 3 -/'
    refuses '16 (no backup): no node has a place for the backup of task 1' list g
    group_show_tests
    group_rule_tests
    group_set_tests
    group_replay_tests
}

group_show_tests() {
    grouped 15 3 15
    good show g p
    check 'show tells the groups' has out '
node  detect  send  group
   0       1     0     15
   1       1     0      3
   2       1     0     15
'
    check 'and with the lanes' has out '
node 1 (group 3)
        5 to       9  backup  of task 0'
    check 'and with an empty one' has out '
node 2 (group 15): empty'
    slow 0 0 0
    good show s p
    check 'none in version 3' eval '! has out group'
}

apart() { # apart GROUPS GROUPS SENTENCE [SED]: x.plan passes with the first and is refused with the second
    grouped $1 "${4-}"
    good judge g x.plan
    grouped $2 "${4-}"
    refuses "$3" judge g x.plan
}

group_rule_tests() { # A, G, and what still goes by the node
    local overlap='14 (overlap): a copy of task 0 and a copy of task 1 hold one node at the same time'
    plan_of '0 0 1 5' '0 4 2 11'
    apart '0 1 2' '0 1 0' "8 (same node): task 1 has its primary and its backup $one_group"
    plan_of '0 0 1 5' '0 4 0 9'
    grouped 0 1 2
    refuses "8 (same node): task 1 has its primary and its backup $one_group" judge g x.plan
    plan_of '0 0 2 5' '1 0 2 4'
    apart '0 1 2' '5 5 2' "$overlap" /^link/d
    plan_of '0 0 2 5' '1 0 2 9'
    grouped 5 5 2 /^link/d
    good judge g x.plan
    plan_of '0 0 2 5' '1 0 0 4'
    grouped 5 6 5 /^link/d
    refuses "8 (same node): task 0 has its primary and its backup $one_group" judge g x.plan
    plan_of '0 0 2 5' '1 5 2 10' # between two nodes of one group a result travels as ever
    grouped 5 5 2
    refuses "11 (primary unfed): the result of task 0's primary arrives after the start of task 1's primary" judge g x.plan
    plan_of '0 0 2 5' '1 6 2 10'
    good judge g x.plan
    grouped 5 5 2 's/send 0 group 5/send 1 group 5/'
    refuses "11 (primary unfed): the result of task 0's primary arrives after the start of task 1's primary" judge g x.plan
    plan_of '0 0 2 5' '0 4 2 9' # the detect time is that of the primary's node
    grouped 5 5 2 's/node 1 detect 1/node 1 detect 9/'
    good judge g x.plan
    grouped 5 5 2 's/node 0 detect 1/node 0 detect 2/'
    refuses "9 (early): the backup of task 0 starts before its primary's finish plus the detect time of the primary's node" judge g x.plan
}

group_set_tests() { # E and F: a group that comes from another node of it, by a weak link
    plan_of '0 0 2 5' '3 6 1 11'
    grouped 0 1 2 "$(fourth 3)"
    good judge g x.plan
    grouped 0 0 2 "$(fourth 3)"
    refuses '13 (common loss): the loss of one supply group can stop both copies of task 1' judge g x.plan
    good show g x.plan
    check 'show tells the refusal' has out 'plan, by the judge: refused 13 (common loss): the loss of one supply group'
    plan_of '0 0 2 5' '3 11 1 15'
    good judge g x.plan
    group_backup_tests
}

group_backup_tests() { # task 2 waits for backup 0 where its set has the group of primary 0, by the link from task 1
    local three
    three="$(fourth 4); s/^task 1.*/&\ntask 2 ready 0 deadline 30 run 2 2 2 2/; s/^link.*/link 0 to 2 delay 9\nlink 1 to 2 delay 2/"
    lines 'plan 1' 'task 0 primary 0 at 0 backup 2 at 5' 'task 1 primary 1 at 0 backup 3 at 9' 'task 2 primary 2 at 13 backup 3 at 16' >y.txt
    grouped 0 1 2 "$three"
    good pack y.txt --job g -o x.plan
    good judge g x.plan
    grouped 5 5 2 "$three"
    refuses "12 (backup unfed): a result of task 0 arrives after the start of task 2's backup" judge g x.plan
    sed -i 's/at 16/at 18/' y.txt
    good pack y.txt --job g -o x.plan
    good judge g x.plan
}

group_replay_tests() { # every node of the group, at the same moment
    plan_of '0 0 2 5' '1 6 2 10'
    grouped 5 5 0
    good replay g x.plan --lose 5@3
    check 'both nodes are lost' is out 'group 5 lost at tick 3 (nodes 0, 1)
task  primary      backup        finish  deadline
   0  cut          finished           9        30
   1  not started  finished          13        30'
    good replay g x.plan --lose 5@7
    check 'the second primary is cut' has out '   0  finished     not started        4        30
   1  cut          finished          13        30'
    good replay g x.plan --lose 0@3
    check 'the other group' has out 'group 0 lost at tick 3 (node 2)
'
    check 'its loss calls on nobody' has out '   1  finished     not started        9        30'
    good replay g x.plan
    check 'no loss' has out 'no loss
'
    no_group_tests '0, 5'
    grouped 15 15 15
    good replay g x.plan --lose 15@4294967295
    check 'all nodes' has out 'group 15 lost at tick 4294967295 (nodes 0, 1, 2)
'
    refuses '18 (no such node): no node of the job is in group 0; its only group is 15' replay g x.plan --lose 0@3
    slow 0 0 0
    good replay s x.plan --lose 1@7
    check 'in version 3 a node is lost' has out 'node 1 lost at tick 7
'
    refuses '18 (no such node): node 5 is none of the job, whose nodes are 0 to 2' replay s x.plan --lose 5@3
}

no_group_tests() { # no_group_tests GROUPS: nodes are no groups, and neither are numbers between and behind
    local group
    for group in 1 2 4 6 16 32 4294967295; do
        refuses "18 (no such node): no node of the job is in group $group; its groups are $1" replay g x.plan --lose "$group@3"
        refuses "18 (no such node): no node of the job is in group $group; its groups are $1" chart g x.plan --lose "$group@3" -o y
    done
    check 'no file after a refusal' test ! -e y
}

# --- the chart --------------------------------------------------------------------

# How many brackets, and how many lanes are struck; the legend has one more of each where there is any.
drawn() { [[ $(grep -c 'class="supply"' out) -eq $1 && $(grep -c 'class="gone"' out) -eq $2 && $(grep -c 'class="loss"' out) -eq $3 ]]; }

group_chart_tests() {
    plan_of '0 0 1 5' '0 4 1 9'
    slow 0 0 0
    good chart s x.plan --lose 0@4 -o -
    check 'no group in version 3' eval '! has out group && ! has out supply'
    check 'one lane' drawn 0 2 1
    grouped 5 3 7
    good chart g x.plan -o -
    check 'no bracket for a node by itself' drawn 0 0 0
    check 'the group of each node' test "$(grep -c '>group [357]</text>$' out)" -eq 3
    check 'the hint of a copy' has out '<title>primary of task 1: node 0 (group 5), 4 to 7, ready 0, deadline 30</title>'
    grouped 5 3 5
    good chart g x.plan -o -
    check 'a bracket, and one in the legend' drawn 2 0 0
    check 'its hint' has out '<title>group 5: nodes 0, 2</title></path>'
    check 'it points at two of three lanes' has out 'd="M17.0 110.0h9h-9L17.0 190.0h9h-9"'
    check 'the word in the legend' has out '>one supply</text>'
    check 'the title' has out '<title>Plan: 2 tasks on 3 nodes</title>'
    good chart g x.plan --lose 5@6 -o -
    check 'both lanes, not the one between' drawn 2 3 2
    check 'the title of the run' has out '<title>Run with group 5 lost at tick 6: 2 tasks on 3 nodes</title>'
    check 'both labels' test "$(grep -c '>lost at 6</text>$' out)" -eq 2
    check 'the label between' test "$(grep -c '>detect 1</text>$' out)" -eq 1
    good chart g x.plan --lose 3@4000000000 -o -
    check 'a loss behind the axis' drawn 2 1 0
    group_column_tests
}

group_column_tests() { # brackets that would cross stand in columns, others in one
    plan_of '0 0 1 5' '0 4 1 9'
    grouped 5 3 5 "$(fourth 3)"
    good chart g x.plan -o -
    check 'two brackets' drawn 3 0 0
    check 'side by side' test "$(sed -n 's/^<path class="supply" d="M\([0-9.]*\) .*<title>.*/\1/p' out | tr '\n' ' ')" = '35.0 17.0 '
    grouped 5 5 3 "$(fourth 3)"
    good chart g x.plan -o -
    check 'one below the other' test "$(sed -n 's/^<path class="supply" d="M\([0-9.]*\) .*<title>.*/\1/p' out | tr '\n' ' ')" = '17.0 17.0 '
}

# --- files and text ---------------------------------------------------------------

group_file_tests() {
    grouped 5 0 15
    cut_job_tests 4 g
    bytes_of g
    write_bytes x 03 "${bytes[@]:1}"
    refuses "4 (value): byte 60 of 'x', the from of link 0, is 4; it must be 0" unpack x
    write_bytes x 05 "${bytes[@]:1}"
    refuses "2 (version): byte 0 of 'x', the version, is 5; it must be from 1 to 4" unpack x
    write_bytes x "${bytes[@]:0:16}" 10 "${bytes[@]:17}"
    refuses "4 (value): byte 16 of 'x', the supply group of node 0, is 16; it must be from 0 to 15" unpack x
    write_bytes x "${bytes[@]:0:43}" 80 "${bytes[@]:44}"
    refuses "4 (value): byte 40 of 'x', the supply group of node 2, is 2147483663; it must be from 0 to 15" judge x p
    slow 3 0 1000
    bytes_of s
    write_bytes x 04 "${bytes[@]:1}"
    refuses "4 (value): byte 28 of 'x', the supply group of node 1, is 1000; it must be from 0 to 15" unpack x
}

group_text_tests() {
    local what='the supply group of node'
    grouped 15 15 15
    grouped_text 16 0 0
    beyond 4 "$what 0" 16 16 0 15
    grouped_text 0 0 4294967295
    beyond 6 "$what 2" 40 4294967295 0 15
    grouped_text 0 0 0 's/node 1 \(.*\) send 0/node 1 \1 send 1001/'
    beyond 5 'the send time of node 1' 24 1001 0 1000
    grouped_text 0 0 0 's/deadline 30 run 3/deadline 0 run 3/'
    beyond 9 'the deadline of task 1' 72 0 1 1000000
    too_old group 'supply group' 4 3
    too_old group 'supply group' 4 2 's/ send 0//'
    too_old group 'supply group' 4 1 's/ send 0//'
    grouped_text 0 0 0 's/ group 0//'
    wrong "'x.txt', line 4: expected 'group', but the line ends" pack x.txt -o y
    grouped_text 0 '' 0
    wrong "'x.txt', line 5: expected the supply group, but the line ends" pack x.txt -o y
    grouped_text 0 0 -5
    wrong "'x.txt', line 6: expected the supply group, found '-5'" pack x.txt -o y
    grouped_text 0 0 4294967296
    wrong "'x.txt', line 6: expected the supply group, found '4294967296'" pack x.txt -o y
    grouped_text 0 0 '0 group 0'
    wrong "'x.txt', line 6: expected the end of the line, found 'group'" pack x.txt -o y
    grouped_text 0 0 0 's/send 0 group 0/group 0 send 0/'
    wrong "'x.txt', line 4: expected 'send', found 'group'" pack x.txt -o y
    check 'no file after a refusal' test ! -e y
}
