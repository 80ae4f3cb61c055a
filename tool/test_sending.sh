# Tests of send times: sample J in version 3; read by test.sh, whose functions it uses.
# The file p is the plan of sample J in version 1 (0 0 1 5, 0 4 1 9).

slow_text() { # slow_text SEND SEND SEND [SED]: into x.txt
    sed "s/^job 1/job 3/; s/^task ./& ready 0/; s/^node 0.*/& send $1/; s/^node 1.*/& send $2/; s/^node 2.*/& send $3/; ${4-}" \
        "$home/examples/sample.txt" >x.txt
}

slow() { # slow SEND SEND SEND [SED]: into the file s
    slow_text "$@"
    good pack x.txt -o s
}

lists() { # lists JOB PLACES PLACES: what list prints
    good list "$1"
    check "the places $*" cmp -s out <(lines 'task primary at backup at' "0 $2" "1 $3")
}

send_tests() {
    slow 0 0 0
    lists s '0 0 1 5' '0 4 1 9'
    slow 3 1000 1000
    lists s '0 0 1 5' '0 4 1 9'
    good unpack s
    check 'the text of version 3' cmp -s out <(sed 's/ *#.*//; /^$/d' x.txt)
    slow 4 0 0
    lists s '0 0 1 5' '0 4 1 10'
    slow 1 1000 1000 's/run 3 3 3/run - 3 3/'
    lists s '0 0 1 5' '2 7 1 11'
    good plan s -o s.plan
    good judge s s.plan
    good unpack s s.plan
    check 'a plan stays in version 1' has out 'plan 1'
    slow 0 0 1000 's/ready 0\(.*\) 3 3 3/ready 11\1 4 - 3/'
    lists s '0 0 1 5' '2 11 0 15'
    slow 0 1 0 's/ready 0\(.*\) 3 3 3/ready 11\1 4 - 3/'
    refuses '16 (no backup): no node has a place for the backup of task 1' plan s -o y # the link is weak now
    slow 30 0 0 's/run 3 3 3/run - 3 3/'
    refuses '15 (no primary): no node has a place for the primary of task 1' plan s -o y
    slow 22 0 0
    refuses '16 (no backup): no node has a place for the backup of task 1' plan s -o y
    send_show_tests
    send_rule_tests
    send_replay_tests
}

send_show_tests() {
    slow 3 0 1000
    good show s p
    check 'show tells the send times' has out '
node  detect  send
   0       1     3
   1       1     0
   2       1  1000
'
    later 0 0
    good show r p
    check 'none in version 2' eval '! has out send'
}

edge() { # edge SENDS SENDS SENTENCE: x.plan passes with the first and is refused with the second
    slow $1
    good judge s x.plan
    slow $2
    refuses "$3" judge s x.plan
}

send_rule_tests() { # the sender's time, and none on one node
    plan_of '0 0 1 5' '2 9 1 13'
    edge '3 1000 1000' '4 0 0' "11 (primary unfed): the result of task 0's primary arrives after the start of task 1's primary"
    plan_of '0 0 1 5' '0 4 1 9'
    edge '3 1000 1000' '4 0 0' "12 (backup unfed): a result of task 0 arrives after the start of task 1's backup"
    plan_of '0 0 1 5' '0 4 2 14'
    edge '8 3 1000' '0 4 0' "12 (backup unfed): a result of task 0 arrives after the start of task 1's backup"
    plan_of '0 0 1 5' '2 14 0 18'
    edge '8 3 1000' '0 4 0' '13 (common loss): the loss of one node can stop both copies of task 1'
    good show s x.plan
    check 'show tells the refusal' has out 'plan, by the judge: refused 13 (common loss)'
}

send_replay_tests() { # of the plan of version 1: backup 1 starts on node 1 at 9
    slow 3 1000 1000
    good replay s p --lose 0@4
    check 'a result in time' has out '   1  not started  finished          12        30'
    slow 4 0 0
    good replay s p --lose 0@4
    check 'a result too late' has out '   1  not started  not started     none        30'
    good replay s p
    check 'on one node there is nothing to send' has out '   1  finished     not started        7        30'
}

# A node's label has a third line for it, in the places that are two in older versions.
send_chart_tests() {
    good chart j p -o -
    check 'no send time in version 1' eval '! has out send'
    slow 3 0 1000
    good chart s p -o -
    check 'the label of node 0' has out '">node 0</text>
<text class="small" x="16" y="116.0">detect 1</text>
<text class="small" x="16" y="128.0">send 3</text>'
    check 'a line for each node' test "$(grep -c '>send [0-9]*</text>$' out)" -eq 3
    good chart s p --lose 0@4 -o -
    check 'the label of a lost node' has out '>lost at 4</text>
<text class="small" x="16" y="128.0">send 3</text>'
}

send_file_tests() {
    slow 3 0 1000
    cut_job_tests 3 s
    bytes_of s
    write_bytes x 02 "${bytes[@]:1}"
    refuses "3 (count): byte 20 of 'x', the task count, is 0; it must be from 1 to 64" unpack x
    write_bytes x 05 "${bytes[@]:1}"
    refuses "2 (version): byte 0 of 'x', the version, is 5; it must be from 1 to 4" unpack x
    write_bytes x "${bytes[@]:0:29}" 04 "${bytes[@]:30}"
    refuses "4 (value): byte 28 of 'x', the send time of node 2, is 1256; it must be from 0 to 1000" unpack x
    later 2 12
    bytes_of r
    write_bytes x 03 "${bytes[@]:1}"
    refuses "1 (short): 'x' has fewer than 4 bytes left at byte 80, for the deadline of task 2" unpack x
}

send_text_tests() {
    local what='the send time of node'
    slow 1000 1000 1000
    slow_text 1001 0 0
    beyond 4 "$what 0" 12 1001 0 1000
    slow_text 0 0 4294967295
    beyond 6 "$what 2" 28 4294967295 0 1000
    slow_text 0 0 0 's/node 1 detect 1/node 1 detect 1001/'
    beyond 5 'the detect time of node 1' 16 1001 0 1000
    slow_text 0 0 0 's/deadline 30 run 3/deadline 0 run 3/'
    beyond 9 'the deadline of task 1' 60 0 1 1000000
    slow_text 3 0 0
    too_old send 'send time' 3 1
    too_old send 'send time' 3 2
    slow_text 0 0 0 's/ send 0//'
    wrong "'x.txt', line 4: expected 'send', but the line ends" pack x.txt -o y
    slow_text 0 '' 0
    wrong "'x.txt', line 5: expected the send time, but the line ends" pack x.txt -o y
    slow_text 0 0 -5
    wrong "'x.txt', line 6: expected the send time, found '-5'" pack x.txt -o y
    slow_text 0 0 '0 send 0'
    wrong "'x.txt', line 6: expected the end of the line, found 'send'" pack x.txt -o y
    slow_text 0 0 0 's/detect 1 send 0/send 0 detect 1/'
    wrong "'x.txt', line 4: expected 'detect', found 'send'" pack x.txt -o y
    slow_text 0 0 0 's/ready 0 //'
    wrong "'x.txt', line 8: expected 'ready', found 'deadline'" pack x.txt -o y
    check 'no file after a refusal' test ! -e y
}
