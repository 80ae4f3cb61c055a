# Tests of the order of a node's copies in show and chart: by start, then task, primary before backup; read by test.sh,
# whose functions it uses.

shown() { sed -n 's/^ *\([0-9]*\) to *[0-9]*  \([a-z]*\) *of task \([0-9]*\)$/\2 \3 at \1/p' out; }
charted() { sed -n 's/^<g><title>\([a-z]*\) of task \([0-9]*\): node [0-9]*, \([0-9]*\) to .*/\1 \2 at \3/p' out; }

ordered() { # ordered WHAT COPY..: the copies of x.plan, node by node; each is 'primary TASK at START' or 'backup ..'
    local what=$1
    shift
    good show order.job x.plan
    check "$what, shown" cmp -s <(shown) <(lines "$@")
    good chart order.job x.plan -o -
    check "$what, drawn" cmp -s <(charted) <(lines "$@")
    good chart order.job x.plan --lose 0@6 -o -
    check "$what, drawn with a loss" cmp -s <(charted) <(lines "$@")
}

bar_tops() { sed -n '/^<g><title>/{n;s/.* y="\([0-9.]*\)".*/\1/p}' out | tr '\n' ' '; }

order_tests() { # sample J without its link, task 1 quicker on node 2
    sed '/^link/d; s/run 3 3 3/run 3 3 2/' "$home/examples/sample.txt" >x.txt
    good pack x.txt -o order.job
    plan_of '0 0 2 6' '1 0 2 4'
    good judge order.job x.plan
    ordered 'the sooner backup is of the higher task' 'primary 0 at 0' 'primary 1 at 0' 'backup 1 at 4' 'backup 0 at 6'
    plan_of '0 0 2 5' '1 0 2 6'
    good judge order.job x.plan
    ordered 'the sooner backup ends later' 'primary 0 at 0' 'primary 1 at 0' 'backup 0 at 5' 'backup 1 at 6'
    plan_of '0 0 2 5' '1 1 2 5'
    good judge order.job x.plan
    ordered 'two backups share time from one start' 'primary 0 at 0' 'primary 1 at 1' 'backup 0 at 5' 'backup 1 at 5'
    good chart order.job x.plan -o -
    check 'the first of them stands above' test "$(bar_tops)" = '99.0 139.0 179.0 207.0 '
    plan_of '1 1 2 8' '0 0 2 8' # and here the node of the higher task's primary comes first
    good judge order.job x.plan
    ordered 'nodes come before tasks' 'primary 1 at 0' 'primary 0 at 1' 'backup 0 at 8' 'backup 1 at 8'
    order_refused_tests
    order_full_tests
}

order_refused_tests() { # where a primary and a backup start at once
    local overlap='14 (overlap): a copy of task 0 and a copy of task 1 hold one node at the same time'
    plan_of '0 0 1 5' '1 5 2 9'
    refuses "$overlap" judge order.job x.plan
    ordered 'backup 0 before primary 1' 'primary 0 at 0' 'backup 0 at 5' 'primary 1 at 5' 'backup 1 at 9'
    plan_of '1 5 2 10' '0 0 1 5'
    refuses "$overlap" judge order.job x.plan
    ordered 'primary 0 before backup 1' 'primary 1 at 0' 'primary 0 at 5' 'backup 1 at 5' 'backup 0 at 10'
    plan_of '1 5 1 5' '1 5 1 0'
    refuses '8 (same node): task 0 has its primary and its backup on one node' judge order.job x.plan
    ordered 'all on one node' 'backup 1 at 0' 'primary 0 at 5' 'backup 0 at 5' 'primary 1 at 5'
}

order_full_tests() { # 128 copies on one node, many of them at one start
    local task start copies=()
    {
        lines 'job 1' 'node 0 detect 0' 'node 1 detect 0'
        for ((task = 0; task < 64; task++)); do echo "task $task deadline 1000 run 1 1"; done
    } >x.txt
    good pack x.txt -o order.job
    {
        echo 'plan 1'
        for ((task = 0; task < 64; task++)); do echo "task $task primary 1 at $((task % 4)) backup 1 at $((task % 3))"; done
    } >x.txt
    good pack x.txt -o x.plan
    for ((start = 0; start < 4; start++)); do
        for ((task = 0; task < 64; task++)); do
            ((task % 4 != start)) || copies+=("primary $task at $start")
            ((task % 3 != start)) || copies+=("backup $task at $start")
        done
    done
    check '128 of them' test "${#copies[@]}" -eq 128
    ordered '128 copies' "${copies[@]}"
}
