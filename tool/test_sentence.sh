# Tests of explain, a part of test.sh.

# By number; @1 and @2 are the places.
word_of=(- short version count value 'link order' tail unable 'same node' early late 'primary unfed' 'backup unfed' 'common loss' overlap
    'no primary' 'no backup' 'short buffer' 'no such node' 'too soon' full stale 'not a sentence')
phrase_of=(-
    'the file ends before the number at byte @1 is whole'
    'the version at byte @1 is not known here'
    'the count at byte @1 is outside its limits'
    'the number at byte @1 is outside its limits'
    'the link at byte @1 is not above the one before'
    'the file goes on at byte @1, where it should end'
    'the node at byte @1 cannot run its task'
    'both copies of task @1 are on one node or supply'
    'the backup of task @1 starts before a loss is noticed'
    'the backup of task @1 ends after the deadline'
    'the result of task @1 is late for the primary of task @2'
    'a result of task @1 is late for the backup of task @2'
    'one loss can stop both copies of task @1'
    'one node is held at the same time by copies of tasks @1 and @2'
    'no node has a place for the primary of task @1'
    'no node has a place for the backup of task @1'
    'the output needs room for @1 bytes'
    'the loss of @1 takes no node of the job'
    'the primary of task @1 starts before it is ready'
    'the job has no room for task @1 or its links'
    'the place for task @1 now breaks a rule; ask again'
    'no refusal has it; its length or number: @1')
largest=18446744073709551615

usual_second() { # usual_second NUMBER FIRST: the second place that goes without saying, into usual
    usual=0
    [[ ' 8 9 10 13 15 16 19 21 ' != *" $1 "* ]] || usual=$2
}

say() { # say NUMBER FIRST SECOND: the sentence, into said
    local usual phrase=${phrase_of[$1]}
    usual_second "$1" "$2"
    [[ $phrase == *@2* || $3 == "$usual" ]] || phrase+=', second @2'
    phrase=${phrase/@1/$2}
    said="Refused $1, ${word_of[$1]}: ${phrase/@2/$3}."
}

declare -A back # by sentence: the first line that explain prints of it
read_back() { # read_back SENTENCE: each is tried once
    local shown
    [[ -z ${back[$1]-} ]] || return
    shown=$("$tool" explain "$1" 2>&1) && [[ $shown == *$'\n'*$'\n'*$'\n'* ]] || shown=failed
    back[$1]=${shown%%$'\n'*}
}

reads_back() { # reads_back SENTENCE PARTS: explain gives number and places
    read_back "$1"
    [[ ${back[$1]} == "refused $2" ]]
}

# --- read back --------------------------------------------------------------------

begins() { read_file "$1"; [[ $content == "$2"* ]]; }
ends() { read_file "$1"; [[ $content == *"$2" ]]; }

explains() { # explains PARTS SENTENCE FIRST SECOND: the lines of explain
    good explain "$2"
    check "parts and word of '$2'" begins out "refused $1"$'\n'"${word_of[${1%% *}]}: "
    check "what '$2' means" eval 'sed -n 2p out | grep -q "^.\{40\}"'
    check "the places of '$2'" ends out $'\n'"first place: $3"$'\n'"second place: $4"
    check "no line of '$2' is too long" eval '! grep -q "^.\{81\}" out'
    mv out wanted
    "$tool" explain - <<<"$2" >out 2>err
    check "'$2' by standard input" cmp -s out wanted
}

explain_tests() {
    explains '1 56 0' 'Refused 1, short: the file ends before the number at byte 56 is whole.' 'byte offset 56' 'not used'
    explains '2 0 0' 'Refused 2, version: the version at byte 0 is not known here.' 'byte offset 0' 'not used'
    explains '3 4 0' 'Refused 3, count: the count at byte 4 is outside its limits.' 'byte offset 4' 'not used'
    explains '4 12 0' 'Refused 4, value: the number at byte 12 is outside its limits.' 'byte offset 12' 'not used'
    explains '5 72 0' 'Refused 5, link order: the link at byte 72 is not above the one before.' 'byte offset 72' 'not used'
    explains '6 10960 0' 'Refused 6, tail: the file goes on at byte 10960, where it should end.' 'byte offset 10960' 'not used'
    explains '7 24 0' 'Refused 7, unable: the node at byte 24 cannot run its task.' 'byte offset 24' 'not used'
    explains '8 3 3' 'Refused 8, same node: both copies of task 3 are on one node or supply.' 'task 3' 'task 3 again'
    explains '9 10 10' 'Refused 9, early: the backup of task 10 starts before a loss is noticed.' 'task 10' 'task 10 again'
    explains '10 1 1' 'Refused 10, late: the backup of task 1 ends after the deadline.' 'task 1' 'task 1 again'
    explains '11 0 1' 'Refused 11, primary unfed: the result of task 0 is late for the primary of task 1.' 'result of task 0' 'for task 1'
    explains '12 0 2' 'Refused 12, backup unfed: a result of task 0 is late for the backup of task 2.' 'result of task 0' 'for task 2'
    explains '13 10 10' 'Refused 13, common loss: one loss can stop both copies of task 10.' 'task 10' 'task 10 again'
    explains '14 3 6' 'Refused 14, overlap: one node is held at the same time by copies of tasks 3 and 6.' 'lower task 3' 'higher task 6'
    explains '15 16 16' 'Refused 15, no primary: no node has a place for the primary of task 16.' 'task 16' 'task 16 again'
    explains '16 0 0' 'Refused 16, no backup: no node has a place for the backup of task 0.' 'task 0' 'task 0 again'
    explains '17 1032 0' 'Refused 17, short buffer: the output needs room for 1032 bytes.' 'bytes needed: 1032' 'not used'
    explains '18 15 0' 'Refused 18, no such node: the loss of 15 takes no node of the job.' 'group 15' 'not used'
    explains '19 63 63' 'Refused 19, too soon: the primary of task 63 starts before it is ready.' 'task 63' 'task 63 again'
    explains '20 64 0' 'Refused 20, full: the job has no room for task 64 or its links.' 'new task 64' 'not used'
    explains '21 12 12' 'Refused 21, stale: the place for task 12 now breaks a rule; ask again.' 'new task 12' 'new task 12 again'
    explains '22 5 0' 'Refused 22, not a sentence: no refusal has it; its length or number: 5.' 'length of the text, or that number: 5' 'not used'
    explain_place_tests
}

explain_place_tests() { # the largest places, and those that no call gives
    explains "4 $largest 0" "Refused 4, value: the number at byte $largest is outside its limits." "byte offset $largest" 'not used'
    explains "10 $largest $largest" "Refused 10, late: the backup of task $largest ends after the deadline." "task $largest" "task $largest again"
    explains "14 $largest $largest" "Refused 14, overlap: one node is held at the same time by copies of tasks $largest and $largest." \
        "lower task $largest" "higher task $largest"
    explains '4 12 7' 'Refused 4, value: the number at byte 12 is outside its limits, second 7.' 'byte offset 12' '7, unusual: each call gives 0 here'
    explains '13 10 7' 'Refused 13, common loss: one loss can stop both copies of task 10, second 7.' 'task 10' '7, unusual: each call gives 10 here'
    explains '13 10 0' 'Refused 13, common loss: one loss can stop both copies of task 10, second 0.' 'task 10' '0, unusual: each call gives 10 here'
    explains "22 0 $largest" "Refused 22, not a sentence: no refusal has it; its length or number: 0, second $largest." \
        'length of the text, or that number: 0' "$largest, unusual: each call gives 0 here"
}

# --- texts that are no sentence ---------------------------------------------------

is_no_sentence() { # is_no_sentence LENGTH: the answer to the last run
    [[ $status -eq 1 && ! -s out ]] && is err "seqopchi: refused 22 (not a sentence): the text is no refusal's sentence; its length is $1"
}

refuses_text() { # refuses_text TEXT..: each of them, with its length; bytes, since LC_ALL is C
    local text
    for text; do
        run explain "$text"
        check "no sentence: '${text:0:200}'" is_no_sentence ${#text}
    done
}

refuses_line() { # refuses_line LENGTH WHAT <FILE: the text on standard input
    "$tool" explain - >out 2>err
    status=$?
    check "no sentence: $2" is_no_sentence "$1"
}

no_sentence_tests() {
    local right='Refused 13, common loss: one loss can stop both copies of task 10.' place text
    refuses_text '' . ' ' Refused 'Refused 13' 'refused 13 10 10' '13 (common loss) 10' "$right$right" "$right " " $right" "$right"$'\n' \
        "$right"$'\r' "$right"$'\r\n' $'\n'"$right" "$right." "${right%.}" "${right%.}!" "${right/ 13/  13}" "${right/ 13/$'\t'13}" "${right/13,/13}" \
        "${right/: /:}" "${right,,}" "${right^^}" "${right/Refused/refused}" "${right/common/Common}" "${right/one/One}" "seqopchi: $right" \
        "${right/task/node}" "${right/ 10/ ten}" "${right/10/}" "${right/ 10/}" "$right"$'\377' "${right/loss/los$'\303\237'}"
    for place in 010 00 000010 +10 -10 -0 0x10 1e1 10.0 1,000 18446744073709551616 18446744073709551617 18446744073709551626 \
        20000000000000000000 99999999999999999999 36893488147419103242 100000000000000000000 184467440737095516150; do
        refuses_text "${right/10/$place}" "${right/10/10, second $place}" "Refused $place, common loss: one loss can stop both copies of task 10."
    done
    refuses_text "${right/10/$(printf '1%0500d' 0)}" "${right/10/10, second 10}" "${right/10/10, second }" "${right/10/10 second 7}" \
        "${right/10/10, second 7, second 7}" "${right/10/10, second 7.}" "${right/10/10, third 7}" "${right/10/10,second 7}" "${right/10/10 and 7}" \
        'Refused 4, value: the number at byte 12 is outside its limits, second 0.' \
        'Refused 14, overlap: one node is held at the same time by copies of tasks 3 and 6, second 6.' \
        'Refused 14, overlap: one node is held at the same time by copies of tasks 3 and 6, second 0.' \
        'Refused 14, overlap: one node is held at the same time by copies of tasks 3.' \
        'Refused 14, overlap: one node is held at the same time by copies of tasks 03 and 6.' \
        'Refused 14, overlap: one node is held at the same time by copies of tasks 3 and 06.'
    printf -v text '%0100000d' 0
    refuses_text "$text" "${right%.}$text."
}

line_tests() { # the first line of standard input, without its end and nothing else
    local right='Refused 13, common loss: one loss can stop both copies of task 10.' form
    good explain "$right"
    mv out wanted
    for form in '%s' '%s\n' '%s\r\n' '%s\nmore\n' '%s\n%s\n' '%s\n\n' '%s\n\0\377' '%s\r\nmore'; do
        printf "$form" "$right" | "$tool" explain - >out 2>err
        status=$?
        check "line '$form'" cmp -s out wanted
        check "quiet: line '$form'" is err ''
    done
    yes "$right" | "$tool" explain - >out 2>err
    check 'a stream without end' cmp -s out wanted
    refuses_line 67 'a carriage return without a line feed' < <(printf '%s\r' "$right")
    refuses_line 67 'two carriage returns' < <(printf '%s\r\r\n' "$right")
    refuses_line 67 'a space in front' < <(printf ' %s\n' "$right")
    refuses_line 67 'a space behind' < <(printf '%s \n' "$right")
    refuses_line 0 'an empty first line' < <(printf '\n%s\n' "$right")
    refuses_line 0 'an empty first line, CRLF' < <(printf '\r\n%s\n' "$right")
    refuses_line 67 'a zero byte behind' < <(printf '%s\0\n' "$right")
    refuses_line 67 'a zero byte in front' < <(printf '\0%s\n' "$right")
    refuses_line 66 'a zero byte within' < <(printf 'Refused 13,\0common loss: one loss can stop both copies of task 10.')
    refuses_line 69 'a mark in front' < <(printf '\357\273\277%s\n' "$right")
    refuses_line 0 'nothing' </dev/null
    refuses_line 66 'cut by a zero byte' < <(printf '%s' "${right%.}"; head -c 1 /dev/zero)
    refuses_line 1000000 'a million zero bytes' < <(head -c 1000000 /dev/zero)
    refuses_line 1000066 'a million spaces behind' < <({ printf %s "$right"; head -c 1000000 /dev/zero | tr '\0' ' '; echo; })
    refuses_line 1048576 'the longest line' < <(head -c 1048576 /dev/zero)
}

explain_usage_tests() {
    local right='Refused 13, common loss: one loss can stop both copies of task 10.'
    wrong 'the sentence is missing' explain
    wrong 'the sentence is missing' explain -o x
    wrong 'the sentence is missing' explain --
    wrong "a sentence is one word, in quotes; found behind it: '13,'" explain $right
    wrong "a sentence is one word, in quotes; found behind it: '-'" explain - -
    wrong "there is no option '-x'" explain -x
    wrong "there is no option '--lose'" explain "$right" --lose 1@2
    wrong "there is no option '-$right'" explain "-$right"
    wrong "a value is missing behind '-o'" explain "$right" -o
    wrong "given twice: '-o'" explain "$right" -o x -o y
    wrong "cannot write 'none/x': No such file" explain "$right" -o none/x
    good explain -- "$right"
    mv out wanted
    good explain "$right" -o meaning
    check 'the meaning in a file' cmp -s meaning wanted
    check 'and nowhere else' is out ''
    run explain "$right " -o meaning
    check 'a refusal keeps the old file' cmp -s meaning wanted
    "$tool" explain - <. >out 2>err
    status=$?
    check 'a folder for standard input' ended 2
    check 'its message' is err "seqopchi: cannot read 'standard input': Is a directory"
    "$tool" explain - <&- >out 2>err
    status=$?
    check 'a closed standard input' ended 2
    "$tool" explain - </dev/zero >out 2>err
    status=$?
    check 'a line without end' ended 2
    check 'its message' is err 'seqopchi: the first line is longer than 1048576 bytes'
    "$tool" explain "$right" >/dev/full 2>err
    status=$?
    check 'a full standard output' ended 2
}

# --- many places, damaged sentences ------------------------------------------------

sentence_damage_tests() {
    every_place_tests
    mixed_tests
    damaged_sentence_tests 'Refused 13, common loss: one loss can stop both copies of task 10.'
}

every_place_tests() { # any two places, with each number
    local number first second said longest=0
    for ((number = 1; number <= 22; number++)); do
        for first in 0 1 9 10 4294967295 4294967296 10000000000000000000 $largest; do
            for second in 0 $first 16777216 $largest; do
                say $number $first $second
                check "read back: $said" reads_back "$said" "$number $first $second"
                [[ ${#said} -le $longest ]] || longest=${#said}
            done
        done
    done
    check 'the longest sentence' test $longest -eq 120
}

mixed_tests() { # numbers outside the table, and words of another number
    local number next said other
    for number in 0 00 01 013 23 24 99 100 113 131 255 256 269 4294967309 18446744073709551629; do
        refuses_text "Refused $number, common loss: one loss can stop both copies of task 10." "Refused $number, unknown: one loss." \
            "Refused $number, done: no loss." "Refused $number, : ."
    done
    for ((number = 1; number <= 22; number++)); do
        next=$((number % 22 + 1))
        say $next 5 6
        other=${said#*: }
        say $number 5 6
        refuses_text "Refused $next, ${word_of[number]}: ${said#*: }" "Refused $number, ${word_of[next]}: ${said#*: }" \
            "Refused $number, ${word_of[number]}: $other"
    done
}

damaged_sentence_tests() { # damaged_sentence_tests SENTENCE: cut, and each byte changed, left out and doubled
    local at
    for ((at = 0; at < ${#1}; at++)); do
        refuses_text "${1:0:at}" "${1:at+1}" "${1:0:at}#${1:at+1}" "${1:0:at}#${1:at}"
        [[ $at -ge 60 && ${1:at:1} == [0-9] ]] || refuses_text "${1:0:at}${1:at+1}" "${1:0:at}${1:at:1}${1:at}"
    done
}

explain_help_tests() {
    check 'help lists explain' has <("$tool" --help) '  explain '
    good explain --help
    check 'usage of explain' has out 'Usage: seqopchi explain '
}
