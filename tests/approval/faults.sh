# Kills, Ctrl-C, full disks, and two screens at once. Each call by which the screen opens, locks, writes, names or removes a file is one
# place to be struck.

# struck ACTION WORD ..: makes a change with a fault at its first call, at its second, and so on. Each time the register has to be
# the old one or the new one, and then the same change has to go through with nothing cleaned up.
struck() {
    local action=$1 n
    shift
    cp register old
    done_ "$@"
    cp register new
    count_calls "$@"
    for n in $(seq "$calls"); do
        cp old register
        faulty "$action:any:$n" "$@"
        cmp -s register old || same register new "$action at call $n: the register is neither the old one nor the new one"
        "after_$action" "$n"
        cp old register
        done_ "$@"
        same register new "the change after $action at call $n"
        nothing_beside
    done
}

# count_calls WORD ..: how many calls there are, in $calls: those at which it can be killed
count_calls() {
    calls=0 ended=1
    while [ "$ended" -ne 0 ] && [ "$calls" -lt 99 ]; do
        calls=$((calls + 1))
        cp old register
        faulty "kill:any:$calls" "$@"
    done
    calls=$((calls - 1))
    [ "$calls" -gt 5 ] && [ "$calls" -lt 98 ] || wrong "$calls calls, which cannot be"
}

after_kill() { [ "$ended" -eq 137 ] || wrong "killed at call $1: ended with $ended"; }

after_interrupt() {
    [ "$ended" -eq 130 ] || wrong "interrupted at call $1: ended with $ended"
    nothing_beside
}

# what it ends with is so, and is told
after_full() {
    nothing_beside
    case $ended in
    0 | 4) same register new "full at call $1: ended with $ended, but the register is the old one" ;;
    3) same register old "full at call $1: ended with 3, but the register was changed" ;;
    *) wrong "full at call $1: ended with $ended" ;;
    esac
    [ "$ended" -eq 0 ] || [ -s told ] || wrong "full at call $1: nothing was told"
}

test_killed() {
    begun
    struck kill sign 1001 4
}

test_interrupted() {
    begun
    struck interrupt sign 1001 4
}

test_full_disk() {
    begun
    struck full sign 1001 4
    for call in write ftruncate fsync rename; do
        cp old register
        faulty "full:$call:1" sign 1001 4
        expect 3 "a full disk at $call"
    done
}

# a file that must not grow, which by itself would be a signal that ends the screen in the midst of writing
test_file_limit() {
    begun
    cp register before
    (ulimit -f 8 && screen submit 5; exit "$ended") && wrong "a register that could not be written" || [ $? -eq 3 ] || wrong "another status"
    same register before "the register was changed"
    nothing_beside
    done_ submit 5
}

test_released_killed() {
    signed
    local n
    for n in $(seq 99); do
        rm -f out
        faulty "kill:any:$n" release 7 out
        [ ! -e out ] || same out 5 "killed at call $n: half a plan was released"
        [ "$ended" -ne 0 ] || break
        done_ release 7 out
        same out 5 "the release after a kill at call $n"
        [ ! -e out.unfinished ] || wrong "out.unfinished was left"
    done
    [ "$n" -gt 4 ] && [ "$n" -lt 99 ] || wrong "$n calls, which cannot be"
}

test_new_killed() {
    local n
    done_ new 2
    cp register whole
    for n in $(seq 99); do
        rm -f register*
        faulty "kill:any:$n" new 2
        [ "$ended" -ne 0 ] || break
        if [ -e register ]; then same register whole "killed at call $n: half a register was begun"; else done_ new 2; fi
        done_ clear
        nothing_beside
    done
    [ "$n" -gt 5 ] && [ "$n" -lt 99 ] || wrong "$n calls, which cannot be"
}

# begin_faulty FAULT WORD ..: in the background, with its own files; its process is $!
begin_faulty() { FAULT=$1 "$work/faulty" register "${@:2}" >said."$2" 2>told."$2" & }

# One screen is stopped within its change, a signature. Another, which takes in plan 8, waits for it and says so. Then both changes are
# there; where the first is killed instead, the other goes on at once, and the signature is not.
test_two_screens() {
    local first second end
    for end in CONT KILL; do
        rm -f register*
        begun
        begin_faulty stop:rename:1 sign 1001 4
        first=$!
        stopped "$first"
        "$work/renumber" 8 1 <4 >8
        begin_faulty none submit 8
        second=$!
        for _ in $(seq 1500); do [ -s told.submit ] || sleep 0.02; done
        grep -q "another screen is at work" told.submit || wrong "nothing was told to the one who waits"
        kill -0 "$second" 2>/dev/null || wrong "the second did not wait"
        held 4 0
        kill -s "$end" "$first"
        { wait "$first"; } 2>/dev/null && [ "$end" = CONT ] || [ "$end" = KILL ] || wrong "the first was not done"
        { wait "$second"; } 2>/dev/null || wrong "the second was not done"
        if [ "$end" = CONT ]; then held 4 1; else held 4 0; fi
        done_ state 8
    done
}

# While a change is stopped midway somebody removes all that stands beside the register, and a second change begins. The first must
# not put an unfinished file of the second in the register's place, and neither may undo the other.
test_lock_removed() {
    local first second
    begun
    begin_faulty stop:rename:1 sign 1001 4
    first=$!
    stopped "$first"
    rm -f register.*
    begin_faulty stop:write:1 submit 5
    second=$!
    for _ in $(seq 1500); do [ -s told.submit ] || is_stopped "$second" || sleep 0.02; done
    kill -s CONT "$first"
    wait "$first" && wrong "the first is done, though what it wrote was removed"
    held 4 0
    stopped "$second"
    kill -s CONT "$second"
    wait "$second" || wrong "the second was not done"
    held 5 0
    nothing_beside
}

# Eight screens at once, and none of their changes is lost.
test_many_screens() {
    local n pids=()
    done_ new 8
    for n in $(seq 8); do "$work/renumber" "$n" 1 <"$samples/revision-4.plan" >"plan-$n"; done
    for n in $(seq 8); do
        "$work/approval" register submit "plan-$n" >"said-$n" 2>"told-$n" &
        pids+=($!)
    done
    for n in "${pids[@]}"; do wait "$n" || wrong "one of eight was not done"; done
    for n in $(seq 8); do
        done_ state "$n"
        grep -q "plan $n, revision 1" said || wrong "plan $n is lost"
    done
    nothing_beside
}

# What cannot be told is no success: a full disk, a reader who has gone, a closed stream.
test_output() {
    signed
    local words
    for words in "state 7" "verdict 4" "supply 4 2017-12-04 10.00 low" "dates 4 2017-12-04 10.00" "verdict $samples/hole.plan" "release 7 out"; do
        ended=0
        "$work/approval" register $words >/dev/full 2>told || ended=$?
        [ "$ended" -ge 3 ] && [ -s told ] || wrong "'$words' to a full disk: ended with $ended"
        ended=0
        "$work/approval" register $words >&- 2>told || ended=$?
        [ "$ended" -ge 3 ] && [ -s told ] || wrong "'$words' to a closed stream: ended with $ended"
        (trap '' PIPE; (sleep 0.2; ended=0; "$work/approval" register $words 2>told || ended=$?; echo $ended >status) | :)
        [ "$(cat status)" -ge 3 ] && [ -s told ] || wrong "'$words' to nobody: ended with $(cat status)"
    done
    cp register before
    ended=0
    "$work/approval" register drop 7 >/dev/full 2>told || ended=$?
    [ "$ended" -eq 4 ] && ! cmp -s register before || wrong "a change that could not be told: ended with $ended"
    grep -q "has been done all the same" told || wrong "nothing says that the change was made"
    "$work/approval" register submit 4 >&- 2>&- && wrong "a change with no stream to tell it"
    screen state 7
    expect 1 "what closed streams left"
    nothing_beside
}
