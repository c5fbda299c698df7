# The register's file and OUT: nothing that is there is lost, and nobody is shut out.

# untouched STATUS WHAT WORD ..: it ends with STATUS, and the register is byte for byte what it was
untouched() {
    cp register before
    screen "${@:3}"
    expect "$1" "$2"
    same register before "$2: the register was changed"
    rm before
}

test_release_into_register() {
    signed
    ln -s register link
    ln register other
    mkfifo pipe
    ln -s nowhere dangling
    mkdir folder
    for out in register ./register "$PWD/register" link other pipe dangling folder . register.lock register.unfinished; do
        untouched 3 "release into $out" release 7 "$out"
    done
    [ -L link ] && [ -p pipe ] && [ -L dangling ] && [ -d folder ] || wrong "what OUT named was replaced"
    [ register -ef other ] || wrong "a hard link to the register was replaced"
    rm other
}

# a device of our own, where we may make one: should the screen replace it, nothing else is harmed
test_release_into_device() {
    signed
    if mknod device c 1 7 2>/dev/null; then
        ln -s device link
        for out in device link; do untouched 3 "release into $out" release 7 "$out"; done
        [ -c device ] || wrong "the device was replaced"
    fi
    ln -s /dev/full full
    untouched 3 "release into a link to a device" release 7 full
    [ -L full ] || wrong "a link to a device was replaced"
}

test_release_through_link() {
    signed
    mkdir lists
    echo old >lists/plan
    chmod 640 lists/plan
    ln -s lists/plan out
    done_ release 7 out
    [ -L out ] || wrong "the link was replaced"
    same lists/plan 5 "the plan is not where the link leads"
    [ "$(stat -c %a lists/plan)" = 640 ] || wrong "the file has another mode"
}

test_new_over_register() {
    begun
    ln -s register link
    ln -s nowhere dangling
    mkdir folder
    for at in register link dangling folder; do
        cp register before
        screen_on "$at" new 2
        expect 3 "new where $at is"
        same register before "new where $at is: the register was changed"
    done
    [ -L link ] && [ -L dangling ] && [ ! -e nowhere ] || wrong "what was there was replaced"
    held 4 0
}

test_links() {
    mkdir home branch
    cp "$samples/revision-4.plan" 4
    (cd home && screen_on register new 2 && expect 0 new)
    ln -s ../home/register branch/register
    ln -s home/register register
    screen_on branch/register submit 4
    expect 0 "submit through one link"
    done_ sign 1001 4
    screen_on home/register state 7
    grep -q "revision 4, signed by 1" said || wrong "one register has become two"
    [ -L register ] && [ -L branch/register ] || wrong "a link was replaced"
}

test_hard_link() {
    begun
    ln register other
    untouched 3 "a change of a register with two names" sign 1001 4
    [ register -ef other ] || wrong "the two names no longer name one file"
    done_ state 7
}

test_mode() {
    begun
    for mode in 660 640 600 664; do
        chmod "$mode" register
        done_ drop 7
        done_ submit 4
        [ "$(stat -c %a register)" = "$mode" ] || wrong "mode $mode has become $(stat -c %a register)"
    done
}

test_cut_short() {
    begun
    cp register whole
    for length in 0 1 511 16895 16897 20000 33791 33793; do
        cp whole register
        truncate -s "$length" register
        for words in "state 7" "submit nowhere" "sign 1001 4" "release 7 out" "drop 7" "clear"; do
            untouched 3 "$words with $length bytes" $words
            grep -q "is damaged, or no register" told || wrong "$words with $length bytes does not tell the damage"
        done
    done
    head -c $((65 * 16896)) /dev/zero >register
    untouched 3 "65 slots" state 7
    rm register && mkdir register
    screen state 7
    expect 3 "a folder for a register"
}

# Two users of one group, where this can be tried: the file stays both's.
test_second_pharmacist() {
    by() { setpriv --reuid="$1" --regid="$1" --groups=7000 "${@:2}"; }
    as() { by "$1" "$work/approval" register "${@:2}" >said 2>told; }
    if ! by 7001 "$work/renumber" 7 4 <"$samples/revision-4.plan" 2>/dev/null | cmp -s - "$samples/revision-4.plan"; then
        echo "approval: no second user can be tried here"
        return 0
    fi
    mkdir shared
    chgrp 7000 shared
    chmod 2770 shared
    cp "$samples/revision-4.plan" shared/4
    cp "$samples/revision-5.plan" shared/5
    chmod 644 shared/4 shared/5
    cd shared
    : >said
    : >told
    chmod 666 said told
    (umask 007 && as 7001 new 2) || wrong "the first pharmacist begins a register"
    as 7001 submit 4 || wrong "the first submits"
    as 7002 sign 7002 4 || wrong "the second signs"
    as 7001 sign 7001 4 || wrong "the first signs after the second"
    as 7002 release 7 out || wrong "the second releases"
    same out 4 "the released plan"
    chmod 444 out
    ! as 7002 release 7 out || wrong "a file that may not be written was replaced"
    [ "$(stat -c '%a %g' register)" = "660 7000" ] || wrong "mode and group are $(stat -c '%a %g' register)"
    # one that was killed leaves nothing that the other has to clean up
    { FAULT=kill:rename:1 by 7001 "$work/faulty" register drop 7 >said 2>told; } 2>/dev/null &&
        wrong "it should have been killed"
    as 7002 submit 5 || wrong "the second changes what the first was killed at"
    # who may not write the register may not change it either, and the superuser leaves it its owner's
    chmod 640 register
    ! as 7001 drop 7 || wrong "a mode that forbids writing was passed over"
    chown 7003:7004 register
    "$work/approval" register drop 7 >said 2>told || wrong "the superuser drops"
    [ "$(stat -c '%a %u %g' register)" = "640 7003 7004" ] || wrong "the owner was changed"
}
