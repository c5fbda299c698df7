# The story that the register is there for: a signature is for one revision, byte for byte. A refused call leaves the register's
# file as it was, and what is released is the plan that was submitted.

# refused NUMBER WORD ..: it is refused by this number, in words, and the file is byte for byte what it was
refused() {
    cp register before
    screen "${@:2}"
    expect 1 "${*:2}"
    grep -q "^refused ($1): ." said || wrong "'${*:2}' should be refused with $1"
    grep -q "^look at: ." said || wrong "'${*:2}' does not say what to look at"
    same register before "'${*:2}' changed the register"
}

test_story() {
    cp "$samples/revision-4.plan" 4
    cp "$samples/revision-5.plan" 5
    cp "$samples/days-fall.plan" wrong
    screen state 7
    expect 3 "a register that is not there"
    done_ new 2
    refused 33 state 7
    done_ verdict 4
    refused 7 verdict wrong
    refused 7 submit wrong
    done_ submit 4
    done_ sign 1001 4
    cp register signed
    done_ submit 5
    ! cmp -s register signed || wrong "a submission changed nothing"
    held 5 0
    done_ sign 1002 5
    refused 38 release 7 out
    [ ! -e out ] || wrong "something was released"
    refused 34 sign 1001 4
    refused 36 sign 1002 5
    refused 35 sign 0 5
    refused 32 submit 4
    held 5 1
    done_ sign 1001 5
    done_ release 7 out
    same out 5 "what was released is not what was signed"
    refused 37 sign 1003 5
    done_ drop 7
    refused 33 release 7 out
    same out 5 "a refused release wrote something"
    printf 'x' | dd of=register bs=1 seek=100 conv=notrunc 2>dd.log
    refused 30 submit 4
    done_ clear
    done_ submit 4
    nothing_beside
}
