# What people read and type: days as days, amounts with decimals, numbers with their text, a block with what to look at.

# says TEXT WORD ..: it is done, and says just this line, or these
says() {
    done_ "${@:2}"
    [ "$(cat said)" = "$1" ] || wrong "'${*:2}' should say: $1"
}

# no_good TEXT WORD ..: a word of it is no good, and standard error has this text
no_good() {
    screen "${@:2}"
    expect 2 "${*:2}"
    grep -qF "$1" told || wrong "'${*:2}' should say: $1"
}

test_words_done() {
    begun
    says "accepted: plan 7, revision 4; no rule is broken" verdict 4
    says "taken in: plan 7, revision 5, signed by 0 of 2" submit 5
    says "signed: plan 7, revision 5, signed by 1 of 2" sign 1001 5
    says "plan 7, revision 5, signed by 1 of 2" state 7
    done_ sign 1002 5
    says "released: plan 7, revision 5, 1024 bytes" release 7 out
    says "dropped: plan 7" drop 7
    says "the register is empty, with room for 2 plans" clear
}

test_words_supply() {
    begun
    says "lasts 10 days, from 2017-12-04 to 2017-12-13; 0.50 is left; the next day needs more than is left" supply 5 2017-12-04 10.50 low
    says "lasts 10 days, from 2017-12-04 to 2017-12-13; 0.50 is left; the next day needs more than is left" supply 5 2017-12-04 10.5 upper
    says "lasts 21 days, from 2017-12-04 to 2017-12-24; 479.00 is left; the dosage ends" supply 5 2017-12-04 500 low
    says "lasts for no day from 2017-12-04 on; 0.99 is left; the next day needs more than is left" supply 5 2017-12-04 0.99 low
    says "lasts 31 days, from 2199-12-01 to 2199-12-31; 9969.00 is left; the calendar ends" supply "$samples/open.plan" 2199-12-01 10000.00 low
    says "lasts 366 days, from 2020-01-01 to 2020-12-31; 0.00 is left; the next day needs more than is left" supply "$samples/open.plan" 2020-01-01 366 low
    says "lasts 365 days, from 2100-01-01 to 2100-12-31; 0.00 is left; the next day needs more than is left" supply "$samples/open.plan" 2100-01-01 365 low
}

# by each choice of source 003's second answer, and its first
test_words_choices() {
    says "lasts 97 days, from 2022-02-11 to 2022-05-18; 0.45 is left; the next day needs more than is left" supply "$samples/dates.plan" 2022-02-11 500 low
    says "lasts 29 days, from 2022-02-11 to 2022-03-11; 7.00 is left; the next day needs more than is left" supply "$samples/dates.plan" 2022-02-11 500 upper
    says "lasts 15 days, from 2022-02-11 to 2022-02-25; 20.00 is left; the next day needs more than is left" supply "$samples/dates.plan" 2022-02-11 500 both
    says "lasts 324 days, from 2022-02-11 to 2022-12-31; 13.60 is left; the dosage ends" supply "$samples/dates.plan" 2022-02-11 500 needed
    says "lasts 29 days, from 2022-02-11 to 2022-03-11; 471.00 is left; the dosage ends" supply "$samples/end-date.plan" 2022-02-11 500 low
    says "lasts 29 days, from 2022-02-11 to 2022-03-11; 471.00 is left; the dosage ends" supply "$samples/end-date.plan" 2022-02-11 500 both
    screen supply "$samples/end-date.plan" 2022-02-11 500 needed
    expect 1 "as-needed doses of a plan that has none"
    [ "$(cat said)" = "refused (24): no dose of the choice on or after the start
look at: the start, and whether the plan has doses of the choice" ] || wrong "nothing to supply, for people"
}

test_words_dates() {
    local no_date="no date (no such dose from then on, or the first day needs more)"
    # source 003's two answers
    says "500.00 from 2022-02-11 on lasts:
fixed doses: to 2022-03-11
as-needed doses: $no_date" dates "$samples/end-date.plan" 2022-02-11 500
    says "500.00 from 2022-02-11 on lasts:
fixed doses, if the least is taken: to 2022-05-18
fixed doses, if the most is taken: to 2022-03-11
fixed and as-needed doses, if the most is taken: to 2022-02-25
as-needed doses alone, if the most is taken: to 2022-12-31" dates "$samples/dates.plan" 2022-02-11 500
    # three days of the least, one of the as-needed doses, and no day of what is more
    says "16.00 from 2022-02-11 on lasts:
fixed doses, if the least is taken: to 2022-02-13
fixed doses, if the most is taken: not for one day
fixed and as-needed doses, if the most is taken: not for one day
as-needed doses alone, if the most is taken: to 2022-02-11" dates "$samples/dates.plan" 2022-02-11 16
    # the as-needed doses are past
    says "17.00 from 2023-01-01 on lasts:
fixed doses, if the least is taken: to 2023-01-03
fixed doses, if the most is taken: to 2023-01-01
as-needed doses: $no_date" dates "$samples/dates.plan" 2023-01-01 17
    # an end date beside as-needed doses, to the end of the calendar
    says "9999.00 from 2199-12-01 on lasts:
fixed doses: to 2199-12-31
fixed and as-needed doses, if the most is taken: to 2199-12-31
as-needed doses alone, if the most is taken: to 2199-12-31" dates "$samples/last-day.plan" 2199-12-01 9999
    # as-needed doses only: 10 of them, one every other day
    says "10.00 from 2021-11-26 on lasts:
fixed doses: $no_date
fixed and as-needed doses, if the most is taken: to 2021-12-15
as-needed doses alone, if the most is taken: to 2021-12-15" dates "$samples/thirty.plan" 2021-11-26 10
    # nothing at all: too small, past, and no doses
    for words in "dates.plan 2022-02-11 1.50" "thirty.plan 2022-01-24 1.50" "vka.plan 2017-12-04 1.50"; do
        says "1.50 from $(cut -d ' ' -f 2 <<<"$words") on lasts:
fixed doses: $no_date
as-needed doses: $no_date" dates "$samples/"$words
    done
    screen dates "$samples/hole.plan" 2017-12-04 10
    expect 1 "dates of a plan that is refused"
    grep -q '^refused (17): a day is in no period' said || wrong "dates of a plan that is refused"
    screen dates "$samples/dates.plan" 2022-02-11 10000000000.01
    expect 1 "dates of a pack that is too large"
    grep -q '^refused (20): the pack is too large' said || wrong "dates of a pack that is too large"
}

test_words_refused() {
    begun
    screen verdict "$samples/days-fall.plan"
    [ "$(cat said)" = "refused (7): day numbers fall, or pass the interval or the period's length
where: block 1, the period from 2017-12-04 to 2017-12-07
look at: the day numbers of the period's doses as they stand, and its interval" ] || wrong "a verdict for people"
    screen verdict "$samples/sums.plan"
    grep -q '^where: block 1, bytes 512 to 1023 of the plan$' said || wrong "a block by its bytes"
    screen verdict "$samples/hole.plan"
    ! grep -q '^where:' said || wrong "a hole has no block"
}

test_words_no_good() {
    begun
    no_good '"anna" is no signer: a pharmacist signs with a number' sign anna 4
    no_good '"0" is no number of slots: a register has 1 to 64' new 0
    no_good '"65" is no number of slots' new 65
    no_good '"seven" is no plan number' state seven
    no_good '"-1" is no plan number' state -1
    no_good '"4294967296" is no plan number' drop 4294967296
    no_good '"6547" is no day: a day is written 2017-12-04' supply 4 6547 10 low
    no_good '"2017-02-29" is no day' supply 4 2017-02-29 10 low
    no_good '"2200-01-01" is no day' supply 4 2200-01-01 10 low
    no_good '"10,50" is no amount: an amount is written 10 or 10.50' supply 4 2017-12-04 10,50 low
    no_good '"10.505" is no amount' supply 4 2017-12-04 10.505 low
    no_good '"1" is no choice: say low or upper for the fixed doses, both for all doses' supply 4 2017-12-04 10 1
    no_good '"6547" is no day: a day is written 2017-12-04' dates 4 6547 10
    no_good '"all" is no amount' dates 4 2017-12-04 all
    no_good 'usage: approval REGISTER COMMAND' dates 4 2017-12-04 10 low
    no_good 'usage: approval REGISTER COMMAND' sign 1001
    no_good 'usage: approval REGISTER COMMAND' frobnicate
    held 4 0
}
