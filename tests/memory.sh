#!/usr/bin/env bash
# Each allocation of a test is refused in turn. The call that wanted it reports that it is out of memory. It is made
# again, on the same reader, joiner, reviewer or originator if it is a call on one, and has to give what its row says. A
# run is made again, once nothing was written, and has to write what it writes with memory.
# shellcheck source=tests/lib.sh
. "$(dirname -- "$0")/lib.sh"

rows=${ROWS_TESTS:-$root/crates/test_rows/out/test_rows_tests}
origins=${ORIGINS_TESTS:-$root/crates/test_origins/out/test_origins_tests}
runs=${RUNS_TESTS:-$root/crates/test_runs/out/test_runs_tests}
signings=${SIGNINGS_TESTS:-$root/crates/test_signings/out/test_signings_tests}
salvages=${SALVAGE_TESTS:-$root/crates/test_salvage/out/test_salvage_tests}
need_made "$rows" "$origins" "$runs" "$signings" "$salvages"

# play NUMBER PROGRAM TEST: runs a test of a program with the allocation of this number refused; 0 refuses none.
play() {
    REFUSED=$1 LD_PRELOAD=$scratch/refuse.so "$2" "$3"
}

fails() {
    ! "$@"
}

# plays PROGRAM AGAIN OTHER [NUMBER]: refuses each allocation of the test AGAIN in turn, and one of the test OTHER, which makes
# no call again: that of this number, or the 40th.
plays() {
    local program=$1 again=$2 other=$3 one=${4:-40} count number
    holds "$again passes with memory" "$program" "$again"
    [[ -f $scratch/refuse.so ]] || return
    count=$(play 0 "$program" "$again" 2>&1 | sed -n 's/^allocations //p')
    tell "$again takes memory" "$([[ ${count:-0} -gt 0 ]] || echo '    no allocation was counted')"
    holds "$other makes no call again, and fails" fails play "$one" "$program" "$other"
    for ((number = 1; number <= ${count:-0}; number++)); do
        holds "$again: allocation $number of $count" play "$number" "$program" "$again"
    done
}

if command -v cc >/dev/null; then
    holds 'refuse.c is compiled' cc -shared -fPIC -o "$scratch/refuse.so" "$root/tests/refuse.c" -ldl
else
    skip "no cc here, so no allocation is refused"
fi
plays "$rows" frames::failing::goes_on_after_want_of_memory frames::streams::streams
plays "$rows" blocks::joining::sequences blocks::joining::longest
plays "$rows" memory::gives_the_answer_after_want_of_memory blocks::writing::written
plays "$origins" scripts::goes_on_after_want_of_memory scripts::scripts
plays "$origins" starts::gives_back_the_sealer_for_want_of_memory starts::starts
plays "$runs" memory::goes_on_after_want_of_memory asking::asking
plays "$runs" memory::wants_memory_or_gives_the_output keeping::keeping
plays "$runs" stops::wants_memory_or_gives_the_output rows::rows
plays "$runs" inspections::wants_memory_or_says_what_there_is ends::ends
plays "$runs" wraps::wants_memory_or_takes_wraps_off keeping::keeping
plays "$signings" stops::wants_memory_or_gives_the_output rows::makes
plays "$signings" wraps::wraps_or_wants_memory wraps::long_wraps_are_refused
plays "$salvages" damaged::damaged_logs damaged::many_octets 2
plays "$signings" answers::goes_on_after_want_of_memory answers::refuses
plays "$signings" places::goes_on_after_want_of_memory places::refuses 2

finish
