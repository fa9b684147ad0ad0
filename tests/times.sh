#!/bin/sh
# Makes the lines of docs/MEASURED.md on the gate from what .ci/run printed: tests/times.sh LOG
# (Today's rt prints no times of single crates and wrong programs.)
set -eu
[ $# -eq 1 ] || { echo "usage: tests/times.sh LOG" >&2; exit 2; }
awk '
    function seconds(    s) { s = $(NF - 1); sub(/^\(/, "", s); return s + 0 } # the line ends in N s)
    /^rt: [a-z0-9_]+ proved$/ { proved++ }
    /^rt: ok; / { ok = $0; sub(/^rt: ok; /, "", ok) }
    /^gate: test .* passed \([0-9]+ s\)$/ { tests = tests (tests == "" ? "" : ", ") $3 " " seconds() " s" }
    /^[0-9]+ passed, [0-9]+ failed$/ { verdict = $0 }
    END {
        print "Proved from nothing: " proved + 0 " crates; " ok "."
        print "The tests of the compiled code, with compiling them: " tests "."
        if (ok == "") print "times: the log does not have rt ci as passed" > "/dev/stderr"
        if (verdict !~ /, 0 failed$/) print "times: this is no log of a gate that passed: " verdict > "/dev/stderr"
        exit ok == "" || verdict !~ /, 0 failed$/
    }' "$1"
