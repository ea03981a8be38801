#!/bin/sh
# check.sh [PROGRAM]
# Tests the program (out/lispd, where none is named) and the library for programs in C, which it builds of what is proved: one stage after
# the other, each a script beside this one; README.md says what each tests. A stage prints what isn't as it should be, and a line follows
# with its name and how long it took. Ends with 1 where a stage fails.
program=$(realpath -e "${1-$(dirname "$0")/../out/lispd}") || exit 1
cd "$(dirname "$0")" || exit 1
library=../out/liblisp_registration.a
failed=0

# stage NAME COMMAND WORD...: runs a stage, and says how it ended.
stage() {
    begun=$(date +%s) name=$1 said=passed
    shift
    "$@" || failed=1 said=FAILED
    echo "tests: $name $said, $(($(date +%s) - begun)) s"
}

# (beside stages that measure no time: the kit proves the library once more to build it)
../tools/library --over-gate &
stage 'what is stored' ./stored.sh "$program"
stage 'changed messages' ./changed.py "$program"
stage 'beside a list of rows' ./rows.py "$program"
stage 'limits of a site' ./limits.py "$program"
stage 'calls that fail' ./failing.py "$program"
stage 'drawn schedules' ./fuzz.py "$program" 1 200
stage 'replies that are kept' ./replies.py "$program" 1 300
stage 'messages by which others ask' ./requests.py ../crates/lisp_readings/out/lisp_readings 1 300
stage 'captures that are read' ./packets.py ../crates/lisp_readings/out/lisp_readings 1 300
stage 'captures that are told' ./captures.py "$program"
stage pictures ./draw.py "$program"
stage 'the library is built' wait $!
stage 'running nodes' ./running.py "$program"
stage databases ./databases.py "$program"
stage groups ./groups.py "$program"
stage 'routers that are forgotten' ./forgetting.py "$program"
stage 'copies that are raised' ./raising.py "$program"
stage 'stores that are checked' ./checking_store.py "$program"
stage 'copies of databases' ./backups.py "$program"
stage 'asked and told' ./control.py "$program"
stage 'answers as JSON' ./objects.py "$program"
stage 'other sites' ./reloading.py "$program"
stage looks ./look.py "$program"
stage 'Map-Requests that are answered' ./resolving.py "$program"
stage 'floods of Map-Requests' ./floods.py "$program"
stage 'noise like Map-Requests' ./noise.py "$program" 1 200000
stage 'a stolen key' ./stolen_key.py "$program" 10
stage devices ./devices.py "$program"
stage folders ./folders.py "$program"
stage times ./timing.py "$program"
stage addresses ./addresses.py "$program"
stage output ./output.py "$program"
stage 'a first answer' ./first_answer.py "$program"
stage captures ./capture.py "$program"
stage 'the library' ./library.py $library
stage 'the library from Rust' ./library_rust.py ../out
stage packages ./packaging.py "$program" $library

exit $failed
