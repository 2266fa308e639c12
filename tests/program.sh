#!/usr/bin/env bash
# The program's statuses and messages, which a comparison of its output does not see. `make target/bin/cphd` builds it.
set -u
cd "$(dirname "$0")/.."
program=target/bin/cphd
data=crates/cphd/data
blocks=crates/outlines/data
failed=0

# expect STATUS PATTERN ARGUMENT...: the status, and a line of the output that matches
expect() {
    local status=$1 pattern=$2 output got
    shift 2
    output=$("$program" "$@" 2>&1)
    got=$?
    if [ "$got" -ne "$status" ] || ! grep -q -- "$pattern" <<<"$output"; then
        echo "cphd $*: status $got, expected $status and a line like '$pattern'"
        failed=1
    fi
}

# silent STATUS ARGUMENT...: the status, and nothing on standard error
silent() {
    local status=$1 errors got
    shift
    errors=$("$program" "$@" 2>&1 >/dev/null)
    got=$?
    if [ "$got" -ne "$status" ] || [ -n "$errors" ]; then
        echo "cphd $*: status $got, expected $status, and on standard error nothing but got '$errors'"
        failed=1
    fi
}

expect 0 '^  accepted$' header "$data/small.cphd"
silent 0 header "$data/small.cphd"
silent 1 header "$data/digits_19.cphd"
silent 1 outline "$blocks/depth_17.cphd"
expect 1 '^  refused 10 0: ' header "$data/version_1_0_1.cphd"
expect 1 '^  refused 11 63: ' header "$data/no_space_before_colon.cphd"
expect 1 '^  refused 14 5: ' header "$data/small.cphd" "$data/digits_19.cphd"
expect 0 '^2 files, 1 accepted, 1 refused$' headers "$data/digits_18.cphd" "$data/digits_19.cphd"
expect 1 'absent.cphd cannot be read' header "$data/absent.cphd" "$data/small.cphd"
expect 1 '^  accepted$' header "$data/absent.cphd" "$data/small.cphd"
expect 1 '^1 files, 1 accepted, 0 refused$' headers "$data/absent.cphd" "$data/small.cphd"
expect 1 'at least one file is expected' header
expect 1 'at least one file is expected' headers
expect 0 '^      Channel x16$' outline "$blocks/channels_16.cphd"
expect 1 '^  refused 14 5: ' outline "$blocks/small.cphd" "$data/digits_19.cphd"
expect 1 '^  refused 21 0: ' outline "$blocks/depth_17.cphd" "$blocks/small.cphd"
expect 1 '^  CPHD$' outline "$blocks/depth_17.cphd" "$blocks/small.cphd"
expect 1 'absent.cphd cannot be read' outline "$blocks/absent.cphd" "$blocks/small.cphd"
expect 1 '^  CPHD$' outline "$blocks/absent.cphd" "$blocks/small.cphd"
expect 1 'at least one file is expected' outline
expect 1 'a command is expected'
expect 1 'one of header, headers, demo and help is expected' frobnicate
expect 0 'cphd header FILE' help
expect 0 'cphd outline FILE' help
expect 0 '^  refused 11 11: ' demo
"$program" demo | cmp - crates/demo/stdout || failed=1
[ "$failed" -eq 0 ] && echo "program: all as expected"
exit "$failed"
