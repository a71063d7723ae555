#!/usr/bin/env bash
# Builds crates/talft, over what `rt check` kept, and runs it on each case of crates/talft/cases, and compares what it does.
# A case is a folder: args (one word to a line), stdin, the expected stdout and stderr, and status. A file that is
# not there is empty, and a status that is not there is 0. The tool runs in a folder of its own, with a copy of
# crates/talft/data and of the case's files/. Prints a line for each case that differs, and then
# 'N passed, M failed'; the status is 1 if one failed.
set -u
cd "$(dirname "$0")/.." || exit 2
tool=$PWD/crates/talft/out/talft
cases=$PWD/crates/talft/cases
data=$PWD/crates/talft/data
room=$(mktemp -d) || exit 2
trap 'rm -rf "$room"' EXIT
# an empty script is run with no answer; what is asked for here is the program
(cd crates/talft && exec rt run -- replay) </dev/null >"$room/log" 2>&1 && [ -x "$tool" ] || {
    tail -n 20 "$room/log"
    echo "cases.sh: crates/talft cannot be proved and built"
    exit 2
}

passed=0
failed=0
for case in "$cases"/*/; do
    case=${case%/}
    rm -rf "$room/work" && mkdir "$room/work" && cp -R "$data/." "$room/work/" || exit 2
    [ -d "$case/files" ] && cp -R "$case/files/." "$room/work/"
    for part in stdin stdout stderr; do
        if [ -f "$case/$part" ]; then cp "$case/$part" "$room/$part"; else : >"$room/$part"; fi
    done
    words=()
    [ -f "$case/args" ] && mapfile -t words <"$case/args"
    wanted=0
    [ -f "$case/status" ] && wanted=$(cat "$case/status")
    (cd "$room/work" && exec "$tool" ${words[@]+"${words[@]}"}) <"$room/stdin" >"$room/stdout.got" 2>"$room/stderr.got"
    status=$?
    differs=
    cmp -s "$room/stdout" "$room/stdout.got" || differs="$differs stdout"
    cmp -s "$room/stderr" "$room/stderr.got" || differs="$differs stderr"
    [ "$status" = "$wanted" ] || differs="$differs status ($status, not $wanted)"
    if [ -z "$differs" ]; then
        passed=$((passed + 1))
    else
        failed=$((failed + 1))
        echo "case ${case##*/} differs:$differs"
    fi
done
echo "$passed passed, $failed failed"
[ "$failed" -eq 0 ] && [ "$passed" -gt 0 ]
