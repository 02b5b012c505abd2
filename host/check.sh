#!/bin/sh
# Runs the station's host and the trials from a folder, as built, with sanitizers and under valgrind, and compares their
# reports with those in host/. Usage: host/check.sh FOLDER
set -eu
cd "$(dirname "$0")/.."
out=$1
quiet="valgrind --quiet --error-exitcode=9 --leak-check=full"

# A run of the host, with how it ended.
host() {
    code=0
    "$@" 2>&1 || code=$?
    echo "ended with $code"
}

# The host stores S and evaluates messages, some of which are refused. Then come stored books that are a byte short, a
# byte long, and without the bytes behind the text, and a text that is a byte too long.
station() {
    host "$@" store bench/books/s.book "$out/s.stored"
    host "$@" evaluate "$out/s.stored" host/messages.txt
    head -c 65535 "$out/s.stored" > "$out/short.stored"
    host "$@" evaluate "$out/short.stored" host/messages.txt
    { cat "$out/s.stored"; echo; } > "$out/long.stored"
    host "$@" evaluate "$out/long.stored" host/messages.txt
    host "$@" evaluate bench/books/s.book host/messages.txt
    host "$@" store "$out/long.stored" "$out/never.stored"
}

compare() {
    sed -i "s|$out/||" "$out/report"
    diff "$1" "$out/report" || { echo "$2: another report than $1"; exit 1; }
    echo "$2: as $1"
}

station "$out/station" > "$out/report"
compare host/station.expected station
station "$out/station-sanitized" > "$out/report"
compare host/station.expected "station, sanitized"
station $quiet "$out/station" > "$out/report"
compare host/station.expected "station, valgrind"
"$out/trials" > "$out/report"
compare host/trials.expected trials
"$out/trials-sanitized" > "$out/report"
compare host/trials.expected "trials, sanitized"
$quiet "$out/trials" 61 > "$out/report" || { echo "trials, valgrind: ended with $?"; exit 1; }
echo "trials, valgrind: ended well"
