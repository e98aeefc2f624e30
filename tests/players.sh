#!/bin/sh
# Plays the texts of crates/play_events/data and crates/play_seats/data on the proved players and on the second program's machine, and
# texts with wrong answers and with lines that can't be read: tests/players.sh EVENT_PLAYER SEAT_PLAYER
# Of the last, tests/players has what must be printed, by hand, and the status behind it.
top=$(CDPATH='' cd -- "$(dirname -- "$0")/.." && pwd) || exit 1
events=$1 seats=$2
work=$(mktemp -d) || exit 1
trap 'rm -rf "$work"' EXIT
trap 'exit 1' HUP INT TERM
cd "$top" || exit 1

fail() {
    echo "players.sh: $*"
    exit 1
}

"$events" --three-ways crates/play_events/data/*.events >"$work/proved" || fail "an answer of events: $(cat "$work/proved")"
"$seats" crates/play_seats/data/*.seats >>"$work/proved" || fail "an answer of seats: $(cat "$work/proved")"
reference/play.py crates/play_events/data/*.events crates/play_seats/data/*.seats >"$work/second" || fail "$(cat "$work/second")"
diff "$work/second" "$work/proved" || fail "the players count otherwise"

# said NAME PLAYER WORDS..: what the player prints of these words, and its status, are those of tests/players/NAME.
said() {
    name=$1
    shift
    "$@" >"$work/out" 2>&1
    echo "status $?" >>"$work/out"
    diff "tests/players/$name" "$work/out" || fail "$name: another text"
}

for text in tests/players/*.events; do
    said "$(basename "$text" .events).said" "$events" "$text"
    said "$(basename "$text" .events).said" reference/play.py "$text"
done
for text in tests/players/*.seats; do
    said "$(basename "$text" .seats).said" "$seats" "$text"
    said "$(basename "$text" .seats).said" reference/play.py "$text"
done
for player in "$events" reference/play.py; do
    said input.said "$player" - <tests/players/answers.events
done
said printed "$events" --print tests/players/answers.events
said printed reference/play.py --print tests/players/answers.events
said words "$events" --no-such-word

# Lines end in a carriage return and a line feed, and the last one in neither.
printf 'example lines\r\nmachine : opened\r\nadvance 0 : advanced # a\r\n\r\ntime 0' >"$work/returns"
for player in "$events" reference/play.py; do
    said returns "$player" - <"$work/returns"
    said returns-printed "$player" --print "$work/returns"
    said returns-printed "$player" --print <"$work/returns"
done

# encoded LINES PLAYER WORDS..: the player writes these lines, then that a text isn't UTF-8, and ends with status 4.
encoded() {
    printf '%sstream did not contain valid UTF-8\nstatus 4\n' "${1:+$1
}" >"$work/wanted"
    shift
    "$@" >"$work/out" 2>&1
    echo "status $?" >>"$work/out"
    diff "$work/wanted" "$work/out" || fail "$*: another text"
}

# Of such a file nothing is played, nor of one behind it; of lines that come, those before the fault.
printf 'example one\nmachine\n# caf\351\n' >"$work/latin"
printf 'machine\nattempt 0\n# caf\351\nattempt 1\n' >"$work/live"
for player in "$events" reference/play.py; do
    before=$(sed '$d' tests/players/answers.said)
    encoded "$before" "$player" tests/players/answers.events "$work/latin" tests/players/answers.events
    encoded '' "$player" --print "$work/latin"
    encoded "opened
idle" "$player" --live <"$work/live"
done
printf 'seats\nput core 0\n\351\nput core 1\n' >"$work/live"
encoded "opened
nothing" "$seats" --live <"$work/live"
encoded "opened
nothing" reference/play.py --live seats <"$work/live"
echo "players.sh: $(wc -l <"$work/proved") texts as wanted"
