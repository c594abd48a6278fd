# shellcheck shell=bash disable=SC2034,SC2086,SC2154
# Sourced by tests/console: -o FILE of seal, open, write-page and wrap-page, which is written only after success.

mkdir "$room/there"
file=$room/there/file

# leaves NAME STATUS FILE: what was kept is that status and nothing on standard output; then the folder holds the file alone, as FILE, or
# where FILE is empty nothing at all.
leaves() {
    local wanted="${3:+file}" there
    there=$(ls -A "$room/there")
    [ "$status" = "$2" ] && [ ! -s "$room/wrote" ] && [ "$there" = "$wanted" ] && { [ -z "$3" ] || cmp -s "$3" "$file"; }
    test_that $? "$1: status $status, wanted $2; in the folder: $there; said $(head -n 2 "$room/said")"
}

spadeswirl open $table examples/records/damaged.bin $data -o "$file" </dev/null
leaves "-o, refused, and there was no file" 1 ""
spadeswirl seal $table $gcm $iv $plain $data -o "$file" </dev/null
leaves "-o after the words" 0 $record
spadeswirl open -o "$file" $table - $data <$record
leaves "-o, over a file, from standard input" 0 $plain
for words in "seal $room/broken $gcm $iv $plain" "seal $table $gcm 00 $plain" "seal $table ${last}00 $iv $plain" "seal $table 00 $iv $plain" \
    "seal $table $kek $iv $plain" "open $table $room/short" "open $table $room/mode3 $data" "open $table examples/records/damaged.bin $data"; do
    spadeswirl $words -o "$file" </dev/null
    leaves "-o, refused: ${words%% *}, $(cat "$room/said")" 1 $plain
done
for words in "seal $table $gcm $iv $room/none" "seal $table $gcm $iv" "open $table" "open $table $room/none" "label examples/label.bin" "check-table $table" \
    "list-page examples/pages/plain.bin" "descriptors examples/pages/plain.bin" "verify $table $record $data" "report $table examples/dump.bin"; do
    spadeswirl $words -o "$file" </dev/null
    leaves "-o, misused: $words" 2 $plain
done
for words in "-o" "-o -" "-o $file -o $file" "-o $room/there" "-o $room/none/file"; do
    spadeswirl open $table $record $data $words </dev/null
    leaves "misused: $words" 2 $plain
done
spadeswirl seal -o "$file" "$room/full" $last $iv "$room/plain" "$room/data" </dev/null
leaves "-o, the largest record" 0 "$room/largest"
spadeswirl open -o "$file" "$room/full" "$file" "$room/data" </dev/null
leaves "-o, over the record that is opened" 0 "$room/plain"

spadeswirl write-page "$room/part" /dev/null $wrapped -o "$file" </dev/null
leaves "-o, a page" 0 examples/pages/wrapped.bin
for words in "write-page $room/part /dev/null ${wrapped/scope=2/scope=3}" "write-page $room/part $room/reserved.list $wrapped" "write-page $room/part $room/list70000 $wrapped" \
    "write-page $room/carried /dev/null format=1 algorithm=1" "wrap-page $room/broken 1 $kek $room/key /dev/null $wrapped" "wrap-page $table 2 $kek $room/key /dev/null $wrapped" \
    "wrap-page $table 1 $kek $plain /dev/null $wrapped" "wrap-page $table 3 $kek $room/key /dev/null $wrapped"; do
    spadeswirl $words -o "$file" </dev/null
    leaves "-o, refused: ${words%% *}, $(cat "$room/said")" 1 examples/pages/wrapped.bin
done
for words in "write-page $room/part" "write-page $room/none /dev/null $wrapped" "write-page $room/part /dev/null colour=1" "wrap-page $table 1 $kek $room/key" \
    "wrap-page $table one $kek $room/key /dev/null $wrapped" "wrap-page $table 1 $kek $room/none /dev/null $wrapped"; do
    spadeswirl $words -o "$file" </dev/null
    leaves "-o, misused: $words" 2 examples/pages/wrapped.bin
done
spadeswirl wrap-page $table 1 $kek "$room/key" -o "$file" /dev/null $wrapped </dev/null
leaves "-o among the words of wrap-page" 0 "$room/page"
spadeswirl write-page -o "$file" "$room/carried" - $wrapped </dev/null
leaves "-o, over a page, from standard input" 0 "$room/page"
