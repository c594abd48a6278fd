# shellcheck shell=bash disable=SC2034,SC2086,SC2154
# Sourced by tests/console: reports over cartridge dumps, beside document 02's own words, and on the dumps of tests/second/dumps.c, each with the text
# that it was made for. With a refusal standard output has `refused` and the number.

# ---- the files of examples/

# sealed TABLE NAME IV: what examples/ seals, with no associated data
sealed() { "$folder/files" seal "$1" "$2" "$3" $plain 2>"$room/number"; }
{
    sealed $table $gcm 000000010000000000000003
    sealed $table $ccm 000000010000000000000004
    cat $record
    sealed $table $gcm 000000010000000000000005
    head -c 100 examples/records/ccm.bin
} >"$room/dump"
same "examples/dump.bin is the second program's" "$room/dump" examples/dump.bin
gives "report" 0 report $table "$room/dump"
shows "two records open by one row, and one by another" report $table "$room/dump" <<'TEXT'
records 4
bytes 480
open 5441504531 2
open 5441504532 1
open 4B454B2D31 0
tail 100
TEXT
cat examples/records/*.bin >"$room/none-opens"
shows "a damaged record, and two that have associated data" report $table "$room/none-opens" <<'TEXT'
records 3
bytes 360
open 5441504531 0
open 5441504532 0
open 4B454B2D31 0
tail 0
TEXT

# ---- document 02's own words

shows "an empty dump with an empty table" report "$room/empty" /dev/null <<'TEXT'
records 0
bytes 0
tail 0
TEXT
# a row K1 of a use, type and key of zeros
k1() { hex 02 "$1" 00 00 00 00 4B 31; zeros 62; }
{ hex 00 01 00 03 00 08 00 48; k1 030001; k1 020000; k1 030002; } >"$room/k1"
{ sealed "$room/k1" 4b31 $iv; sealed "$room/k1" 4b31 ${iv%?}2; } >"$room/two"
shows "a line for each row of a name" report "$room/k1" "$room/two" <<'TEXT'
records 2
bytes 234
open 4B31 0
open 4B31 2
open 4B31 0
tail 0
TEXT
shows "a table of no rows" report "$room/empty" "$room/two" <<'TEXT'
records 2
bytes 234
tail 0
TEXT
head -c 233 "$room/two" >"$room/cut"
shows "a byte is missing" report "$room/k1" "$room/cut" <<'TEXT'
records 1
bytes 117
open 4B31 0
open 4B31 1
open 4B31 0
tail 116
TEXT
{ cat "$room/two"; zeros 1; } >"$room/one-more"
shows "a byte too many" report "$room/k1" "$room/one-more" <<'TEXT'
records 2
bytes 234
open 4B31 0
open 4B31 2
open 4B31 0
tail 1
TEXT

# ---- standard input

for word in $table "$room/dump"; do
    input=$word
    gives "report, $word on standard input" 0 report $table "$room/dump"
done
input=
spadeswirl report "$room/k1" - < <(head -c 50 "$room/two"; sleep 0.2; tail -c +51 "$room/two")
"$folder/files" report "$room/k1" "$room/two" >"$room/wanted" 2>"$room/number"
want 0
hold "a dump that comes in two parts" 0

# ---- refusals

zeros 65536 >"$room/dump65536"
zeros 65537 >"$room/dump65537"
{ cat "$room/two"; zeros 65303; } >"$room/two65537"
gives "a dump of 65,536 bytes" 0 report $table "$room/dump65536"
gives "a dump of 65,537 bytes" 4 report $table "$room/dump65537"
gives "records and a tail, 65,537 bytes" 4 report "$room/k1" "$room/two65537"
gives "a dump of 65,537 bytes, and no rows" 4 report "$room/empty" "$room/dump65537"
gives "a dump of a megabyte" 4 report $table "$room/largest"
for bad in "$room/broken" "$room/longer" "$room/rows65" /dev/null; do
    gives "a bad table" 1 report "$bad" "$room/dump"
    gives "a bad table and an empty dump" 1 report "$bad" /dev/null
    gives "a bad table and a dump of 65,537 bytes" 1 report "$bad" "$room/dump65537"
done
input=$room/dump65537
gives "a dump of 65,537 bytes on standard input" 4 report $table "$room/dump65537"
input=$room/broken
gives "a bad table on standard input" 1 report "$room/broken" "$room/dump"
input=

# endless NAME N WORD ..: with a file that never ends, on standard input too, it is refused with N, and before long.
endless() {
    timeout 60 ./spadeswirl "${@:3}" >"$room/wrote" 2>"$room/said" < <(yes)
    status=$?
    echo "refused $2" >"$room/wanted"
    want "$2"
    hold "$1" 1
}
endless "a dump that never ends" 4 report $table -
endless "a dump that never ends, by its name" 4 report $table /dev/zero
endless "a table that never ends" 1 report - "$room/dump"
endless "a table that never ends, by its name" 1 report /dev/zero "$room/dump"
endless "neither ends" 1 report /dev/zero -

# ---- the dumps of the second program's writer, by the program alone

mkdir "$room/cartridges"
"$folder/dumps" "$seed" "$room/cartridges" >"$room/names" || give_up "tests/second/dumps.c did not write its dumps"
sed -i '/^#/d' "$room/names"
[ "$(wc -l <"$room/names")" -ge 600 ]
test_that $? "report: only $(wc -l <"$room/names") dumps were written"
while read -r name; do
    at=$room/cartridges/$name
    "$folder/files" report "$at.table" "$at.dump" >"$room/other" 2>"$room/number"
    same "report, $name, the second program" "$at.text" "$room/other"
    cp "$at.text" "$room/wanted"
    number=$(sed -n 's/^refused //p' "$at.text")
    unit console report "$at.table" "$at.dump" >"$room/wrote" 2>"$room/said" </dev/null
    status=$?
    want "${number:-0}"
    hold "report, $name" 0
done <"$room/names"
