# shellcheck shell=bash disable=SC2034,SC2086,SC2154
# Sourced by tests/console: sealing, opening and verifying, and key tables.

# opens NAME N WORD ..: the words for `verify`, which prints nothing, and then for `open`; both give N.
opens() {
    gives "verify: $1" "$2" verify "${@:3}"
    gives "open: $1" "$2" open "${@:3}"
}

# ---- the files of examples/

"$folder/files" seal $table $gcm $iv $plain $data >"$room/gcm" 2>"$room/number"
same "examples/records/gcm.bin is the second program's" "$room/gcm" examples/records/gcm.bin
"$folder/files" seal $table $ccm 000000010000000000000002 $plain $data >"$room/ccm" 2>"$room/number"
same "examples/records/ccm.bin is the second program's" "$room/ccm" examples/records/ccm.bin
for file in table:$table record:$record associated:$data; do
    same "crates/console/data/${file%%:*}" "crates/console/data/${file%%:*}" "${file#*:}"
done
same "crates/console/stdout" crates/console/stdout $plain

gives "seal by GCM" 0 seal $table $gcm $iv $plain $data
same "the record of examples/" "$room/wrote" examples/records/gcm.bin
gives "seal by CCM" 0 seal $table $ccm 000000010000000000000002 $plain $data
same "the record of examples/" "$room/wrote" examples/records/ccm.bin
opens "by GCM" 0 $table examples/records/gcm.bin $data
same "the plaintext of examples/" "$room/wrote" $plain
opens "by CCM" 0 $table examples/records/ccm.bin $data
same "the plaintext of examples/" "$room/wrote" $plain
opens "a damaged record" 9 $table examples/records/damaged.bin $data
gives "check-table" 0 check-table $table

# ---- there and back, at lengths about the blocks, with data of any bytes and with lines and zero bytes

for n in 0 1 15 16 17 31 33 255 4096 65537 1048575 1048576; do
    some $n >"$room/plain"
    for name in $gcm $ccm; do
        gives "seal $n bytes by $name" 0 seal $table $name $iv "$room/plain"
        cp "$room/wrote" "$room/record"
        opens "$n bytes by $name" 0 $table "$room/record"
        same "$n bytes there and back by $name" "$room/wrote" "$room/plain"
    done
done
printf '\n\n6: no row of that type and name\n\0\0\n-\n' >"$room/lines"
gives "lines and zero bytes" 0 seal $table $gcm $iv "$room/lines" "$room/lines"
cp "$room/wrote" "$room/record"
opens "lines and zero bytes" 0 $table "$room/record" "$room/lines"
same "lines and zero bytes, there and back" "$room/wrote" "$room/lines"
gives "an IV in small digits" 0 seal $table $gcm abcdef0123456789abcdef01 $plain
gives "an IV in capital digits" 0 seal $table $gcm ABCDEF0123456789ABCDEF01 $plain

# ---- standard input

for word in $table $plain $data; do
    input=$word
    gives "seal, $word on standard input" 0 seal $table $gcm $iv $plain $data
done
for word in $table examples/records/ccm.bin $data; do
    input=$word
    opens "$word on standard input" 0 $table examples/records/ccm.bin $data
done
input=$table
gives "check-table on standard input" 0 check-table $table
input=
for command in verify open; do
    spadeswirl $command $table - <examples/records/damaged.bin
    : >"$room/wanted"
    want 9
    hold "$command: a damaged record on standard input" 1
    spadeswirl $command $table - $data < <(head -c 50 $record; sleep 0.2; tail -c +51 $record)
    [ $command = verify ] || cp $plain "$room/wanted"
    want 0
    hold "$command: a record that comes in two parts" 0
done

# ---- tables: none, the most and one more, broken

rows() { # COUNT, each with a name of 32 bytes and the use 02h
    local i
    hex 00 01 "$(printf '%04x' "$1")" 00 08 00 48
    for ((i = 0; i < $1; i++)); do
        hex 20 02 00 00 00 00 00 00 "$(printf '%064x' "$i")" "$(printf '%064x' $((i + 7)))"
    done
}
rows 0 >"$room/empty"
rows 64 >"$room/full"
rows 65 >"$room/rows65"
{ cat "$room/full"; zeros 1; } >"$room/longer"
with $table 9 04 >"$room/broken"
gives "a table of no rows" 0 check-table "$room/empty"
gives "a table of 64 rows" 0 check-table "$room/full"
gives "a table of 65 rows" 1 check-table "$room/rows65"
gives "64 rows and a byte more" 1 check-table "$room/longer"
gives "a use that is none" 1 check-table "$room/broken"
gives "an empty file for a table" 1 check-table /dev/null

# kinds KIND ..: a table of rows with the name TAPE1, each a use and a type; one for GCM has the key of examples/table.bin, another zeros
kinds() {
    local kind
    hex 00 01 "$(printf '%04x' $#)" 00 08 00 48
    for kind; do
        hex 05 "$kind" 00 00 00 00 $gcm
        zeros 27
        if [ "$kind" = 020000 ]; then tail -c +49 $table | head -c 32; else zeros 32; fi
    done
}
kinds 030001 020000 030002 >"$room/three"
kinds 030001 030002 >"$room/keks"
gives "one name for GCM and for key-encrypting keys of both types" 0 check-table "$room/three"
gives "one name for key-encrypting keys of both types" 0 check-table "$room/keks"
# unfit NAME KIND ..: such a table is refused by itself, and where a record is opened by it
unfit() {
    local name=$1
    shift
    kinds "$@" >"$room/unfit"
    gives "$name" 1 check-table "$room/unfit"
    opens "$name" 1 "$room/unfit" $record $data
}
unfit "a table of the old kind, whose key-encrypting key has no type" 030000
unfit "a table of the old kind, with a row for GCM" 020000 030000
unfit "a key-encrypting key of type 0003h" 030003
unfit "a key-encrypting key of type 0100h" 030100
unfit "a row for CCM with a type" 010001
unfit "a row for GCM with a type" 020002
unfit "two key-encrypting keys of one type and name" 030002 030002
unfit "one name for CCM and for GCM" 010000 020000

# ---- sealing refused

last=$(printf '%064x' 63)
some 1048577 >"$room/plain1"
some 4096 >"$room/data"
some 4097 >"$room/data1"
gives "seal by a broken table" 1 seal "$room/broken" $gcm $iv $plain
gives "seal by a table that is too long" 1 seal "$room/longer" $last $iv $plain
gives "seal, an IV of 11 bytes" 2 seal $table $gcm ${iv%??} $plain
gives "seal, an IV of 13 bytes" 2 seal $table $gcm ${iv}00 $plain
gives "seal, an IV of 2,100 bytes" 2 seal $table $gcm "$(printf '%04200d' 0)" $plain
gives "seal, no name" 2 seal $table "" $iv $plain
gives "seal, a name of 33 bytes" 4 seal $table "${last}00" $iv $plain
gives "seal, a name of 3,000 bytes" 4 seal $table "$(printf '%06000d' 0)" $iv $plain
gives "seal, 1,048,577 bytes" 4 seal $table $gcm $iv "$room/plain1"
gives "seal, 4,096 bytes of associated data" 0 seal $table $gcm $iv $plain "$room/data"
gives "seal, 4,097 bytes of associated data" 4 seal $table $gcm $iv $plain "$room/data1"
gives "seal by a name of no row" 6 seal $table 5441504533 $iv $plain
gives "seal by the front of a name" 6 seal $table ${gcm%??} $iv $plain
gives "seal by a name and a zero byte" 6 seal $table ${gcm}00 $iv $plain
gives "seal by a key-encrypting key" 6 seal $table $kek $iv $plain
gives "seal by key-encrypting keys of both types" 6 seal "$room/keks" $gcm $iv $plain
gives "seal where key-encrypting keys have the name too" 0 seal "$room/three" $gcm $iv $plain $data
same "the record of examples/" "$room/wrote" examples/records/gcm.bin
gives "seal, the lowest of all" 1 seal "$room/broken" "${last}00" 00 "$room/plain1" "$room/data1"
gives "seal, 2 before 4" 2 seal $table "${last}00" 00 "$room/plain1" "$room/data1"

# ---- opening and verifying refused

with $table 9 01 >"$room/other-use"
# a header of mode, k and n, and zeros to the record's end: what is over a maximum is refused before the tag
laid() { hex 00 01 "$1" 00; hex "$(printf '%08x0018%04x%04x000c%08x%08x' "$3" "$2" $((24 + $2)) $((36 + $2)) $((36 + $2 + $3)))"; zeros $((28 + $2 + $3)); }
head -c -1 $record >"$room/short"
{ cat $record; zeros 1; } >"$room/more"
with $record 2 03 >"$room/mode3"
with $record 3 01 >"$room/byte3"
laid 02 32 1048577 >"$room/wide"
laid 01 33 5 >"$room/name33"
laid 02 32 2000000 >"$room/wider"
opens "by a broken table" 1 "$room/broken" $record $data
opens "a record that is a byte short" 2 $table "$room/short" $data
opens "a record of a byte more" 2 $table "$room/more" $data
opens "an empty file" 2 $table /dev/null
opens "byte 3 not zero" 2 $table "$room/byte3" $data
opens "mode 03h" 3 $table "$room/mode3" $data
opens "n = 1,048,577: 1,048,661 bytes" 4 $table "$room/wide"
opens "n = 2,000,000" 4 $table "$room/wider"
opens "a name of 33 bytes" 4 $table "$room/name33"
opens "4,097 bytes of associated data" 4 $table $record "$room/data1"
opens "by a table without the name" 6 "$room/empty" $record $data
opens "by key-encrypting keys of both types" 6 "$room/keks" $record $data
opens "where key-encrypting keys have the name too" 0 "$room/three" $record $data
opens "by a row of another use" 7 "$room/other-use" $record $data
opens "with other associated data" 9 $table $record $plain
opens "without the associated data" 9 $table $record
head -c 1048576 "$room/plain1" >"$room/plain"
gives "seal the largest record" 0 seal "$room/full" $last $iv "$room/plain" "$room/data"
cp "$room/wrote" "$room/largest"
opens "the largest record, 1,048,660 bytes" 0 "$room/full" "$room/largest" "$room/data"
