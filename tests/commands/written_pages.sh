# shellcheck shell=bash disable=SC2034,SC2086,SC2154
# Sourced by tests/console: write-page and wrap-page, beside the pages of examples/, on files made here, and on what the second program's lines
# write pages from. A page that was wrapped is loaded again by the second program. The numbers are never 5: there is room for every page.

digits() { od -An -v -tx1 "$1" | tr -d ' \n'; }

# ---- the pages of examples/, from their parts

# apart NAME: the KEY part and the list of a page of examples/.
apart() {
    local page=examples/pages/$1.bin key
    key=$((16#$(tail -c +19 "$page" | head -c 2 | od -An -tx1 | tr -d ' \n')))
    tail -c +21 "$page" | head -c $key >"$room/$1.part"
    tail -c +$((21 + key)) "$page" >"$room/$1.list"
}
for page in wrapped plain reference reserved; do apart $page; done
wrapped="scope=2 encrypt=2 decrypt=2 algorithm=2 format=4"

{ hex 00 02 00 02 4B 31; zeros 40; } >"$room/part"
same "the KEY part of document 01's page" "$room/part" "$room/wrapped.part"
gives "document 01's page" 0 write-page "$room/part" /dev/null $wrapped
same "document 01's page" examples/pages/wrapped.bin "$room/wrote"
cp "$room/wrote" "$room/page"
fields 2 0 2 2 2 4 46 0
list "document 01's page, as it was written" "$room/page" </dev/null
gives "format 00h, two descriptors" 0 write-page "$room/plain.part" "$room/plain.list" scope=1 lock=1 encrypt=1 decrypt=3 algorithm=1 format=0
same "format 00h, two descriptors" examples/pages/plain.bin "$room/wrote"
gives "the fields in another order" 0 write-page "$room/plain.part" "$room/plain.list" algorithm=1 decrypt=3 lock=1 scope=1 encrypt=1
same "the fields in another order" examples/pages/plain.bin "$room/wrote"
gives "format 01h" 0 write-page "$room/reference.part" "$room/reference.list" encrypt=2 algorithm=2 format=1
same "format 01h" examples/pages/reference.bin "$room/wrote"
gives "30h in place of 03h" 2 write-page "$room/reserved.part" "$room/reserved.list" scope=1 lock=1 encrypt=1 decrypt=3 algorithm=1
gives "an algorithm that is not permitted" 3 write-page "$room/part" /dev/null ${wrapped/algorithm=2/algorithm=3}

# ---- fields

# the key of a page of format 00h
some 32 >"$room/key"
# Each name in its bits: bytes 4 to 9 of the page.
for place in scope=1:200000000100 scope=2:400000000100 lock=1:010000000100 ceem=1:004000000100 ceem=3:00c000000100 rdmc=1:001000000100 rdmc=3:003000000100 \
    sdk=1:000800000100 ckod=1:000400000100 ckorp=1:000200000100 ckorl=1:000100000100 encrypt=1:000001000100 encrypt=2:000002000100 decrypt=1:000000010100 decrypt=3:000000030100; do
    gives "${place%:*}" 0 write-page "$room/key" /dev/null algorithm=1 ${place%:*}
    [ "$(digits "$room/wrote" | cut -c 9-20)" = "${place#*:}" ]
    test_that $? "${place%:*}: bytes 4 to 9 are $(digits "$room/wrote" | cut -c 9-20)"
done
all="format=0 algorithm=2 decrypt=3 encrypt=2 ckorl=1 ckorp=1 ckod=1 sdk=1 rdmc=3 ceem=3 lock=1 scope=2"
gives "every field" 0 write-page "$room/key" /dev/null $all
gives "a field that is not named is 0, and 0 is no algorithm" 3 write-page "$room/key" /dev/null
gives "zeros before a value" 0 write-page "$room/part" /dev/null scope=02 encrypt=00000000000000000002 decrypt=2 algorithm=2 format="$(printf '%060d' 4)"
same "zeros before a value" examples/pages/wrapped.bin "$room/wrote"

# What is not permitted or too wide, and what would be permitted if high bits were lost, over 64 bits too.
for word in scope=3 scope=7 scope=8 lock=2 ceem=4 rdmc=4 sdk=2 ckod=2 ckorp=2 ckorl=2 encrypt=3 decrypt=4 algorithm=0 algorithm=3 encrypt=256 decrypt=256 format=2 format=5 \
    format=255 format=256; do
    gives "$word" 3 write-page "$room/key" /dev/null ${all/${word%=*}=?/$word}
done
for word in scope=258 lock=257 ceem=259 algorithm=258 format=260 scope=65538 lock=65537 ceem=65539 algorithm=65538 format=65540 \
    scope=4294967298 lock=4294967297 ceem=4294967299 algorithm=4294967298 format=4294967300 scope=18446744073709551618 lock=18446744073709551617 \
    ceem=18446744073709551619 algorithm=18446744073709551618 format=18446744073709551620 lock=36893488147419103233 format=36893488147419103236 \
    lock=340282366920938463463374607431768211457 format=340282366920938463463374607431768211460; do
    gives "$word" 3 write-page "$room/part" /dev/null ${wrapped/${word%=*}=?/} $word
done
for value in 18446744073709551615 "$(printf '1%03999d' 4)"; do
    gives "a format of ${#value} digits" 3 write-page "$room/part" /dev/null ${wrapped/format=4/format=$value}
    gives "a flag of ${#value} digits" 3 write-page "$room/part" /dev/null $wrapped ckorl=$value
done

# ---- KEY parts and lists

# wrapped_part TYPE IDENTIFIER BYTES: a KEY part of format 04h with so many wrapped bytes.
wrapped_part() { hex "$1" "$(printf '%04x' $((${#2} / 2)))" "$2"; some "$3"; }
for n in 0 31 33 40 70000; do
    some $n >"$room/bytes"
    gives "a key of $n bytes" 2 write-page "$room/bytes" /dev/null algorithm=1
done
for pair in 0:2 8:2 9:0 32:0 33:4 70000:4; do
    some ${pair%:*} >"$room/bytes"
    gives "a reference of ${pair%:*} bytes" ${pair#*:} write-page "$room/bytes" /dev/null algorithm=1 format=1
    gives "a part of no format, of ${pair%:*} bytes" 3 write-page "$room/bytes" /dev/null algorithm=1 format=3
done
for n in 0 24 39 41 48 4000; do
    wrapped_part 0001 4b31 $n >"$room/bytes"
    gives "$n wrapped bytes" 8 write-page "$room/bytes" /dev/null $wrapped
done
wrapped_part 0001 4b31 70000 >"$room/bytes"
gives "70,000 wrapped bytes" 4 write-page "$room/bytes" /dev/null $wrapped
wrapped_part 0001 "$(printf '%064d' 0)" 40 >"$room/bytes"
gives "an identifier of 32 bytes" 0 write-page "$room/bytes" /dev/null $wrapped
wrapped_part 0001 "$(printf '%066d' 0)" 40 >"$room/bytes"
gives "an identifier of 33 bytes" 4 write-page "$room/bytes" /dev/null $wrapped
wrapped_part 0001 "" 40 >"$room/bytes"
gives "no identifier" 2 write-page "$room/bytes" /dev/null $wrapped
for type in 0000 0003 0101 0200; do
    wrapped_part $type 4b31 40 >"$room/bytes"
    gives "KEK type $type" 3 write-page "$room/bytes" /dev/null $wrapped
done
head -c 7 "$room/part" >"$room/bytes"
gives "one wrapped byte" 8 write-page "$room/bytes" /dev/null $wrapped
head -c 5 "$room/part" >"$room/bytes"
gives "an identifier past the part's end" 2 write-page "$room/bytes" /dev/null $wrapped

for type in 00 03 04 30 BF C0 FF; do
    descriptor $type 2A >"$room/list"
    case $type in 04 | 30 | BF) number=2 ;; *) number=0 ;; esac
    gives "the type $type" $number write-page "$room/key" "$room/list" algorithm=1
done
{ descriptor C0; descriptor C0; } >"$room/list"
gives "a type twice" 2 write-page "$room/key" "$room/list" algorithm=1
# list_of BYTES: a list of so many bytes, in descriptors of at most 65,539
list_of() {
    local left=$1 type=192 n
    while [ "$left" -gt 0 ]; do
        n=$((left > 65539 ? 65000 : left))
        hex "$(printf '%02x00%04x' $type $((n - 4)))"
        zeros $((n - 4))
        left=$((left - n)) type=$((type + 1))
    done
}
for pair in 4044:0 4045:4 65483:4 65488:4 65536:4 70000:4 140000:4 1200000:4; do
    n=${pair%:*}
    list_of $n >"$room/list$n"
    gives "a list of $n bytes" ${pair#*:} write-page "$room/key" "$room/list$n" algorithm=1
    gives "a list of $n bytes, and a field that is not permitted" 3 write-page "$room/key" "$room/list$n" algorithm=3
done
for n in 4044 4045 70000 140000; do
    head -c $((n - 1)) "$room/list$n" >"$room/cut"
    gives "a list of $n bytes that is cut" 2 write-page "$room/key" "$room/cut" algorithm=1
done
wrapped_part 0001 4b31 39 >"$room/bytes"
gives "4 before 8" 4 write-page "$room/bytes" "$room/list70000" $wrapped
wrapped_part 0003 "$(printf '%066d' 0)" 39 >"$room/bytes"
gives "3 before 4 and 8" 3 write-page "$room/bytes" /dev/null $wrapped
gives "2 before 3, 4 and 8" 2 write-page "$room/bytes" "$room/cut" $wrapped

# ---- wrapping

# row USE TYPE NAME BYTE: a row of that name, whose key has that byte 32 times
row() {
    hex "$(printf '%02x' $((${#3} / 2)))" "$1" "$2" 00 00 00 00 "$3"
    zeros $((32 - ${#3} / 2))
    hex "$(printf "$4%.0s" {1..32})"
}
{ hex 00 01 00 06 00 08 00 48; row 03 0002 4b31 22; row 02 0000 4b31 33; row 03 0001 4b31 11; row 03 0001 4b3130 44; row 03 0002 4b3100 55; row 01 0000 4b32 66; } >"$room/k-rows"
gives "the table of K1, K10 and others" 0 check-table "$room/k-rows"

# loaded NAME TABLE: what was written gives the key again with the table, as the second program has it.
loaded() {
    local answer
    answer=$(echo "x page_load $(digits "$2") $(digits "$room/wrote") 32" | "$folder/second" | cut -d ' ' -f 2,3)
    [ "$answer" = "0 $(digits "$room/key")" ]
    test_that $? "$1, loaded: ${answer:0:80}"
}
# wrapped_as NAME TYPE IDENTIFIER WORD ..: by the table of K1, and loaded.
wrapped_as() {
    gives "$1" 0 wrap-page "$room/k-rows" "$2" "$3" "$room/key" "${@:4}"
    loaded "$1" "$room/k-rows"
}
gives "by the row of examples/" 0 wrap-page $table 1 $kek "$room/key" /dev/null $wrapped
loaded "by the row of examples/" $table
[ "$(digits "$room/wrote" | cut -c 1-58)" = "0010004140000202020400000000000000000031000100054b454b2d31" ]
test_that $? "by the row of examples/, it begins $(digits "$room/wrote" | cut -c 1-58)"
cp "$room/wrote" "$room/page"
fields 2 0 2 2 2 4 49 0
list "by the row of examples/, listed" "$room/page" </dev/null
tail -c +21 "$room/page" >"$room/carried"
gives "its wrapped part, carried over" 0 write-page "$room/carried" /dev/null $wrapped
same "its wrapped part, carried over" "$room/page" "$room/wrote"
wrapped_as "K1 of type 1" 1 4b31 /dev/null $wrapped
cp "$room/wrote" "$room/by1"
wrapped_as "K1 of type 2" 2 4b31 /dev/null $wrapped
! cmp -s <(tail -c 40 "$room/by1") <(tail -c 40 "$room/wrote")
test_that $? "K1 of both types wraps alike"
wrapped_as "K10" 1 4b3130 /dev/null $wrapped
wrapped_as "K1 and a zero byte" 2 4b3100 "$room/plain.list" $wrapped lock=1 sdk=1
wrapped_as "an identifier in capital digits" 1 4B31 /dev/null $wrapped
wrapped_as "a zero before the type" 02 4b31 /dev/null $wrapped
gives "K10 of type 2" 6 wrap-page "$room/k-rows" 2 4b3130 "$room/key" /dev/null $wrapped
gives "K1 and a zero byte of type 1" 6 wrap-page "$room/k-rows" 1 4b3100 "$room/key" /dev/null $wrapped
gives "a data row" 6 wrap-page "$room/k-rows" 1 4b32 "$room/key" /dev/null $wrapped
gives "the front of a name" 6 wrap-page "$room/k-rows" 1 4b "$room/key" /dev/null $wrapped
gives "a table of no rows" 6 wrap-page "$room/empty" 1 4b31 "$room/key" /dev/null $wrapped
for type in 0 3 256 257 258 65535 65536 65537 65538 4294967297 18446744073709551617 "$(printf '1%03999d' 1)"; do
    gives "the type ${type:0:30}" 3 wrap-page "$room/k-rows" $type 4b31 "$room/key" /dev/null $wrapped
done
for word in format=0 format=1 format=2 format=260 scope=3 lock=2 algorithm=0; do
    gives "wrapping with $word" 3 wrap-page "$room/k-rows" 1 4b31 "$room/key" /dev/null ${wrapped/${word%=*}=?/} $word
done
gives "wrapping with no field" 3 wrap-page "$room/k-rows" 1 4b31 "$room/key" /dev/null
for n in 0 31 33 40 70000; do
    some $n >"$room/bytes"
    gives "wrapping a key of $n bytes" 2 wrap-page "$room/k-rows" 1 4b31 "$room/bytes" /dev/null $wrapped
done
gives "wrapping with no identifier" 2 wrap-page "$room/k-rows" 1 "" "$room/key" /dev/null $wrapped
gives "wrapping with a reserved type" 2 wrap-page "$room/k-rows" 1 4b31 "$room/key" "$room/reserved.list" $wrapped
gives "wrapping by an identifier of 32 bytes" 6 wrap-page "$room/full" 1 $last "$room/key" /dev/null $wrapped
gives "wrapping by an identifier of 33 bytes" 4 wrap-page "$room/full" 1 ${last}00 "$room/key" /dev/null $wrapped
gives "wrapping by an identifier of 3,000 bytes" 4 wrap-page "$room/full" 1 "$(printf '%06000d' 0)" "$room/key" /dev/null $wrapped
list_of 4030 >"$room/list4030"
list_of 4031 >"$room/list4031"
wrapped_as "wrapping into a page of 4,096 bytes" 1 4b31 "$room/list4030" $wrapped
gives "wrapping into a page of 4,097 bytes" 4 wrap-page "$room/k-rows" 1 4b31 "$room/key" "$room/list4031" $wrapped
gives "wrapping with a list of 70,000 bytes" 4 wrap-page "$room/k-rows" 1 4b31 "$room/key" "$room/list70000" $wrapped
for bad in "$room/broken" "$room/longer" "$room/rows65" "$room/unfit" /dev/null; do
    gives "wrapping by a bad table" 1 wrap-page "$bad" 1 4b31 "$room/key" /dev/null $wrapped
    gives "wrapping by a bad table, the lowest of all" 1 wrap-page "$bad" 0 ${last}00 "$room/bytes" "$room/cut"
done
gives "wrapping, 2 before 3, 4 and 6" 2 wrap-page "$room/empty" 0 ${last}00 "$room/bytes" "$room/list70000"
gives "wrapping, 3 before 4 and 6" 3 wrap-page "$room/empty" 0 ${last}00 "$room/key" "$room/list70000" $wrapped

# ---- standard input

for word in "$room/part" "$room/plain.list"; do
    input=$word
    gives "write-page, $word on standard input" 0 write-page "$room/part" "$room/plain.list" $wrapped
done
for word in "$room/k-rows" "$room/key" "$room/plain.list"; do
    input=$word
    gives "wrap-page, $word on standard input" 0 wrap-page "$room/k-rows" 1 4b31 "$room/key" "$room/plain.list" $wrapped
done
input=$room/list70000
gives "write-page, a list of 70,000 bytes on standard input" 4 write-page "$room/key" "$room/list70000" algorithm=1
input=
# unending NAME N WORD ..: with a file that never ends, on standard input too, it is refused with N, and before long.
unending() {
    timeout 60 ./spadeswirl "${@:3}" >"$room/wrote" 2>"$room/said" < <(yes)
    status=$?
    : >"$room/wanted"
    want "$2"
    hold "$1" 1
}
unending "a reference that never ends" 4 write-page - /dev/null algorithm=1 format=1
unending "a key that never ends" 2 write-page /dev/zero /dev/null algorithm=1
unending "a list that never ends" 2 write-page "$room/key" /dev/zero algorithm=1
unending "a table that never ends" 1 wrap-page /dev/zero 1 4b31 "$room/key" /dev/null $wrapped
unending "a key that never ends, wrapped" 2 wrap-page "$room/k-rows" 1 4b31 - /dev/null $wrapped

# ---- what the second program's lines write pages from

names=(scope lock ceem rdmc sdk ckod ckorp ckorl encrypt decrypt algorithm format)
# some_written CALL LINES ANSWERS: lines of a call as `NAME NUMBER N OUTPUT STRING .. FIELD ..`, up to 40 with 0 and 10 with each other number
# but 5, spread over all that gave it. The longest strings are left out.
some_written() {
    awk -v call="$1" '
        NR == FNR {
            if ($2 == call && length($0) < 20000) {
                said = $0
                sub(/^[^ ]* [^ ]* /, "", said)
                sub(/ [^ ]*$/, "", said)
                lent[$1] = said
            }
            next
        }
        $1 in lent && $2 != 5 { of[$2]++; answer[$2, of[$2]] = $1 " " $2 " " $4 " " $3 }
        END {
            for (number in of) {
                take = number == 0 ? 40 : 10
                step = of[number] > take ? of[number] / take : 1
                for (k = 1; k <= of[number]; k += step) {
                    said = answer[number, int(k)]
                    name = said
                    sub(/ .*/, "", name)
                    print said, lent[name]
                }
            }
        }' "$2" "$3"
}

# as_answered NAME NUMBER N OUTPUT WORD ..: the command gives the second program's answer.
as_answered() {
    : >"$room/wanted"
    [ "$2" != 0 ] || hex "${4:0:$((2 * 16#$3))}" >"$room/wanted"
    want "$2"
    spadeswirl "${@:5}" </dev/null
    hold "$1" $(($2 != 0))
}

# taken STRINGS: the first so many words of a line as files, and its fields as words.
taken() {
    local strings=$1 i
    for ((i = 0; i < strings; i++)); do hex "${words[4 + i]}" >"$room/string$i"; done
    chosen=()
    for ((i = 0; i < 12; i++)); do chosen+=("${names[i]}=${words[4 + strings + i]}"); done
}

# some_lines CALL WRITER: some of a writer's lines, into the room.
some_lines() {
    "$folder/$2" "$seed" >"$room/lines" || give_up "tests/second/lines/$2.c did not write its lines"
    second_answers "$room/lines" "$room/answers"
    some_written "$1" "$room/lines" "$room/answers" >"$room/some"
    [ "$(wc -l <"$room/some")" -ge 75 ]
    test_that $? "$1: only $(wc -l <"$room/some") of the second program's lines"
}
some_lines page_write written
while read -r -a words; do
    taken 2
    as_answered "write-page, ${words[0]}" "${words[@]:1:3}" write-page "$room/string0" "$room/string1" "${chosen[@]}"
done <"$room/some"
some_lines page_write_wrapped wrapping
while read -r -a words; do
    taken 4
    as_answered "wrap-page, ${words[0]}" "${words[@]:1:3}" wrap-page "$room/string0" "${words[20]}" "${words[5]/#-/}" "$room/string2" "$room/string3" "${chosen[@]}"
done <"$room/some"
