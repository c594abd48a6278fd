# shellcheck shell=bash disable=SC2034,SC2086,SC2154
# Sourced by tests/console: the descriptors of labels and of key pages, a line each after their count: type, length and bytes in capital
# digits, - for no bytes. A label's reserved ones are not shown, and a page with one is refused with 2.

# ---- labels

gives "label" 0 label examples/label.bin
input=examples/label.bin
gives "label on standard input" 0 label examples/label.bin
input=

# descriptor TYPE HEX ..: its bytes.
descriptor() {
    local type=$1 digits
    shift
    digits=$(tr -d ' ' <<<"$*")
    hex "$type" 00 "$(printf '%04x' $((${#digits} / 2)))" "$digits"
}

# a label whose descriptor 04h has so many bytes of contents
label() { hex 00 00 00 00 00 00 01 00 00 00 03 00 00 00 04 00; hex "$(printf '%04x' "$1")"; zeros "$1"; }
label 0 >"$room/least"
label 4078 >"$room/label4096"
label 4079 >"$room/label4097"
zeros 2 >"$room/zeros"
gives "document 01's label of 18 bytes" 0 label "$room/least"
shows "its four descriptors" label "$room/least" <<'TEXT'
descriptors 4
00 0000 -
01 0000 -
03 0000 -
04 0000 -
TEXT
{ cat "$room/least"; descriptor 05 01; descriptor BF AB CD; descriptor C0 01 02 03; descriptor FF AB CD EF; } >"$room/types"
gives "a label with reserved types" 0 label "$room/types"
shows "those that are not reserved" label "$room/types" <<'TEXT'
descriptors 6
00 0000 -
01 0000 -
03 0000 -
04 0000 -
C0 0003 010203
FF 0003 ABCDEF
TEXT
gives "two zero bytes alone" 2 label "$room/zeros"
gives "no label" 2 label /dev/null
gives "a label of 4,096 bytes" 0 label "$room/label4096"
gives "a label of 4,097 bytes" 4 label "$room/label4097"
{ label 65535; hex C0 00 00 09; zeros 9; } >"$room/label65566"
gives "a label of 65,566 bytes" 4 label "$room/label65566"
head -c 65565 "$room/label65566" >"$room/cut"
gives "the same, cut within its last descriptor" 2 label "$room/cut"

# ---- key pages

gives "descriptors, none" 0 descriptors examples/pages/wrapped.bin
gives "descriptors, two" 0 descriptors examples/pages/plain.bin
gives "descriptors, 30h in place of 03h" 2 descriptors examples/pages/reserved.bin
input=examples/pages/plain.bin
gives "descriptors on standard input" 0 descriptors examples/pages/plain.bin
input=
shows "no descriptor" descriptors examples/pages/wrapped.bin <<'TEXT'
descriptors 0
TEXT
shows "a page's two" descriptors examples/pages/plain.bin <<'TEXT'
descriptors 2
00 0001 07
C0 0002 0809
TEXT
# page FILE: a page of format 00h with the descriptors of a file
page() { hex 00 10 "$(printf '%04x' $((48 + $(wc -c <"$1"))))" 00 00 00 00 01 00; zeros 8; hex 00 20; zeros 32; cat "$1"; }
{ descriptor 00; descriptor 03 FE; descriptor C0; descriptor FF 30 00 00 00; } >"$room/list"
page "$room/list" >"$room/page"
shows "a page's types" descriptors "$room/page" <<'TEXT'
descriptors 4
00 0000 -
03 0001 FE
C0 0000 -
FF 0004 30000000
TEXT
for type in 04 05 30 7F 80 BE BF; do
    descriptor $type 01 >"$room/list"
    page "$room/list" >"$room/page"
    gives "a page with the reserved type $type" 2 descriptors "$room/page"
    { descriptor 03 FE; descriptor $type; descriptor C0; } >"$room/list"
    page "$room/list" >"$room/page"
    gives "a page with the reserved type $type among others" 2 descriptors "$room/page"
    { cat "$room/least"; [ $type = 04 ] || descriptor $type; descriptor FF; } >"$room/label"
    gives "a label with the type $type" 0 label "$room/label"
    [ "$(head -n 1 "$room/wrote")" = "descriptors 5" ]
    test_that $? "a label with the type $type: $(head -n 1 "$room/wrote")"
done
descriptor 30 >"$room/list"
page "$room/list" >"$room/page"
with "$room/page" 8 03 >"$room/page3"
gives "a page that is not permitted, with a reserved type" 2 descriptors "$room/page3"
hex "$(printf '%02x000000' {0..255})" >"$room/list"
page "$room/list" >"$room/page"
gives "a page with every type" 2 descriptors "$room/page"
hex "$(printf '%02x000000' {0..3} {192..255})" >"$room/list"
page "$room/list" >"$room/page"
gives "a page with every type that is not reserved" 0 descriptors "$room/page"
[ "$(sed -n '1p; 6p; $p' "$room/wrote" | xargs)" = "descriptors 68 C0 0000 - FF 0000 -" ]
test_that $? "a page with every type that is not reserved: $(sed -n '1p; 6p; $p' "$room/wrote" | xargs)"
for n in 4040 4041 65483; do
    { hex C0 00; hex "$(printf '%04x' "$n")"; some "$n"; } >"$room/list"
    page "$room/list" >"$room/page$n"
done
gives "descriptors of a page of 4,096 bytes" 0 descriptors "$room/page4040"
gives "descriptors of a page of 4,097 bytes" 4 descriptors "$room/page4041"
gives "descriptors of a page of 65,539 bytes" 4 descriptors "$room/page65483"
with "$room/page4041" 52 BF >"$room/reserved4041"
gives "descriptors of a page of 4,097 bytes, and its type is reserved" 2 descriptors "$room/reserved4041"
head -c 65538 "$room/page65483" >"$room/cut"
gives "the same, a byte short" 2 descriptors "$room/cut"
{ cat "$room/page65483"; zeros 1; } >"$room/page65540"
gives "the same, and a byte more" 2 descriptors "$room/page65540"
gives "descriptors of a page that is not permitted" 3 descriptors examples/pages/refused.bin
gives "descriptors of an empty file" 2 descriptors /dev/null

# ---- labels and pages of the second program's lines, by the program alone

# beside COMMAND CALL WRITER: the strings of a call that a writer of lines gives, beside the second program on files.
beside() {
    local name digits number
    "$folder/$3" "$seed" >"$room/lines" || give_up "tests/second/lines/$3.c did not write its lines"
    second_answers "$room/lines" "$room/answers"
    some_of "$2" 50 20 "$room/lines" "$room/answers" >"$room/some"
    [ "$(wc -l <"$room/some")" -ge 80 ]
    test_that $? "$1: only $(wc -l <"$room/some") of the second program's lines"
    while read -r name digits _; do
        hex "$digits" >"$room/file"
        "$folder/files" "$1" "$room/file" >"$room/wanted" 2>"$room/number"
        unit console "$1" "$room/file" >"$room/wrote" 2>"$room/said" </dev/null
        status=$?
        read -r number <"$room/number"
        want "$number"
        hold "$1, $name" 0
    done <"$room/some"
}
beside label label_check labels
beside descriptors page_read pages
beside descriptors page_read reserved
