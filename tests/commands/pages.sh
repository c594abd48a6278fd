# shellcheck shell=bash disable=SC2034,SC2086,SC2154
# Sourced by tests/console: list-page, beside document 01's own text, and on pages of the second program's lines.

# What is wanted for a page: the eight lines of its fields; or `refused N`, and what N means on standard error.
fields() {
    want 0
    printf 'scope %s\nlock %s\nencrypt %s\ndecrypt %s\nalgorithm %s\nformat %s\nkey length %s\ndescriptors %s\n' "$@" >"$room/wanted"
}
refused() {
    want "$1"
    echo "refused $1" >"$room/wanted"
}

# list NAME WORD ..: the page on standard input, or by the words.
list() {
    local name=$1
    shift
    spadeswirl list-page "$@"
    hold "$name" "$([[ $(head -n 1 "$room/wanted") = refused* ]] && echo 1 || echo 0)"
}

# A byte at a time, with a pause after each.
slowly() {
    local i n
    n=$(wc -c <"$1")
    for ((i = 0; i < n; i++)); do
        dd if="$1" bs=1 skip="$i" count=1 2>/dev/null
        sleep 0.01
    done
}

fields 2 0 2 2 2 4 46 0
list "document 01's page" <examples/pages/wrapped.bin
list "document 01's page by its name" examples/pages/wrapped.bin </dev/null
list "document 01's page on standard input by -" - <examples/pages/wrapped.bin
list "a byte at a time" < <(slowly examples/pages/wrapped.bin)
fields 1 1 1 3 1 0 32 2
list "format 00h, two descriptors" <examples/pages/plain.bin
fields 0 0 2 0 2 1 12 0
list "format 01h" <examples/pages/reference.bin
refused 3
list "an algorithm that is not permitted" <examples/pages/refused.bin
list "the same by its name" examples/pages/refused.bin </dev/null

refused 2
list "30h in place of 03h" <examples/pages/reserved.bin
list "the same by its name" examples/pages/reserved.bin </dev/null
list "no page" </dev/null
list "an empty file" /dev/null </dev/null
list "zeros" < <(zeros 66)
list "a byte short" < <(head -c 65 examples/pages/wrapped.bin)
list "a byte more" < <(cat examples/pages/wrapped.bin; zeros 1)

# listed TYPE: a page of format 00h with a descriptor of that type
listed() { hex 00 10 00 35 00 00 00 00 01 00; zeros 8; hex 00 20; zeros 32; hex "$1" 00 00 01 2A; }
for type in 04 05 30 7F 80 BE BF; do
    refused 2
    list "the reserved type $type" < <(listed $type)
done
for type in 00 03 C0 FF; do
    fields 0 0 0 0 1 0 32 1
    list "the type $type" < <(listed $type)
done
listed 30 >"$room/page"
refused 2
list "a reserved type, and an algorithm that is not permitted" < <(with "$room/page" 8 03)
list "a reserved type, and a format that is not known" < <(with "$room/page" 9 02)
list "a reserved type, and a reference of 33 bytes" < <(hex 00 10 00 35 00 00 00 00 01 01; zeros 8; hex 00 21; zeros 33; hex 30 00 00 00)

# format 00h, a key of 32 bytes and a vendor's descriptor to the end: as many bytes in all as are asked for
longest() { hex 00 10; hex "$(printf '%04x' $(($1 - 4)))"; hex 00 00 00 00 01 00; zeros 8; hex 00 20; zeros 32; hex C0 00; hex "$(printf '%04x' $(($1 - 56)))"; zeros $(($1 - 56)); }
longest 4096 >"$room/longest"
fields 0 0 0 0 1 0 32 1
list "4,096 bytes" <"$room/longest"
list "4,096 bytes in two parts" < <(head -c 4000 "$room/longest"; sleep 0.2; tail -c 96 "$room/longest")
zeros 4097 >"$room/page4097"
refused 4
list "4,097 bytes that keep to the layout" < <(longest 4097)
list "4,097 bytes of zeros: no other test" <"$room/page4097"
list "the same by their name" "$room/page4097" </dev/null
longest 4097 >"$room/long"
list "4,097 bytes with a reserved type: no other test" < <(with "$room/long" 52 30)
list "100,000 bytes" < <(zeros 100000)
list "4,096 bytes and one more later" < <(zeros 4096; sleep 0.2; zeros 1)
list "format 04h with an identifier of 33 bytes" < <(hex 00 10 00 5D 00 00 02 02 02 04; zeros 8; hex 00 4D 00 01 00 21; zeros 73)
fields 0 0 0 0 1 4 4076 0
list "a KEY part of format 04h that fills the page" < <(hex 00 10 0F FC 00 00 00 00 01 04; zeros 8; hex 0F EC 00 01 00 01; zeros 4072)

# ---- some 500 of the pages of the second program's lines, by the program alone: the text is that of the second program's answers

# Prints `NAME HEX TEXT`, with _ for a space and a comma after each line of the text. A page over 4,096 bytes is `refused 4` with no other test.
page_texts() {
    awk '
        function decimal(hex,   n, i) {
            for (i = 1; i <= length(hex); i++) n = 16 * n + index("0123456789abcdef", substr(hex, i, 1)) - 1
            return n + 0
        }
        function text(   said, i) {
            for (i = 1; i <= 14; i++)
                if (names[i] != ".") said = said names[i] "_" decimal($(3 + i)) ","
            return said
        }
        BEGIN { split("scope lock . . . . . . encrypt decrypt algorithm format key_length descriptors", names, " ") }
        {
            wanted = length($2) > 2 * 4096 ? "refused_4," : $3 == 0 ? text() : "refused_" $3 ","
            print $1, $2, wanted
        }'
}

for writer in pages reserved; do
    "$folder/$writer" "$seed" >"$room/lines" || give_up "tests/second/lines/$writer.c did not write its lines"
    second_answers "$room/lines" "$room/answers"
    some_of page_read 150 50 "$room/lines" "$room/answers" | page_texts >"$room/some"
    [ "$(wc -l <"$room/some")" -ge 200 ]
    test_that $? "list-page: only $(wc -l <"$room/some") of the second program's lines"
    while read -r name digits wanted; do
        hex "$digits" >"$room/page"
        wrote=$(unit page_lister <"$room/page" 2>&1 | tr ' \n' '_,')
        [ "$wrote" = "$wanted" ]
        test_that $? "list-page, $name: wanted $wanted, got $wrote"
    done <"$room/some"
done
