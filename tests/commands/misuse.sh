# shellcheck shell=bash disable=SC2034,SC2086,SC2154
# Sourced by tests/console: help, and words that are no command, or not of one.

# ---- help

# helps NAME WORD ..: status 0, nothing on standard error, and the usage first.
helps() {
    local name=$1 first=
    shift
    spadeswirl help "$@" </dev/null
    IFS= read -r first <"$room/wrote"
    [ "$status" = 0 ] && [ ! -s "$room/said" ] && [[ $first = "usage: ./spadeswirl "* ]]
    test_that $? "$name: status $status; wrote $first; said $(head -n 2 "$room/said")"
}
helps "help"
commands=$(sed -nE 's/^(usage:|      ) \.\/spadeswirl ([a-z-]+).*/\2/p' "$room/wrote" | grep -vx help | sort | xargs)
[ "$commands" = "check-table descriptors label list-page open report seal verify wrap-page write-page" ]
test_that $? "help lists these commands: $commands"
for command in $commands; do
    helps "help $command" $command
    grep -q "^usage: \./spadeswirl $command " "$room/wrote"
    test_that $? "help $command: its usage is of another command"
done
misuse "help on what is no command" help unseal
misuse "help on a command of the program alone" help meaning
misuse "help on two commands" help seal open

# ---- what is no command, or has words too few or too many, is told the usage

for words in "" "list" "list-page one two"; do
    # shellcheck disable=SC2086
    misuse "arguments '$words'" $words
    grep -q '^usage: ' "$room/said"
    test_that $? "arguments '$words': no usage"
done
misuse "no command"
misuse "another command" unseal $table $record
misuse "a command of the program alone" meaning 06
misuse "seal, words too few" seal $table $gcm $iv
misuse "seal, words too many" seal $table $gcm $iv $plain $data $data
misuse "open, words too few" open $table
misuse "open, words too many" open $table $record $data $data
misuse "verify, words too few" verify $table
misuse "verify, words too many" verify $table $record $data $data
misuse "report, words too few" report $table
misuse "report, words too many" report $table examples/dump.bin examples/dump.bin
misuse "check-table, words too few" check-table
misuse "check-table, words too many" check-table $table $table
misuse "descriptors, words too few" descriptors
misuse "descriptors, words too many" descriptors examples/pages/plain.bin examples/pages/plain.bin
misuse "label, words too few" label
misuse "label, words too many" label examples/label.bin examples/label.bin
misuse "list-page, words too many" list-page examples/pages/plain.bin examples/pages/plain.bin
misuse "write-page, words too few" write-page "$room/part"
misuse "write-page, a file too many" write-page "$room/part" /dev/null "$room/key" $wrapped
misuse "wrap-page, words too few" wrap-page $table 1 $kek "$room/key"
misuse "wrap-page, a file too many" wrap-page $table 1 $kek "$room/key" /dev/null /dev/null $wrapped
misuse "a name that is no hex" seal $table TAPE1 $iv $plain
misuse "a name with an odd digit" seal $table ${gcm}0 $iv $plain
misuse "an IV that is no hex" seal $table $gcm 00000001000000000000000g $plain
misuse "an IV with a space" seal $table $gcm "00000001 00000000000001" $plain
misuse "a name on standard input" seal $table - $iv $plain
for command in open verify report write-page; do
    misuse "$command, two files on standard input" $command - -
done
misuse "wrap-page, two files on standard input" wrap-page - 1 $kek - /dev/null $wrapped
misuse "an identifier that is no hex" wrap-page $table 1 KEK-1 "$room/key" /dev/null $wrapped
misuse "an identifier with an odd digit" wrap-page $table 1 ${kek}0 "$room/key" /dev/null $wrapped
misuse "an identifier on standard input" wrap-page $table 1 - "$room/key" /dev/null $wrapped
for type in "" one -1 +1 1x 0x1 1h 1.0 " 1" "1 " 1,2 $kek-; do
    misuse "a type that is no number: '$type'" wrap-page $table "$type" $kek "$room/key" /dev/null $wrapped
done
misuse "a type on standard input" wrap-page $table - $kek "$room/key" /dev/null $wrapped

# a word that is no name=value, a name that is none or comes twice, and a value that is no number, after words that are right and before them
for word in scope "" = =1 colour=1 Scope=1 SCOPE=1 scop=1 scopes=1 scope= scope==1 scope=1=1 scope=-1 scope=+1 scope=x scope=1x scope=0x1 scope=1h scope=1.0 "scope= 1" \
    "scope=1 " " scope=1" "scope =1" "scope=1 lock=1" scope=1,lock=1 "scope=1
" "scope=1;" key_length=32 descriptors=0 page=1 encryption=1 scope:1 --scope=1 - -o=1; do
    misuse "write-page, '$word'" write-page "$room/key" /dev/null algorithm=1 "$word"
    misuse "wrap-page, '$word'" wrap-page $table 1 $kek "$room/key" /dev/null "$word" format=4 algorithm=1
done
for words in "scope=1 scope=1" "scope=1 scope=2" "scope=1 lock=1 encrypt=1 scope=3" "format=4 format=4"; do
    misuse "write-page, a name twice: $words" write-page "$room/key" /dev/null algorithm=1 $words
    misuse "wrap-page, a name twice: $words" wrap-page $table 1 $kek "$room/key" /dev/null algorithm=1 $words
done
# A word that is longer than the program reads is not cut: its front may be another number.
for value in "$(printf '1%04999d' 4)" "$(printf '%05000d' 4)"; do
    misuse "a format of ${#value} digits, from ${value:0:1} on" write-page "$room/part" /dev/null ${wrapped/format=4/format=$value}
    misuse "a type of ${#value} digits, from ${value:0:1} on" wrap-page $table $value $kek "$room/key" /dev/null $wrapped
done
misuse "misuse before a refusal" write-page "$room/key" "$room/list70000" algorithm=3 scope=x
misuse "misuse before a bad table" wrap-page "$room/broken" 0 "" "$room/key" /dev/null colour=1
misuse "no such table" check-table "$room/none"
misuse "no such record" open $table "$room/none" $data
misuse "no such associated data" open $table $record "$room/none"
misuse "no such table" verify "$room/none" $record $data
misuse "no such record" verify $table "$room/none" $data
misuse "no such associated data" verify $table $record "$room/none"
misuse "no such table" report "$room/none" examples/dump.bin
misuse "no such dump" report $table "$room/none"
misuse "no such data" seal $table $gcm $iv "$room/none"
misuse "no such KEY part" write-page "$room/none" /dev/null $wrapped
misuse "no such list" write-page "$room/part" "$room/none" $wrapped
misuse "no such table" wrap-page "$room/none" 1 $kek "$room/key" /dev/null $wrapped
misuse "no such key" wrap-page $table 1 $kek "$room/none" /dev/null $wrapped
misuse "no such list" wrap-page $table 1 $kek "$room/key" "$room/none" $wrapped
misuse "no such label" label "$room/none"
misuse "no such page" descriptors "$room/none"
misuse "no such page" list-page "$room/none"
misuse "a file with a number for its name" label "6: no row of that type and name"
misuse "an empty file name" label ""
misuse "a file name of 5,000 bytes" label "$(printf '%05000d' 0)"
for words in "check-table $room" "open $table $room" "verify $table $room" "report $room examples/dump.bin" "report $table $room" "label $room" \
    "descriptors $room" "list-page $room" "seal $table $gcm $iv $plain $room" "write-page $room /dev/null $wrapped" "write-page $room/part $room $wrapped" \
    "wrap-page $room 1 $kek $room/key /dev/null $wrapped" "wrap-page $table 1 $kek $room /dev/null $wrapped" "wrap-page $table 1 $kek $room/key $room $wrapped"; do
    # shellcheck disable=SC2086
    misuse "a folder: ${words%% *}" $words
done
if [ -w /dev/full ]; then
    for words in "open $table $record $data" "report $table examples/dump.bin" "write-page $room/part /dev/null $wrapped" "wrap-page $table 1 $kek $room/key /dev/null $wrapped"; do
        ./spadeswirl $words >/dev/full 2>"$room/said"
        status=$?
        : >"$room/wrote"
        : >"$room/wanted"
        echo "cannot write: No space left on device" >"$room/wanted-said"
        hold "a full disk: ${words%% *}" 2
    done
fi
