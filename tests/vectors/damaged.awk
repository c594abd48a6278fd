# Lines that are nearly cases: each case of crates/nist/stdin damaged in one way or another, by turns; -v turn=N starts with another way.

function without(at,    i, s) { for (i = 1; i <= NF; i++) if (i != at) s = s (s == "" ? "" : " ") $i; return s }
function with(at, word,    i, s) { for (i = 1; i <= NF; i++) s = s (i == 1 ? "" : " ") (i == at ? word : $i); return s }

/^#/ || NF == 0 { print; next }
{
    way = (NR + turn) % 26
    at = 3 + NR % (NF - 2)
    half = int(length($at) / 4) * 2
    if (way == 0) print without(at)
    else if (way == 1) print $0 " 00"
    else if (way == 2) print $0 " "
    else if (way == 3) print " " $0
    else if (way == 4) print with(at, " " $at)
    else if (way == 5) print with(at, "g" substr($at, 2))
    else if (way == 6) print with(at, substr($at, 2))
    else if (way == 7) print with(at, toupper($at))
    else if (way == 8) print with(at, substr($at, 3))
    else if (way == 9) print with(at, $at "00")
    else if (way == 10) print with(at, "-")
    else if (way == 11) print with(at, "--")
    else if (way == 12) print with(2, $2 ~ /crypt/ ? ($2 ~ /en/ ? "gcm_decrypt" : "ccm_encrypt") : "wrap")
    else if (way == 13) print with(2, toupper($2))
    else if (way == 14) print with(2, $2 "_1000")
    else if (way == 15) print with(2, substr($2, 2))
    else if (way == 16) print $0 "\r"
    else if (way == 17) print with(at, substr($at, 1, half) "\t" substr($at, half + 2))
    else if (way == 18) { gsub(/ /, "\t"); print }
    else if (way == 19) print with(at, substr($at, half + 1) substr($at, 1, half))
    else if (way == 20) print "#" $0
    else if (way == 21) print with(1, $1 "#")
    else if (way == 22) print with(at, "0x" substr($at, 3))
    else if (way == 23) print with(NF, $NF - 1)
    else if (way == 24) print with(NF, "0" $NF)
    else print $1, $2
}
