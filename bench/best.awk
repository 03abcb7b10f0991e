# Reads what the benchmark printed at several places of a page, and prints each row with either side's best time.
/^call / && !seen++ { print $0 "   at a place" }
/^[a-z].* [0-9]+ +[0-9]+ +[0-9]+\.[0-9]+$/ && NF >= 9 {
    row = substr($0, 1, 54)
    plain = $(NF - 2); mail = $(NF - 1); ratio = $NF
    if (!(row in least)) { rows[++count] = row; p[row] = plain; m[row] = mail; least[row] = most[row] = ratio }
    if (plain < p[row]) p[row] = plain
    if (mail < m[row]) m[row] = mail
    if (ratio < least[row]) least[row] = ratio
    if (ratio > most[row]) most[row] = ratio
}
/^  [0-9]+ words/ && FNR == NR { size[++settings] = $1; after[settings] = count; text[settings] = $0 }
END {
    for (i = 1; i <= count; i++) {
        row = rows[i]
        printf "%s %11d %11d %7.2f   %.2f to %.2f\n", row, p[row], m[row], m[row] / p[row], least[row], most[row]
        for (k = 1; k <= settings; k++) if (after[k] == i) print text[k]
    }
    print "\nthe test of a memory alone (the send refused by 2), million words a second: plain, mail"
    for (k = 1; k <= settings; k++) {
        row = rows[after[k]]
        printf "%9d words %9.1f %9.1f\n", size[k], size[k] / p[row] * 1e3, size[k] / m[row] * 1e3
    }
}
