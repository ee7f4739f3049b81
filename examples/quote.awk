# Whether a page quotes an answer rightly. The first file has the lines of the quote, the second the answer: each line of the one
# stands in the other, and a line `..` is for any lines that are left out.
NR == FNR { quote[++count] = $0; next }
quote[at + 1] == ".." { at++; is_gap = 1 }
at < count && quote[at + 1] == $0 { at++; is_gap = 0; next }
!is_gap { is_wrong = 1; exit }
END {
    if (quote[at + 1] == "..") at++
    exit is_wrong || at < count
}
