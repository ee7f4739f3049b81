# Whether each line of a report stands in its page: awk -f page.awk REPORT PAGE prints the lines that don't, and fails if one
# doesn't. Besides the list of all lines, each but the first and the last stands in the row of its address, in words.

function escaped(text) {
    gsub(/&/, "\\&amp;", text)
    gsub(/</, "\\&lt;", text)
    gsub(/>/, "\\&gt;", text)
    gsub(/"/, "\\&quot;", text)
    return text
}

function lacks(what) {
    print "not in the page: " what
    missing++
}

function has(row, part) {
    return index(rows[row], part) > 0
}

# How often a part stands in the row of an address.
function times(row, part,    rest, count, at) {
    rest = rows[row]
    while ((at = index(rest, part)) > 0) {
        count++
        rest = substr(rest, at + length(part))
    }
    return count + 0
}

function number_of(digits,    at, number) {
    for (at = 1; at <= length(digits); at++) number = 16 * number + index("123456789ABCDEF", substr(digits, at, 1))
    return number + 0
}

# A set as a row tells it.
function words_of(set,    parts, count, at, step, last) {
    if (set == "*") return "any"
    if (set == "0000/2/8000") return "any even"
    if (split(set, parts, "/") == 3) {
        step = number_of(parts[2])
        last = (number_of(parts[1]) + step * (number_of(parts[3]) - 1)) % 16 ^ length(parts[1])
        return ends_of(parts[1], sprintf("%0" length(parts[1]) "X", last), step)
    }
    count = split(set, parts, ",")
    step = number_of(parts[2]) - number_of(parts[1])
    for (at = 3; at <= count; at++)
        if (number_of(parts[at]) - number_of(parts[at - 1]) != step) step = 0
    if (count >= 4 && step > 0) return ends_of(parts[1], parts[count], step)
    gsub(/,/, ", ", set)
    return set
}

function ends_of(first, last, step) {
    return first " to " last (step == 1 ? "" : " by " step)
}

# An access as a row tells it, by its space, kind and set.
function access_of(space, kind, set) {
    return "<span><i>" (kind ~ /^r/ ? "reads " : "writes ") substr(kind, 2) " </i>" (space == "mem" ? "" : space " ") \
        words_of(set) "</span>"
}

# What a row says of an open site, by its cause and set.
function open_of(cause, set) {
    if (cause == "Fetch") return "Control can come here, and no instruction stands here"
    if (cause == "Targets") return "Control can go from here to more addresses than the analysis follows: " words_of(set) "."
    return "A write here may change the program itself. It may go to: " words_of(set) "."
}

FNR == NR {
    lines[++count] = $0
    next
}

/^<pre>$/ { listing = 1; next }
/^<\/pre>$/ { listing = 0; next }
listing {
    if ($0 != escaped(lines[++listed])) lacks("line " listed " of the list")
    next
}
match($0, /^<tr id=[0-9A-F]+/) { row = substr($0, 8, 4) }
/^<h2/ { row = "" }
row != "" { rows[row] = rows[row] $0 "\n" }

END {
    if (listed != count) lacks("a part of the list: it has " listed + 0 " lines of " count)
    for (k = 2; k < count; k++) {
        split(lines[k], words, " ")
        letter = words[1]
        pc = words[2]
        if (!(pc in rows)) {
            lacks(lines[k])
        } else if (letter == "E") {
            if (!has(pc, "href=#" words[3] "><i>")) lacks(lines[k])
        } else if (letter == "I") {
            text = lines[k]
            sub(/^I [0-9A-F]+ [0-9A-F]+ /, "", text)
            if (!has(pc, "<td class=b>" words[3] "<td class=t>" escaped(text) "<")) lacks(lines[k])
        } else if (letter == "M") {
            if (!has(pc, access_of(words[3], words[4], words[5]))) lacks(lines[k])
            accesses[pc]++
        } else if (letter == "S") {
            before = pc in stacks ? stacks[pc] ", " : ""
            stacks[pc] = before words_of(words[3])
        } else if (letter == "O") {
            if (!has(pc, "<td colspan=7>Open. " open_of(words[3], words[4]))) lacks(lines[k])
            causes[pc]++
        }
    }
    for (pc in accesses) if (times(pc, "<span><i>") != accesses[pc]) lacks("an M line at " pc)
    for (pc in causes) if (times(pc, "<td colspan=7>Open. ") != causes[pc]) lacks("an O line at " pc)
    for (pc in stacks) {
        # (a bar of the depth may stand in front of them)
        shown = rows[pc]
        sub(/^.*<td class=k>/, "", shown)
        sub(/^<span class=d>(<i style=width:[0-9]+%><\/i>)*<\/span>/, "", shown)
        if (index(shown, stacks[pc] "\n") != 1) lacks("an S line at " pc)
    }
    exit missing > 0
}
