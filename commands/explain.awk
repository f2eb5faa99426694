# Says of refused lines what a crew can act on: where, why in words, the line, a caret below the byte at the place, and the message that the line demanded.
#
#   od -A n -v -t u1 LINES | awk -f explain.awk part=words numbers.txt part=refused REFUSED part=told TOLD part=lines -
#
# REFUSED has a line for each refusal, in the order of the lines: the line's number, counted from 1, the refusal's number and its place. TOLD has the messages
# of those refused with 13, in that order, each behind `line N: ` and perhaps over several lines. LINES comes as the numbers of its bytes, so that every byte,
# zero too, is told from every other by any awk. WHERE in the environment is put before each line that says something.
# A byte that does not print is shown as \xHH, in the message too. Of a line that is wider than WIDEST columns only the part around the place is shown.

BEGIN {
    WIDEST = 160
    BEFORE = 60
    DEMANDED = 13
    NEWLINE = 10
    for (byte = 0; byte < 256; byte++) {
        shown[byte] = byte >= 32 && byte < 127 ? sprintf("%c", byte) : sprintf("\\x%02X", byte)
        if (byte > 0)
            of_character[sprintf("%c", byte)] = byte
    }
    split("1 2 3 4 22 23", given)
    for (i in given)
        is_of_tables[given[i]] = 1
    where = ENVIRON["WHERE"]
    line = 1
    count = 0
}

part == "words" && /^[0-9]/ {
    number = $1
    sub(/^[0-9]+ [A-Z_]+ /, "")
    words[number] = $0
}

part == "refused" {
    number_of[$1] = $2
    place_of[$1] = $3
    if ($2 == DEMANDED)
        demanding[++demands] = $1
}

part == "told" {
    begins = "line " demanding[told + 1] ": "
    if (told < demands && substr($0, 1, length(begins)) == begins)
        message_of[demanding[++told]] = visible(substr($0, length(begins) + 1))
    else if (told > 0)
        message_of[demanding[told]] = message_of[demanding[told]] shown[NEWLINE] visible($0)
}

part == "lines" {
    for (i = 1; i <= NF; i++) {
        if ($i == NEWLINE)
            end_line()
        else {
            if (line in number_of && count < place_of[line] + WIDEST + 1)
                bytes[count] = $i + 0
            count++
        }
    }
}

END {
    if (count > 0)
        end_line()
}

# A text with what does not print shown.
function visible(text,    i, made) {
    made = ""
    for (i = 1; i <= length(text); i++)
        made = made shown[of_character[substr(text, i, 1)]]
    return made
}

# The bytes from one place up to another, shown, at most so many columns; what is left out at the end is shown as dots.
function part_of_line(from, to, most,    i, made) {
    made = ""
    for (i = from; i < to; i++) {
        if (length(made) + length(shown[bytes[i]]) > most)
            return made "..."
        made = made shown[bytes[i]]
    }
    return made
}

function columns(from, to,    i, sum) {
    sum = 0
    for (i = from; i < to; i++)
        sum += length(shown[bytes[i]])
    return sum
}

function blanks(count,    made) {
    made = ""
    while (length(made) < count)
        made = made " "
    return made
}

function end_line() {
    if (line in number_of)
        explain(number_of[line], place_of[line])
    line++
    count = 0
}

function explain(number, place,    before) {
    print where "line " line ": place " place ": " words[number] " (" number ")"
    if (!(number in is_of_tables)) {
        before = text_before(place)
        print "    " before part_of_line(place, count, WIDEST - length(before))
        print "    " blanks(length(before)) "^"
    }
    if (line in message_of)
        print where "line " line ": " message_of[line]
}

# What is shown of the line before the place: all of it, or the last columns if the whole line is too wide.
function text_before(place,    from) {
    if (columns(0, place) <= BEFORE)
        return part_of_line(0, place, WIDEST)
    from = place
    if (count <= WIDEST && columns(0, count) <= WIDEST)
        from = 0
    else
        while (columns(from - 1, place) <= BEFORE)
            from--
    return (from > 0 ? "..." : "") part_of_line(from, place, WIDEST)
}
