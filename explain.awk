# Says of each refusal in an answer its line, the line's text and what the number means. The commands run it where standard error is a terminal, and with --explain:
#   awk -v command=NAME -v limit=MOST -v newlines=COUNT -f explain.awk INPUT... ANSWER
# COUNT is how many newlines the inputs have; with a MOST above 0 no more refusals than these are explained.
BEGIN {
    numeral = "(0|[1-9][0-9]?)"
    split("the input has not the form that is asked for|there are 0 columns, or more than 16|this is no tree of these columns|the bank has no such column|the column is halted|" \
        "the step asks for something that does not hold|the root still sends or awaits, or with watch=sender owes an acknowledgement|the last order number is used|512 packets are under way|" \
        "no packet is at that place|||no line has this form; see ./" command " --help|the bank is not at rest|the root does not come back|no column runs|a delay or gap is 0 or above 255||" \
        "a line has not the form of a journal's, a journal is too long, or both have one owner|a line is there twice|one column got what the other did not send||" \
        "there are more than 8 columns, or the table has watch=sender", why, "|")
    six["send"] = "the column has nobody to send to"
    six["ack"] = "the column owes nobody, or it still sends or awaits"
    six["all"] = "the column is the root, has not noted the column that it watches, has taken over already, or still sends or awaits"
    six["note"] = "the second column runs, is the first one, or is noted already"
    six["back"] = "the column runs"
    inputs = ARGC - 2
}

# The lines of the inputs, and then those of the answer.
FILENAME != ARGV[ARGC - 1] { file = 1 + (FILENAME != ARGV[1]); line[file, FNR] = $0; lines[file] = FNR; total++; next }
FNR == 1 && command == "journals" && /^refused=/ { say(0, $0); journals(substr($0, 9) + 0); next }
FNR == 1 && /^refused=/ { whole(substr($0, 9) + 0); next }
FNR == 1 { at = after_table(); next }
/^refused=/ { say(at, $0); at++; next }
/^(step=ok|doors=)/ { at++ }

END {
    if (told > limit && limit > 0) print told - limit " more are refused; --explain names all"
    if (told) hints()
}

function readable(text) {
    gsub(/\r/, "\\r", text)
    gsub(/[^ -~]/, "?", text)
    return length(text) > 60 ? substr(text, 1, 60) "..." : text
}

function meaning(number, text, key) {
    key = text
    sub(/=.*/, "", key)
    if (number == 6 && key in six) return six[key]
    if (number == 5 && key == "halt") return "a column of the line is halted already"
    return why[number] == "" ? "see docs/SCRIPTS.md" : why[number]
}

# A refusal of a line; of all that was given where the line is 0.
function say(number, answer, text) {
    told++
    if (limit > 0 && told > limit) return
    text = number ? line[1, number] : ""
    print (number ? "line " number ": " readable(text) ": " : "") answer ": " meaning(substr(answer, 9) + 0, text)
}

# Which line the number of a refusal means; a watch is the last line of its table.
function refused_line(number) {
    if (number == 2) return 1
    if (number == 3) return tree()
    if (number == 13) return stepcount()
    if (number == 17) return limits()
    if (number == 23) return columns() > 8 ? 1 : after_table() - 1
    return form()
}

# What is refused as a whole: a table, a request, an input that is too long.
function whole(number, place) {
    place = refused_line(number)
    if (number == 13 && place == 0) { told++; print "refused=13: " (command == "losses" ? "the line after= is missing" : "the input has more than 65,536 bytes"); return }
    say(place, "refused=" number)
}

function columns() { return substr(line[1, 1], 9) + 0 }
function limits() { return (substr(line[1, 2], 7) + 0 < 1 || substr(line[1, 2], 7) + 0 > 255) ? 2 : 3 }

# Which line follows the table.
function after_table(place) {
    place = 4 + (line[1, 4] ~ /^first=/)
    return place + (line[1, place] ~ /^watch=/)
}

# The line with a step count, or the one behind it where that has its form; 0 where there is none.
function stepcount(place) {
    if (command != "losses") return 0
    place = after_table()
    if (line[1, place] ~ /^after=(0|[1-9][0-9]?[0-9]?)$/) place++
    return place <= lines[1] ? place : 0
}

# The first line of a table or a request that has not its form.
function form(place) {
    if (line[1, 1] !~ "^columns=" numeral "$") return 1
    if (command == "fastest") return line[1, 2] !~ /^delay=(0|[1-9][0-9]?[0-9]?)$/ ? 2 : line[1, 3] !~ /^gap=(0|[1-9][0-9]?[0-9]?)$/ ? 3 : 4
    if (line[1, 2] !~ "^root=" numeral "$") return 2
    if (line[1, 3] !~ "^up=" numeral "(," numeral ")*$") return 3
    place = 4
    if (line[1, 4] ~ /^first=/ && line[1, 4] ~ "^first=" numeral "(," numeral ")*$") place = 5
    return place <= lines[1] ? place : lines[1]
}

# The line of a table that is no tree: the root's, the parents' or the sequence's.
function tree(count, root, up, k, c, i) {
    count = columns()
    root = substr(line[1, 2], 6) + 0
    if (root >= count) return 2
    if (split(substr(line[1, 3], 4), up, ",") != count || up[root + 1] != root) return 3
    for (k = 1; k <= count; k++) if (up[k] >= count) return 3
    for (k = 1; k <= count; k++) {
        c = k - 1
        for (i = 0; i < count; i++) c = up[c + 1] + 0
        if (c != root) return 3
    }
    return 4
}

# Which line of which journal is refused.
function journals(number, of, k, text) {
    for (of = 1; of <= 2; of++)
        for (k = 1; k <= lines[of]; k++) {
            text = line[of, k]
            if (number == 19 && text !~ (k == 1 ? "^column=" numeral "$" : "^(sent|got)=[12]," numeral ",(0|[1-9][0-9]*)$")) { print "journal " of ", line " k ": " readable(text); return }
            if (number == 20 && (of, text) in seen) { print "journal " of ", line " k ": " readable(text) ": as line " seen[of, text]; return }
            seen[of, text] = k
        }
    if (number == 21) unsent(1, 2) || unsent(2, 1)
}

# The first line of a journal that got from the owner of the other what that one did not send.
function unsent(of, other, k, parts) {
    for (k = 2; k <= lines[of]; k++) {
        split(substr(line[of, k], 5), parts, ",")
        if (line[of, k] ~ /^got=/ && parts[2] == substr(line[other, 1], 8) && !((other, "sent=" parts[1] "," substr(line[of, 1], 8) "," parts[3]) in seen)) {
            print "journal " of ", line " k ": " readable(line[of, k])
            return 1
        }
    }
    return 0
}

function hints(of, k) {
    for (of = 1; of <= inputs; of++)
        for (k = 1; k <= lines[of]; k++)
            if (line[of, k] ~ /\r$/) { print "line " k " ends in a carriage return: lines end in a newline alone"; of = inputs; break }
    if (total > newlines) print "the last line does not end in a newline"
}
