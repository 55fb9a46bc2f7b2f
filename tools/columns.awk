# Prints each line of a script beside the answer that Rehearse gave it, in columns under a heading:
#
#     target/bin/rehearse < SCRIPT | awk -f tools/columns.awk SCRIPT -
#
# A line above 40 columns is cut. A carriage return shows as \r and a tab as \t: a line with either is no call. Where Rehearse ended
# early, the lines without an answer stand alone. Widths are put into the format as text: not every awk knows "%*s".

function row(call, code, running, retry, mark, moved, ahead,    text) {
    text = sprintf("%-" width "s  %4s  %7s  %5s  %4s  %5s  %5s", call, code, running, retry, mark, moved, ahead)
    sub(/ +$/, "", text)
    print text
}

function heading() {
    row("call", "code", "running", "retry", "mark", "moved", "ahead")
}

BEGIN {
    width = length("call")
    sub(/^[A-Za-z_]/, "./&", ARGV[1]) # awk would take a script named a=b for an assignment
}

FILENAME == ARGV[1] {
    gsub(/\r/, "\\r")
    gsub(/\t/, "\\t")
    gsub(/[^ -~]/, ".")
    lines[++count] = length($0) > 40 ? substr($0, 1, 38) ".." : $0
    if (length(lines[count]) > width)
        width = length(lines[count])
    next
}

answered == 0 {
    heading()
}

{
    row(lines[++answered], $1, $2, $3, $4, $5, $6)
}

END {
    if (answered == 0)
        heading()
    while (answered < count)
        row(lines[++answered])
}
