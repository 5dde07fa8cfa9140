# Makes a routine the line of a case, as replay and why read it (crates/cases). The input has one number to a line: those of the text, then after a
# line `registers` those of the list. The output is the line `input` where the bench program would print that for the text, where the list is not
# of such numbers either, or where it has more words than the programs take, 70,000: that is more than any memory holds.

# The digits of a number without leading zeros. Up to ten of them are exact in the arithmetic of awk.
function digits(line) {
    sub(/^0+/, "", line)
    if (line ~ /[^0-9]/ || length(line) > 10 || line + 0 > 4294967295) bad = 1
    return line == "" ? "0" : line
}

# Separators that stand together leave empty lines.
$0 == "" { next }
$0 == "registers" { in_list = 1; next }
in_list { list[listed++] = digits($0) }
!in_list { text[read++] = digits($0) }

END {
    inputs = text[1] + 0
    table = 2 + inputs
    if (bad || read < table || text[0] + 0 > 4096 || inputs > 64 || read - table > 2472 || listed > 70000) {
        print "input"
        exit
    }
    printf "%s 0 %s %s %s 0 %s", call, text[0], text[0], text[0], inputs
    for (i = 2; i < table; i++) printf " %s", text[i]
    printf " %d", listed
    for (i = 0; i < listed; i++) printf " %s", list[i]
    printf " %d", read - table
    for (i = table; i < read; i++) printf " %s", text[i]
    print ""
}
