# Looks whether each block of Rattle code of a page stands in a source, word for word:
#   awk -f host/quotes.awk SOURCE PAGE
FNR == NR { source = source $0 "\n"; next }
/^```/ {
    if (quoted && !index(source, block)) {
        print FILENAME " quotes what is not in the source:\n" block
        missing = 1
    }
    quoted += $0 == "```rattle"
    if ($0 == "```")
        quoted = 0
    block = ""
    next
}
quoted { block = block $0 "\n" }
END { exit missing }
