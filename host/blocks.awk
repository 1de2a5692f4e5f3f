# Prints the blocks of code of a page that are in this language: awk -v language=c -f host/blocks.awk PAGE
# With -v only="..." those of the section of this heading, with -v without="...|..." those of all sections but these.
!open && /^## / { section = substr($0, 4) }
/^```/ {
    if (taken)
        print ""
    taken = !open && $0 == "```" language && (only == "" || section == only) &&
        (without == "" || section !~ "^(" without ")$")
    open = !open
    next
}
taken { print }
