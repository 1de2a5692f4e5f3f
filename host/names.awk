# Writes the rows of host/names.c, one for each number of the headers that has a name to print: the call that gives it,
# the number, and the name. Stops at a number of which it is not said here whether it has one.
/^\/\* ---- / { section = $3 }

/^#define SCTP_(ASSOC|CHANNELS)_/ && $3 ~ /^[0-9A-Z]/ {
    split($2, words, "_")
    library = words[2] == "ASSOC" ? "assoc" : "channels"
    group = words[3]
    name = substr($2, length("SCTP_" words[2] "_") + 1)
    if (group ~ /^(EVENT|REASON|END|STATE)$/)
        row(library "_" tolower(group), substr(name, length(group) + 2))
    else if (section == "Codes") {
        row("channels_code", name)
        if (library == "assoc")
            row("assoc_code", name)
    } else if (name ~ /^(TAKEN|NO_PACKET|OTHER_TAG|REPEATED_INIT|OTHER_INIT)$/)
        row("assoc_fate", name)
    else if (group !~ /^(VERSION|PROFILE|PPID|MAX)$/ && name !~ /^(NO_LIMIT|RELIABLE|REXMIT|TIMED|CLIENT|SERVER)$/) {
        print "host/names.awk: has " $2 " a name to print?" > "/dev/stderr"
        exit 1
    }
}

function row(call, name) {
    printf "{sctp_%s_name, %s, \"%s\"},\n", call, $2, name
}
