# Prints how the structs of crates/sctp_slots/src and crates/sctp_c/src are laid out, by the rules of C, as
# host/layout.txt lists the header's; or, if `library` is `channels`, those of crates/sctp_channels_c/src, as
# host/layout_channels.txt does.
BEGIN {
    split("bool u8 u16 u32 u64 usize *mut", types)
    split("1 1 2 4 8 8 8", sizes)
    for (k in types)
        size[types[k]] = align[types[k]] = sizes[k]
    align["Global"] = 1
    if (library == "channels") {
        split("ChannelsSlot Options Told Info", structs)
        split("sctp_channels sctp_channels_options sctp_channels_event sctp_channels_info", names)
    } else {
        split("Slot Config Identity Token Counters Told Totals PathValues Watch", structs)
        split("sctp_assoc sctp_assoc_config sctp_assoc_identity sctp_assoc_token sctp_assoc_counters" \
            " sctp_assoc_event sctp_assoc_totals sctp_assoc_path_values sctp_assoc_watch", names)
    }
    field_of["handle"] = "at"
}

/^pub struct .* \{$/ { struct = $3 }

# A field: its name and its type. What is ghost takes no room.
struct && /^    (pub )?[a-z_]+: / {
    sub(/^    (pub )?/, "")
    k = ++count[struct]
    field[struct, k] = substr($1, 1, length($1) - 1)
    type[struct, k] = $2
    sub(/,$/, "", type[struct, k])
    elements[struct, k] = type[struct, k] ~ /^\[/ ? $3 + 0 : 1
    gsub(/^\[|;$/, "", type[struct, k])
}

struct && /^}/ { struct = "" }

function up_to(offset, boundary) {
    return int((offset + boundary - 1) / boundary) * boundary
}

# Sets the size of a type and to what it is aligned, and where the fields of a struct lie.
function lay_out(name,    k, offset, boundary) {
    if (name in align)
        return
    if (!count[name]) {
        print "host/layout.awk knows no type " name > "/dev/stderr"
        exit 1
    }
    boundary = 1
    for (k = 1; k <= count[name]; k++) {
        lay_out(type[name, k])
        offset = up_to(offset, align[type[name, k]])
        place[name, k] = offset
        offset += elements[name, k] * size[type[name, k]]
        boundary = boundary > align[type[name, k]] ? boundary : align[type[name, k]]
    }
    size[name] = up_to(offset, boundary)
    align[name] = boundary
}

END {
    for (s = 1; s in structs; s++) {
        lay_out(structs[s])
        print names[s], size[structs[s]]
        for (k = 1; k <= count[structs[s]]; k++) {
            called = field[structs[s], k]
            print names[s] "." (called in field_of ? field_of[called] : called), place[structs[s], k],
                elements[structs[s], k] * size[type[structs[s], k]]
        }
    }
}
