# The settings of an ini file as section.key=value, without comments and the blanks around them.
#     $ rawk -f ini.awk ini.in

/^[[:blank:]]*([#;]|$)/ { next }

match($0, /\[[^]]*\]/) && !index($0, "=") {
    section = trimmed(substr($0, RSTART + 1, RLENGTH - 2))
    next
}

at = index($0, "=") {
    print section "." trimmed(substr($0, 1, at - 1)) "=" trimmed(substr($0, at + 1))
}

function trimmed(text) {
    gsub(/^[[:blank:]]+|[[:blank:]]+$/, "", text)
    return text
}
