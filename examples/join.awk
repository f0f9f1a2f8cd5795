# Joins two files on their first field. They come as one input, with a line of dashes between them.
#     $ (cat join.names; echo ---; cat join.hours) | rawk -f join.awk

$0 == "---" { second = 1; next }
!second     { name[$1] = $2; next }
            { print ($1 in name ? name[$1] : "unknown " $1), $2 }
