# Rows to columns.
#     $ rawk -f transpose.awk transpose.in

{
    for (i = 1; i <= NF; i++)
        cell[NR, i] = $i
    if (NF > width)
        width = NF
}

END {
    for (i = 1; i <= width; i++) {
        line = cell[1, i]
        for (row = 2; row <= NR; row++)
            line = line " " cell[row, i]
        print line
    }
}
