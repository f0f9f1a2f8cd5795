# Paragraphs, wrapped at 72 bytes.
#     $ rawk -f wrap.awk wrap.in

BEGIN { RS = ""; width = 72 }

{
    if (NR > 1)
        print ""
    line = $1
    for (i = 2; i <= NF; i++)
        if (length(line) + 1 + length($i) <= width)
            line = line " " $i
        else {
            print line
            line = $i
        }
    print line
}
