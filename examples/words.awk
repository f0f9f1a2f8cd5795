# How often each word stands in a text, the most frequent first.
#     $ rawk -f words.awk words.in | sort -k1,1nr -k2 | head -5

{
    $0 = tolower($0)
    gsub(/[^a-z']+/, " ")
    for (i = 1; i <= NF; i++)
        count[$i]++
}

END { for (word in count) print count[word], word }
