# Failed logins by address, the most frequent first.
#     $ rawk -f count.awk count.in | sort -k1,1nr -k2

/Failed password/ {
    for (i = 1; i < NF; i++)
        if ($i == "from")
            failed[$(i + 1)]++
}

END { for (address in failed) print failed[address], address }
