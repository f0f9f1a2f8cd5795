# One column of comma-separated values, in which quotes may hold commas and doubled quotes.
#     $ rawk -v column=2 -f csv.awk csv.in

{ print field($0, column) }

function field(line, wanted,    n, text) {
    for (n = 1; n <= wanted; n++) {
        if (match(line, /^"([^"]|"")*"/)) {
            text = substr(line, 2, RLENGTH - 2)
            gsub(/""/, "\"", text)
        } else {
            match(line, /^[^,]*/)
            text = substr(line, 1, RLENGTH)
        }
        line = substr(line, RLENGTH + 2)
    }
    return text
}
