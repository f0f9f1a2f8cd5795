# Sales by region, each with its share of the total in percent.
#     $ rawk -f report.awk report.in
#
# A quotient with a remainder is a fault: take the remainder away, then divide.

{ sales[$1] += $2; total += $2 }

END {
    for (region in sales) {
        share = rounded(1000 * sales[region], total)
        printf "%-6s %6d %5s%%\n", region, sales[region], decimal(share)
    }
    printf "%-6s %6d\n", "total", total
}

function quotient(a, b) { return (a - a % b) / b }

# The whole number nearest to a / b, for numbers from 0 on.
function rounded(a, b) { return quotient(2 * a + b, 2 * b) }

# So many tenths as a decimal: 275 is 27.5.
function decimal(tenths) { return quotient(tenths, 10) "." tenths % 10 }
