# One article too many is counted, and its sale is free: where does it come from?
#     $ rawk --debug lookup.commands -f lookup.awk lookup.in
#
# Reading price[$2] makes the element; a test by $2 in price would not.

$1 == "price" { price[$2] = $3 }
$1 == "sale"  { total += price[$2] * $3 }
END           { print length(price) " articles, total " total }
