# Minutes are missing from a total: who changed the loop's variable?
#     $ rawk --debug overwritten.commands -f overwritten.awk overwritten.in
#
# The function has no i behind its parameters, so its loop counts in the rule's i.

{ for (i = 2; i <= NF; i++) total += minutes($i) }
END { print total " minutes" }

function minutes(time,    part, n, sum) {
    n = split(time, part, ":")
    for (i = 1; i <= n; i++)
        sum = sum * 60 + part[i]
    return sum
}
