# A total that is too small: which record made it so?
#     $ rawk --debug bad_record.commands -f bad_record.awk bad_record.in
#
# The number of "1,150" ends at its comma, so four chairs cost 4.

{ total += $2 * $3 }
END { print total }
