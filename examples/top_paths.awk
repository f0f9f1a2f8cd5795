# The three paths of an access log that were asked for most often, without their queries.
#     $ rawk -f top_paths.awk top_paths.in | sort -k1,1nr -k2 | head -3

NF >= 7 { sub(/\?.*/, "", $7); hits[$7]++ }

END { for (path in hits) print hits[path], path }
