{ s += $2; print NR, $1 }
END { print title, s }
