# The users of each shell in /etc/passwd.
#     $ rawk -F: -f shells.awk shells.in

NF >= 7 { users[$7] = users[$7] " " $1; count[$7]++ }

END { for (shell in users) print shell " (" count[shell] "):" users[shell] }
