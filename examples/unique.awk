# Each line once, where it stands first.
#     $ rawk -f unique.awk unique.in

!seen[$0]++
