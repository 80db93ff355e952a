# First error that looks right: to guard only the last name of a path.
# /season is a link to this year's folder; user 500 checks a picture by way of it.
10 enter 0
10 mkdir /spring
10 mkdir /autumn
10 exec
20 enter 500
20 symlink /season /spring
20 exec
30 enter 600
20 check /season/fox
# User 600 does not touch /spring/fox, it bends the link on the way. A guard of the last name alone would let it.
30 unlink /season
30 symlink /season /autumn
# The path still leads where it led when it was checked.
20 check /season/fox
20 create /season/fox
20 look /spring/fox
# When user 500 has let go, the link is free.
20 exec
30 unlink /season
30 symlink /season /autumn
