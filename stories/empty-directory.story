# Second error that looks right: to guard a name that is absent, but not the empty folder around it.
# Folders are known by number. If the folder went and another took its number, the hold would stand on a name elsewhere.
10 enter 0
10 mkdir /in
10 exec
20 enter 500
30 enter 600
20 check /in/fox
# User 600 tries to remove the empty folder and to make another one, which would get the number of the old.
30 rmdir /in
30 mkdir /in
30 mkdir /out
# The name is where it was, and still absent.
20 check /in/fox
20 create /in/fox
# Without the hold and the picture the folder may go, and its number comes back with the next one.
20 unlink /in/fox
20 exec
30 rmdir /in
30 mkdir /new
