# The fox. Root makes the folder for pictures that come in, and lets go of it.
10 enter 0
10 mkdir /in
10 exec
# An importer (user 500) and somebody's script (user 600) start.
20 enter 500
30 enter 600
# The importer looks whether there is a fox already. There is none, and from now on its user holds the name.
20 check /in/fox
# The script would now put an old draft under that name, and the importer would write into it. It cannot.
30 create /in/fox
30 check /in/fox
# The importer makes its picture; the script cannot take it away either, until the importer is gone.
20 create /in/fox
30 unlink /in/fox
20 exit
30 unlink /in/fox
