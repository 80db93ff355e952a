# Fourth error that looks right: to note a hold under the letters of its path.
# Two links lead to one folder, so that one picture has three paths.
10 enter 0
10 mkdir /pictures
10 symlink /old /pictures
10 symlink /new pictures
10 exec
20 enter 500
30 enter 600
20 check /old/fox
# User 600 comes by another path. The letters differ, the name in the folder is the same, and so is the hold.
30 create /new/fox
30 create /pictures/fox
30 check /new/fox
# A process of the same user is not in the way of itself, whatever path it takes.
20 create /pictures/fox
20 unlink /new/fox
