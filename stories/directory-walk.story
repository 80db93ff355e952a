# The walk of a folder (the file utilities, in source document 002): a tool removes a tree from the inside out. Somebody moves an inner folder away while it is there, and
# going up leads the tool into another part of the disk, which it then removes.
# There is no call that moves a folder here; what is left to the attacker is to remove and make, or to bend a link.
10 enter 0
10 mkdir /home
10 create /home/letter
10 mkdir /tmp
10 exec
20 enter 500
20 mkdir /tmp/a
20 mkdir /tmp/a/b
20 mkdir /tmp/a/b/c
20 create /tmp/a/b/c/file
20 exec
30 enter 600
# The tool looks at each folder before it goes in, and so holds them all.
20 look /tmp/a
20 look /tmp/a/b
20 look /tmp/a/b/c
20 unlink /tmp/a/b/c/file
# The innermost folder is empty now, and user 600 would put a link to /home in its place.
30 rmdir /tmp/a/b/c
30 symlink /tmp/a/b/c /home
# The tool goes on from the inside out by paths that lead where they led, and a link is never gone into as a folder.
20 rmdir /tmp/a/b/c
30 symlink /tmp/a/b/c /home
20 rmdir /tmp/a/b
30 mkdir /tmp/a/b
20 rmdir /tmp/a
20 exec
20 look /home/letter
