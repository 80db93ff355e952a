# Every number that a call can be refused with, but 1 (see damaged-tables.story) and 18, which only packing a record knows.
10 enter 0
10 mkdir /in
10 create /file
10 symlink /loop loop
10 symlink /left right
10 symlink /right left
10 symlink /link /in
10 exec
20 enter 500
30 enter 600
# 17, the record is cut off: nothing, three bytes, and one byte less than its lengths ask for.
raw
raw 2800a0
raw 2800a000003800 2f696e2f666f
# 2, a number is not allowed: process 0, child 0, an unknown call, a bit that must be 0, an argument that check does not take.
0 check /in
20 fork 0
raw 7000a000000800 2f
raw 2800a000000801 2f
raw 2800a000100800 2f
# 3, a path is not written as it must be.
20 check in
20 check /in/
20 check /in//fox
20 check /in/..
20 check /in/fifteen-letters
20 check /zero\x00byte
20 symlink /a b/
20 symlink /a a23456789/a23456789/a23456789/a23456789/a23456789/a23456789/a2345
20 link /a b
raw 2800a000000000
# 4, the process is not listed.
40 check /in
# 5, it is listed already, as an entering one or as a child.
30 enter 500
20 fork 30
# 7, more than 8 links. 8, a name on the way is missing. 9, a name on the way is a file.
20 check /loop
20 check /left
20 check /in/deep/fox
20 check /file/fox
# 10, there is nothing by that name.
20 use /in/fox
20 unlink /in/fox
20 rmdir /in/fox
20 link /a /in/fox
# 11, the name is taken.
20 create /file
20 mkdir /in
20 symlink /link /
20 create /
20 link /file /link
# 12, what is there is not of the kind that the call takes.
20 unlink /in
20 rmdir /file
20 rmdir /link
20 rmdir /
20 link /a /in
20 link /a /
# 13, the directory is not empty.
20 create /in/a
20 create /in/b
20 rmdir /in
# 14, another user holds it: the name, a link on its way, and a name inside a directory.
30 unlink /in/a
20 check /link/fox
30 unlink /link
20 unlink /in/a
20 unlink /in/b
30 rmdir /in
# 6, 15 and 16 are in the stories of full tables.
