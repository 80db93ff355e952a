# The handover: a process checks a name, hands the work to a child, and leaves. The child has copies of the holds, so that
# there is no moment at which nobody holds the name.
10 enter 0
10 mkdir /in
10 exec
20 enter 500
30 enter 600
20 check /in/fox
20 fork 21
20 exit
30 create /in/fox
21 create /in/fox
# A second child, and the first starts another program: its own holds go, the child's stay.
21 fork 22
21 exec
30 unlink /in/fox
22 exit
30 unlink /in/fox
# The number of a process that left may be used again, by anybody.
20 enter 600
