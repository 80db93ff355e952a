# Access and open (source document 002): a program with root's rights asks whether its user may write a file, and then opens it by name again.
# The user swaps the file for a link between the two, and the program writes where the user may not.
10 enter 0
10 mkdir /etc
10 create /etc/passwd
10 mkdir /tmp
10 exec
30 enter 600
30 create /tmp/race
30 exec
# The program asks. From here on root holds the name.
40 enter 0
40 check /tmp/race
# The swap is two calls, and both are refused.
30 unlink /tmp/race
30 symlink /tmp/race /etc/passwd
# The program opens what it asked about: the same file, by its number.
40 use /tmp/race
# If the link was there before, the program is told what it would really open, and may say no.
40 exit
30 unlink /tmp/race
30 symlink /tmp/race /etc/passwd
50 enter 0
50 check /tmp/race
