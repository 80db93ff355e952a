# The log watcher (logwatch, in source document 001): a script of root looks whether its own folder below /tmp is there, makes it if not, and does not mind if
# making it fails. Who makes that folder first decides what is in it.
10 enter 0
10 mkdir /tmp
10 exec
30 enter 600
# The script looks for the name that has its number in it. Nothing is there, and root holds the name.
40 enter 0
40 check /tmp/watch.40
# User 600 has guessed the number and wants to be first, with a link inside that leads elsewhere.
30 mkdir /tmp/watch.40
30 symlink /tmp/watch.40/samba /etc/log.d
# The script makes its folder itself, and what is inside is its own.
40 mkdir /tmp/watch.40
40 create /tmp/watch.40/samba
30 unlink /tmp/watch.40/samba
# Had user 600 made the folder before the script looked, the script would have been told so by its check.
50 enter 0
30 mkdir /tmp/watch.50
50 check /tmp/watch.50
