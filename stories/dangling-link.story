# Third error that looks right: to let create follow a link at the end of the path that leads to nothing.
# User 600 lays out a link under the name that user 500's tool will use, and points it at a file that must not be made.
10 enter 0
10 mkdir /tmp
10 mkdir /etc
10 exec
20 enter 500
30 enter 600
30 symlink /tmp/report /etc/nologin
30 exec
# A create that followed the link would make /etc/nologin, as user 600 wants. This one says that the name is taken.
20 create /tmp/report
20 look /etc/nologin
# Check follows it, and tells that nothing is there: the hold is on /etc/nologin, and on the link.
20 check /tmp/report
30 create /etc/nologin
30 unlink /tmp/report
