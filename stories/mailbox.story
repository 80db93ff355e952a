# The mailbox (sendmail, in source document 001): a mail program looks whether a user's mailbox is a plain file and then writes to it. Between the two the owner
# of the mailbox puts a link to the list of passwords in its place, and the mail becomes a line in that list.
10 enter 0
10 mkdir /etc
10 create /etc/passwd
10 mkdir /mail
10 exec
30 enter 600
30 create /mail/mallory
30 exec
# The mail program runs as root. It looks at the name without following a link, and holds it.
40 enter 0
40 look /mail/mallory
# Now the owner acts, but can neither remove the mailbox nor make the link.
30 unlink /mail/mallory
30 symlink /mail/mallory /etc/passwd
# The mail goes where it was meant to go.
40 use /mail/mallory
40 exit
