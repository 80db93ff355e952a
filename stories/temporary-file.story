# The temporary file (source document 004): a tool asks for a name that nobody has, finds nothing there, and then makes the file and writes to it.
# Somebody who saw the name puts a link there, to a file of the tool's user that should not be hurt, or to one that is not there yet.
10 enter 0
10 mkdir /tmp
10 mkdir /home
10 exec
20 enter 500
20 create /home/precious
20 exec
30 enter 600
20 check /tmp/t0lz388d
# A link to a file that is there, and a link that dangles: neither can be made while the tool holds the name.
30 symlink /tmp/t0lz388d /home/precious
30 symlink /tmp/t0lz388d /home/.rhosts
20 create /tmp/t0lz388d
20 use /tmp/t0lz388d
# Where the link is there first, create does not follow it, and the tool takes another name.
30 symlink /tmp/t0pojidz /home/precious
20 check /tmp/t0pojidz
20 create /tmp/t0pojidz
