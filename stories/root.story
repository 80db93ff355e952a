# Root is not stopped by holds: it takes a name over, and who held it is not warned.
10 enter 0
10 mkdir /in
10 exec
20 enter 500
30 enter 600
20 check /in/fox
# Root's check takes over the end of the path, and now user 500 is the one who only sees.
10 check /in/fox
20 check /in/fox
20 create /in/fox
30 create /in/fox
# Root's creation and removal drop all holds of others on that name.
10 exec
20 check /in/fox
10 create /in/fox
20 unlink /in/fox
10 exec
20 use /in/fox
10 unlink /in/fox
# A link that somebody followed stays held when root checks it, and is lost when root removes it.
10 symlink /way /in
10 exec
20 check /way/fox
10 look /way
30 unlink /way
10 unlink /way
