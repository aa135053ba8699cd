table
column id int64 key
column v string
session
insert 1 "a" ; insert 2 "b" ; insert 3 "c"
flush
delete 1
insert 1 "d"
flush
update 1 v="e"
delete 2
compact
scan at 4096
scan at 8192
scan at 12288
scan now
mark 16384
compact
scan at 16384
scan now
