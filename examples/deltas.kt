table
column id int64 key
column v string
session
insert 1 "a" ; insert 2 "b"
flush
update 1 v="A"
flush-deltas
delete 2
flush-deltas
minor
scan at 4096
scan now
major
insert 2 "c"
flush
scan at 8192
scan at 12288
scan now
