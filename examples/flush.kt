table
column id int64 key
column v string
session
insert 1 "a" ; insert 2 "b"
update 1 v="A"
delete 2
flush
insert 2 "c"
update 1 v="z"
scan at 4096
scan at 8192
scan at 12288
scan now
flush
scan at 8192
scan now where v="c"
