table
column id int64 key
column name string
column seats int32 default 4
session
insert 1 "north" 12
insert 2 "south" 8 ; insert 3 "west" 6
scan at 4096
scan now
session
update 1 seats=14
delete 2
scan at 12288 select name,seats
mark 16384
scan at 8192
