table
column id int64 key
column v string
session
insert 1 "a"
delete 1
insert 1 "b"
scan at 4096
scan at 8192
scan at 12288
