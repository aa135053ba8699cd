table
column id int64 key
column v string
session
insert 1 "a"
insert 1 "a"
