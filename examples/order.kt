table
column id int64 key
column v string
session
scan now
insert 20 "b"
insert -7 "minus"
insert 3 ""
scan now
