table
column id int64 key
column v string
session
insert 1 "a"
insert-ignore 1 "b" ; insert-ignore 2 "c"
update-ignore 9 v="x" ; delete-ignore 2
scan now
