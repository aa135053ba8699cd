table
column id int64 key
column v int64
load 1000
