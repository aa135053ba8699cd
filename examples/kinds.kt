table
column host string key
column tick int64 key
column cpu int32 nullable
column up bool default true
session
insert "db1" 100 57 true ; insert "db2" 100 null false
upsert "db1" 100 cpu=58 ; upsert "web" 90 cpu=1
scan now select host,cpu where cpu>0
