pragma page_size = 4096;
pragma application_id = 1785688180;
pragma user_version = 1;
create table meta (key TEXT PRIMARY KEY, value BLOB NOT NULL) STRICT;
create table rows (id TEXT PRIMARY KEY, sealed INTEGER NOT NULL, content BLOB NOT NULL, base BLOB, pending INTEGER NOT NULL) STRICT;
create table deletions (id TEXT PRIMARY KEY, resource INTEGER NOT NULL) STRICT;
create table conflicts (number INTEGER PRIMARY KEY, note TEXT NOT NULL, content BLOB NOT NULL) STRICT;
create table blobs (id TEXT PRIMARY KEY, bytes BLOB NOT NULL) STRICT;
