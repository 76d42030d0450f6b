-- What a gateway needs beside the ledger: passwords of stations, and who serves them.

-- A station's passwords, as salted hashes by scrypt (hexadecimal): one, or two while the station changes to a new one.
create table password (
    station text not null,
    hash text not null,
    salt text not null,
    cost int not null,                          -- n of scrypt
    set_at timestamptz not null,
    seen_at timestamptz,                        -- when the station came with it first
    primary key (station, hash)
);
-- The last connection of each station: its gateway, and its number among that gateway's connections.
create table connection (
    station text primary key,
    gateway text not null,
    number bigint not null,
    since timestamptz not null
);
create index connection_since on connection (since);
create index change_at on change (at);
-- How many transactions a station has open.
create index session_open on session (station) where ended is null;
