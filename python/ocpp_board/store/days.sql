-- What closings froze, and what people decided about sessions and their money. One text for SQLite and PostgreSQL.
-- Energies are mWh, moments UTC. Nothing here changes a line or a figure of the ledger.

-- A closing of a site: all periods up to the end of a day in the site's zone, by the rules of that time.
create table closing (
    site text /*postgresql collate "C"*/ not null,
    closing bigint not null,
    day date not null,
    until timestamptz not null,
    at timestamptz not null,
    who text not null,
    period bigint not null,
    reading_order text not null,
    settle text not null,
    zone text not null,
    primary key (site, closing)
);

-- What a closing saw of each session that had changed since the closing before. `settled`: 'complete' or 'rule', and
-- null while the session is open; `whole`: the session has no moment and no period behind the closing's end.
create table closed_session (
    station text /*postgresql collate "C"*/ not null,
    transaction_id text /*postgresql collate "C"*/ not null,
    closing bigint not null,
    site text /*postgresql collate "C"*/ not null,
    lines bigint not null,
    changed_at timestamptz not null,
    whole boolean not null,
    settled text,
    evse bigint,
    events bigint not null,
    missing bigint not null,
    up bigint not null,
    down bigint not null,
    export_up bigint not null,
    export_down bigint not null,
    primary key (station, transaction_id, closing)
) /*postgresql partition by hash (station)*/;
create index closed_session_of_site on closed_session (site, closing);

-- By how much a closing changed what is settled of a session in a period. The first row of a period has all of it, each
-- further one a difference; so sums are what is settled. `parts`: 1 where the period came on the board, -1
-- where it went; `estimated`: the same for a period whose figure is not measured.
create table closed_part (
    station text /*postgresql collate "C"*/ not null,
    transaction_id text /*postgresql collate "C"*/ not null,
    starts timestamptz not null,
    closing bigint not null,
    site text /*postgresql collate "C"*/ not null,
    parts bigint not null,
    estimated bigint not null,
    up bigint not null,
    down bigint not null,
    export_up bigint not null,
    export_down bigint not null,
    primary key (station, transaction_id, starts, closing)
) /*postgresql partition by hash (station)*/;
create index closed_part_of_site on closed_part (site, closing);

-- Sessions that somebody settled by rule, though messages lack.
create table rule_settled (
    station text /*postgresql collate "C"*/ not null,
    transaction_id text /*postgresql collate "C"*/ not null,
    site text /*postgresql collate "C"*/ not null,
    at timestamptz not null,
    who text not null,
    why text not null,
    primary key (station, transaction_id)
);

-- A declared fact beside the ledger's number: a meter that was exchanged or rolled over, a session closed by estimate,
-- a credit. `at`: the moment that it counts at.
create table adjustment (
    station text /*postgresql collate "C"*/ not null,
    number bigint not null,
    transaction_id text /*postgresql collate "C"*/ not null,
    site text /*postgresql collate "C"*/ not null,
    kind text not null,
    at timestamptz not null,
    imported bigint not null,
    exported bigint not null,
    detail text not null,
    made_at timestamptz not null,
    who text not null,
    why text not null,
    primary key (station, number)
);

-- A hold that somebody released: for the figures that the session had then.
create table release (
    station text /*postgresql collate "C"*/ not null,
    transaction_id text /*postgresql collate "C"*/ not null,
    kind text not null,
    up bigint not null,
    down bigint not null,
    export_up bigint not null,
    export_down bigint not null,
    at timestamptz not null,
    who text not null,
    why text not null,
    primary key (station, transaction_id, kind, at)
);

-- The code of the metering point of a site, or of one EVSE of a station. A site's has an empty station and EVSE -1.
create table metering_point (
    site text /*postgresql collate "C"*/ not null,
    station text /*postgresql collate "C"*/ not null default '',
    evse bigint not null default -1,
    code text not null,
    primary key (site, station, evse)
);

-- Sessions whose lines and rows left the store for files. A message of one begins it anew.
create table exported_session (
    station text /*postgresql collate "C"*/ not null,
    transaction_id text /*postgresql collate "C"*/ not null,
    site text /*postgresql collate "C"*/ not null,
    began timestamptz,
    file text not null,
    at timestamptz not null,
    primary key (station, transaction_id, at)
);
