-- The views of a store, once for SQLite and PostgreSQL, as schema.sql is. Each has a sentence, its names are stable, and
-- no figure is computed in two of them. Energies are mWh, but in `energy`, which has kWh.

-- The figures of each station and site where it has transactions, or where it is planned, as a board's total line.
create view board_station as
    select site, station,
        cast(sum(events) as bigint) as events, cast(sum(voided) as bigint) as voided,
        cast(sum(case when events > 0 then 1 else 0 end) as bigint) as transactions,
        cast(sum(case when complete then 1 else 0 end) as bigint) as complete_transactions,
        cast(sum(missing) as bigint) as missing,
        cast(sum(up) as bigint) as up, cast(sum(down) as bigint) as down,
        cast(sum(export_up) as bigint) as export_up, cast(sum(export_down) as bigint) as export_down
    from session group by site, station
    union all
    select t.site, t.station, 0, 0, 0, 0, 0, 0, 0, 0, 0 from station t
    where not exists (select 1 from session s where s.site = t.site and s.station = t.station);

-- The figures of each site: the sums over its transactions.
create view board_site as
    select site,
        cast(sum(events) as bigint) as events, cast(sum(voided) as bigint) as voided,
        cast(sum(case when events > 0 then 1 else 0 end) as bigint) as transactions,
        cast(sum(case when complete then 1 else 0 end) as bigint) as complete_transactions,
        cast(sum(missing) as bigint) as missing,
        cast(sum(up) as bigint) as up, cast(sum(down) as bigint) as down,
        cast(sum(export_up) as bigint) as export_up, cast(sum(export_down) as bigint) as export_down
    from session group by site
    union all
    select i.site, 0, 0, 0, 0, 0, 0, 0, 0, 0 from site i
    where not exists (select 1 from session s where s.site = i.site);

-- The energy of each EVSE of a station; EVSE 0 is that of transactions that name none.
create view board_evse as
    select site, station, evse, count(*) as transactions,
        cast(sum(up) as bigint) as up, cast(sum(down) as bigint) as down,
        cast(sum(export_up) as bigint) as export_up, cast(sum(export_down) as bigint) as export_down
    from session where events > 0 group by site, station, evse;

-- The energy of each settlement period of an EVSE, and how it was come by: how many sessions' figures are `estimated`,
-- and how many of these by values that meters sent beside their registers. A board shows those with `on_board`.
create view evse_period as
    select s.site, p.station, s.evse, p.starts,
        cast(sum(p.up) as bigint) as up, cast(sum(p.down) as bigint) as down,
        cast(sum(p.export_up) as bigint) as export_up, cast(sum(p.export_down) as bigint) as export_down,
        max(case when p.on_board then 1 else 0 end) as shown,
        sum(case when p.measured then 0 else 1 end) as estimated,
        count(case when s.energy_measured <> 'yes' and not p.measured then p.by_values end) as by_values,
        cast(coalesce(sum(coalesce(case when s.energy_measured <> 'yes' then p.by_values end, p.shared)), 0) as bigint)
            as shared,
        max(case when p.numbers_missing then 1 else 0 end) as lacks_numbers
    from part p join session s on s.station = p.station and s.transaction_id = p.transaction_id
    group by s.site, p.station, s.evse, p.starts;

-- The energy of each settlement period of a station: those that its board shows (`shown`), and those of which only
-- values beside registers say something.
create view board_period as
    select s.site, p.station, p.starts,
        cast(sum(p.up) as bigint) as up, cast(sum(p.down) as bigint) as down,
        cast(sum(p.export_up) as bigint) as export_up, cast(sum(p.export_down) as bigint) as export_down,
        max(case when p.on_board then 1 else 0 end) as shown,
        sum(case when p.measured then 0 else 1 end) as estimated,
        count(case when s.energy_measured <> 'yes' and not p.measured then p.by_values end) as by_values,
        cast(coalesce(sum(coalesce(case when s.energy_measured <> 'yes' then p.by_values end, p.shared)), 0) as bigint)
            as shared,
        max(case when p.numbers_missing then 1 else 0 end) as lacks_numbers
    from part p join session s on s.station = p.station and s.transaction_id = p.transaction_id
    group by s.site, p.station, p.starts having max(case when p.on_board then 1 else 0 end) = 1
        or count(case when s.energy_measured <> 'yes' and not p.measured then p.by_values end) > 0;

-- The same of a site.
create view board_site_period as
    select s.site, p.starts,
        cast(sum(p.up) as bigint) as up, cast(sum(p.down) as bigint) as down,
        cast(sum(p.export_up) as bigint) as export_up, cast(sum(p.export_down) as bigint) as export_down,
        max(case when p.on_board then 1 else 0 end) as shown,
        sum(case when p.measured then 0 else 1 end) as estimated,
        count(case when s.energy_measured <> 'yes' and not p.measured then p.by_values end) as by_values,
        cast(coalesce(sum(coalesce(case when s.energy_measured <> 'yes' then p.by_values end, p.shared)), 0) as bigint)
            as shared,
        max(case when p.numbers_missing then 1 else 0 end) as lacks_numbers
    from part p join session s on s.station = p.station and s.transaction_id = p.transaction_id
    group by s.site, p.starts having max(case when p.on_board then 1 else 0 end) = 1
        or count(case when s.energy_measured <> 'yes' and not p.measured then p.by_values end) > 0;

-- The energy of each period of an EVSE in kWh, with the day and the time that clocks at the site show at its start.
create view energy as
    select e.site, e.station, e.evse, e.starts, i.period as seconds,
        /*sqlite strftime('%Y-%m-%d', e.starts, z.seconds || ' seconds')*/
        /*postgresql to_char(e.starts at time zone 'UTC' + z.seconds * interval '1 second', 'YYYY-MM-DD')*/ as local_day,
        /*sqlite strftime('%Y-%m-%d %H:%M', e.starts, z.seconds || ' seconds')*/
        /*postgresql to_char(e.starts at time zone 'UTC' + z.seconds * interval '1 second', 'YYYY-MM-DD HH24:MI')*/
            as local_start,
        round(e.up / 1000000.0, 6) as up_kwh, round(e.down / 1000000.0, 6) as down_kwh,
        round(e.export_up / 1000000.0, 6) as export_up_kwh, round(e.export_down / 1000000.0, 6) as export_down_kwh,
        round((e.up - e.down - e.export_up + e.export_down) / 1000000.0, 6) as net_kwh,
        case when e.estimated = 0 then 'measured' when e.by_values = e.estimated then 'estimated by meter values'
            else 'estimated' end as figure,
        round(e.shared / 1000000.0, 6) as shared_kwh,
        case when e.lacks_numbers = 1 then 'yes' else 'no' end as lacks_numbers
    from evse_period e join site i on i.site = e.site
    join zone_offset z on z.zone = i.zone and e.starts >= z.since and e.starts < z.until;

-- The transactions that are not complete and that nobody settled by rule: what they lack, what they imported so far, and
-- when something came of them last (`heard_at`), by receipt where that is known. Running ones are those of which
-- something came lately.
create view lacking as
    select s.site, s.station, s.transaction_id, s.sent_id, s.evse, s.state, s.missing, s.gaps, s.first_at, s.last_at,
        s.received_until, s.changed_at, s.up - s.down as imported, coalesce(s.received_until, s.last_at) as heard_at,
        s.energy_measured
    from session s /*sqlite indexed by session_lacking*/
    left join rule_settled r on r.station = s.station and r.transaction_id = s.transaction_id
    where s.events > 0 and not s.complete and s.state not like 'messages complete%' and r.station is null;

-- When something was heard of each planned station last, and the last moment that a transaction of it names.
create view silent_station as
    select t.site, t.station, t.heard_at,
        (select max(s.last_at) from session s where s.station = t.station) as last_at,
        (select max(s.received_until) from session s where s.station = t.station) as received_until
    from station t where t.until is null;

-- What was refused and changed nothing, messages of unknown stations included, by station, transaction, number, cause
-- and decision: how often, since when. `decision` is empty while nobody decided what becomes of it.
create view refused as
    select coalesce(t.site, r.site) as site, r.station, r.transaction_id, r.sent_id, r.sent_number, r.number, r.cause,
        r.what, r.advice, cast(sum(r.times) as bigint) as times, min(r.first_at) as first_at, max(r.last_at) as last_at,
        min(r.text) as text, r.decision, min(r.decided_by) as decided_by, min(r.decided_why) as decided_why
    from (
        select site, station, transaction_id, sent_id, sent_number, number, cause, what, advice, times, first_at,
            last_at, text, decision, decided_by, decided_why
        from refusal
        union all
        select site, station, transaction_id, sent_id, cast(number as text), number, 'UnknownStation',
            'no station ''' || station || ''' is declared',
            'add it by `plan station ' || station || ' --site SITE`: what came is taken then',
            times, first_at, last_at, text, '', '', ''
        from stray) r
    left join station t on t.station = r.station
    group by coalesce(t.site, r.site), r.station, r.transaction_id, r.sent_id, r.sent_number, r.number, r.cause, r.what,
        r.advice, r.decision;
