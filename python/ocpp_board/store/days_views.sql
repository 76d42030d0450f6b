-- Views of what is settled, held and adjusted. One text for SQLite and PostgreSQL.

-- What closings settled of a station's periods: the sums of their rows, how many later closings changed them, and the
-- last closing that did.
create view settled_period as
select p.site, p.station, p.starts, cast(sum(p.up) as bigint) as up, cast(sum(p.down) as bigint) as down,
    cast(sum(p.export_up) as bigint) as export_up, cast(sum(p.export_down) as bigint) as export_down,
    cast(sum(p.up - p.down - p.export_up + p.export_down) as bigint) as net,
    sum(p.estimated) = 0 as measured,
    count(distinct case when p.starts < o.until then p.closing end) as corrections, max(p.closing) as closing
from closed_part p left join closing o on o.site = p.site and o.closing = p.closing - 1
group by p.site, p.station, p.starts
having sum(p.parts) > 0;

-- The state of each session: provisional (no closing settled it, or a line came or its figures changed since), settled,
-- or corrected (a later closing settled another figure). `settled`: 'complete', by 'rule', or null.
create view session_state as
select s.site, s.station, s.transaction_id,
    case when l.settled is null or l.lines <> s.lines or l.up <> s.up or l.down <> s.down
            or l.export_up <> s.export_up or l.export_down <> s.export_down then 'provisional'
        when exists (
            select 1 from closed_session b
            where b.station = s.station and b.transaction_id = s.transaction_id and b.settled is not null
                and (b.up <> l.up or b.down <> l.down or b.export_up <> l.export_up
                    or b.export_down <> l.export_down)) then 'corrected'
        else 'settled' end as state,
    l.settled, l.closing
from session s left join closed_session l
    on l.station = s.station and l.transaction_id = s.transaction_id and l.closing = (
        select max(b.closing) from closed_session b
        where b.station = s.station and b.transaction_id = s.transaction_id);

-- A session's energy by the ledger, the declared adjustments, and both together.
create view adjusted_session as
select site, station, transaction_id, imported, exported, adjusted_import, adjusted_export,
    imported + adjusted_import as import_sum, exported + adjusted_export as export_sum, adjustments
from (
    select s.site, s.station, s.transaction_id, s.up - s.down as imported, s.export_up - s.export_down as exported, (
            select cast(coalesce(sum(a.imported), 0) as bigint) from adjustment a
            where a.station = s.station and a.transaction_id = s.transaction_id) as adjusted_import, (
            select cast(coalesce(sum(a.exported), 0) as bigint) from adjustment a
            where a.station = s.station and a.transaction_id = s.transaction_id) as adjusted_export, (
            select count(*) from adjustment a
            where a.station = s.station and a.transaction_id = s.transaction_id) as adjustments
    from session s) s;

-- Releases that count: the last one of a session and a kind, if the session has the figures that it was made for.
create view good_release as
select r.station, r.transaction_id, r.kind, r.who, r.why, r.at
from release r join session s on s.station = r.station and s.transaction_id = r.transaction_id
    and s.up = r.up and s.down = r.down and s.export_up = r.export_up and s.export_down = r.export_down
where r.at = (
    select max(l.at) from release l
    where l.station = r.station and l.transaction_id = r.transaction_id and l.kind = r.kind);

-- The kinds of findings by which a session's energy is wrong.
create view hold_kind as
select column1 as kind from (values ('power that cannot be'), ('more power than before'), ('signed value differs'),
    ('value in another unit'), ('register reset or exchanged'), ('register falls'), ('energy differs by order'),
    ('begin listed behind the end'), ('transaction id used again'), ('sessions overlap'), ('two EVSEs with one meter'))
    as k;

-- Why a session is not billed before somebody looked at it: a finding by which its energy is wrong, an energy below
-- 0, or lines that left for a file before.
-- `released_by` and `why`: who released it, for the figures that it has; empty while it is held.
create view hold as
select h.site, h.station, h.transaction_id, h.kind, h.detail, coalesce((
        select r.who from good_release r
        where r.station = h.station and r.transaction_id = h.transaction_id and r.kind = h.kind), '') as released_by,
    coalesce((
        select r.why from good_release r
        where r.station = h.station and r.transaction_id = h.transaction_id and r.kind = h.kind), '') as why, (
        select r.at from good_release r
        where r.station = h.station and r.transaction_id = h.transaction_id and r.kind = h.kind) as released_at,
    h.began_at, h.last_day
from (
    select site, station, transaction_id, kind, detail, began_at, last_day from session_finding
    where kind in (select k.kind from hold_kind k)
    union all
    select s.site, s.station, s.transaction_id, 'negative energy', '', coalesce(s.began, s.first_at), s.last_day
    from session s join adjusted_session a on a.station = s.station and a.transaction_id = s.transaction_id
    where a.import_sum < 0 or a.export_sum < 0
    union all
    select s.site, s.station, s.transaction_id, 'earlier lines are in a file', e.file, coalesce(s.began, s.first_at),
        s.last_day
    from session s join exported_session e on e.station = s.station and e.transaction_id = s.transaction_id) h;

-- How many findings each session has, and how many holds that nobody released: the rows of `session_finding` and `hold`,
-- of which SQLite would read those of all sessions here.
create view session_doubt as
select s.station, s.transaction_id,
    (select count(*) from finding f where f.station = s.station and f.transaction_id = s.transaction_id)
    + (select count(*) from evse_doubt c where c.station = s.station and c.transaction_id = s.transaction_id)
    + (select count(*) from evse_next n where n.station = s.station and n.transaction_id = s.transaction_id and n.next_at >= n.last_at)
    + s.meters + s.powers
    + case when s.events > 0 and exists (
            select 1 from refusal r where r.station = s.station and r.transaction_id = s.transaction_id and r.decision = '')
        then 1 else 0 end as findings,
    (select count(*) from finding f where f.station = s.station and f.transaction_id = s.transaction_id
        and f.kind in (select h.kind from hold_kind h) and not exists (
            select 1 from good_release r where r.station = s.station and r.transaction_id = s.transaction_id and r.kind = f.kind))
    + case when s.overlaps > 0 and not exists (
            select 1 from good_release r where r.station = s.station and r.transaction_id = s.transaction_id and r.kind = 'sessions overlap') then s.overlaps else 0 end
    + case when s.meters > 0 and not exists (
            select 1 from good_release r where r.station = s.station and r.transaction_id = s.transaction_id and r.kind = 'two EVSEs with one meter') then s.meters else 0 end
    + case when s.powers > 0 and not exists (
            select 1 from good_release r where r.station = s.station and r.transaction_id = s.transaction_id and r.kind = 'more power than before') then s.powers else 0 end
    + (select count(*) from adjusted_session a where a.station = s.station and a.transaction_id = s.transaction_id
        and (a.import_sum < 0 or a.export_sum < 0) and not exists (
            select 1 from good_release r where r.station = s.station and r.transaction_id = s.transaction_id and r.kind = 'negative energy'))
    + (select count(*) from exported_session e where e.station = s.station and e.transaction_id = s.transaction_id
        and not exists (
            select 1 from good_release r where r.station = s.station and r.transaction_id = s.transaction_id and r.kind = 'earlier lines are in a file')) as holds
from (
    select s.station, s.transaction_id, s.events,
        (select count(*) from evse_doubt o where o.station = s.station and o.transaction_id = s.transaction_id
            and o.kind = 'sessions overlap') as overlaps,
        (select count(*) from one_meter m where m.station = s.station and m.transaction_id = s.transaction_id)
        + (select count(*) from one_meter m where m.station = s.station and m.before_id = s.transaction_id) as meters,
        (select count(*) from power_step p where p.station = s.station and p.transaction_id = s.transaction_id and p.usual is not null) as powers
    from session s) s;

-- What the last closing that saw a session settled of it ('complete', or by 'rule'), and what is beside that now: the
-- adjustments and the sum with them, whether readings say its energy, findings, and holds that nobody released.
create view settled_session as
select c.site, c.station, c.transaction_id, c.settled, c.closing, n.day, n.at, c.evse, c.events, c.missing, c.lines,
    c.up, c.down, c.export_up, c.export_down, c.up - c.down - c.export_up + c.export_down as net,
    a.adjustments, a.adjusted_import, a.adjusted_export, c.up - c.down + a.adjusted_import as import_sum,
    c.export_up - c.export_down + a.adjusted_export as export_sum,
    s.energy_measured, s.first_reading_at, s.last_reading_at, d.findings, d.holds
from closed_session c join closing n on n.site = c.site and n.closing = c.closing
join session s on s.station = c.station and s.transaction_id = c.transaction_id
join adjusted_session a on a.station = c.station and a.transaction_id = c.transaction_id
join session_doubt d on d.station = c.station and d.transaction_id = c.transaction_id
where c.settled is not null and not exists (
    select 1 from closed_session l
    where l.station = c.station and l.transaction_id = c.transaction_id and l.closing > c.closing);

-- What later closings changed of periods that an earlier one had settled: by how much, when, and which lines of the
-- session made it (first_line to last_line; none where first_line is above last_line: then a rule changed). `estimated`:
-- by how many estimated figures; findings and holds are those of the session now.
create view correction as
select p.site, p.closing, n.at, n.day, p.station, p.transaction_id, p.starts, p.up, p.down, p.export_up, p.export_down,
    p.up - p.down - p.export_up + p.export_down as net, p.parts, p.estimated,
    1 + coalesce((
        select max(b.lines) from closed_session b
        where b.station = p.station and b.transaction_id = p.transaction_id and b.closing < p.closing), 0)
        as first_line,
    s.lines as last_line, d.findings, d.holds
from closed_part p
join closing n on n.site = p.site and n.closing = p.closing
join closing o on o.site = p.site and o.closing = p.closing - 1 and p.starts < o.until
join closed_session s
    on s.station = p.station and s.transaction_id = p.transaction_id and s.closing = p.closing
join session_doubt d on d.station = p.station and d.transaction_id = p.transaction_id;

-- What each closing froze: how many sessions it saw, how many of these are settled as complete and by rule, by how much
-- it changed what is settled of periods, and how much of that are corrections.
create view closing_sum as
select n.site, n.closing, n.day, n.until, n.at, n.who, n.period, n.reading_order, n.settle, n.zone,
    (select count(*) from closed_session c where c.site = n.site and c.closing = n.closing) as sessions,
    (select count(*) from closed_session c
        where c.site = n.site and c.closing = n.closing and c.settled = 'complete') as complete_sessions,
    (select count(*) from closed_session c
        where c.site = n.site and c.closing = n.closing and c.settled = 'rule') as rule_sessions,
    (select cast(coalesce(sum(p.up - p.down - p.export_up + p.export_down), 0) as bigint) from closed_part p
        where p.site = n.site and p.closing = n.closing) as net,
    (select count(*) from correction r where r.site = n.site and r.closing = n.closing) as corrections,
    (select cast(coalesce(sum(r.net), 0) as bigint) from correction r
        where r.site = n.site and r.closing = n.closing) as corrected
from closing n;

-- A session as a bill has it: its energy by the ledger, the adjustments and their sum, its state, how many findings and
-- how many holds it has. `energy_measured`: whether readings say its energy (yes, part, no), from when to when.
create view bill as
select s.site, s.station, s.transaction_id, s.sent_id, s.evse, s.began, s.ended,
    coalesce(s.began, s.first_at) as at, s.complete, s.missing, a.imported, a.exported, a.adjusted_import,
    a.adjusted_export, a.import_sum, a.export_sum, a.adjustments, t.state, t.settled,
    s.energy_measured, s.first_reading_at, s.last_reading_at, d.findings, d.holds, s.last_day
from session s
join adjusted_session a on a.station = s.station and a.transaction_id = s.transaction_id
join session_state t on t.station = s.station and t.transaction_id = s.transaction_id
join session_doubt d on d.station = s.station and d.transaction_id = s.transaction_id
where s.events > 0;
