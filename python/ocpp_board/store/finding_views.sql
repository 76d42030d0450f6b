-- What is doubtful between transactions. The findings of one transaction are rows of `finding`; these views have the
-- others, and `all_finding` has all. Energies in details are kWh to a watt-hour, with a comma between thousands.

-- Ranges of numbers that a transaction lacks, voided ones included.
create view session_gap as
    select s.station, s.transaction_id,
        /*sqlite cast(substr(g.value, 1, instr(g.value, '..') - 1) as integer)*/
        /*postgresql split_part(g.value, '..', 1)::bigint*/ as first_number,
        /*sqlite cast(substr(g.value, instr(g.value, '..') + 2) as integer)*/
        /*postgresql split_part(g.value, '..', 2)::bigint*/ as last_number
    from session s,
        /*sqlite json_each('["' || replace(s.gaps, ' ', '","') || '"]') g*/
        /*postgresql lateral regexp_split_to_table(s.gaps, ' ') as g(value)*/
    where s.gaps <> '';

-- Ranges of numbers that count in a transaction: what its gaps leave. Each ends before a gap, and the last one (`-`) at
-- the last number.
create view session_run as
    select s.station, s.transaction_id,
        /*sqlite case when g.key = 0 then s.first_number
            else cast(substr(json_extract(g.json, '$[' || (g.key - 1) || ']'),
                instr(json_extract(g.json, '$[' || (g.key - 1) || ']'), '..') + 2) as integer) + 1 end*/
        /*postgresql case when g.place = 1 then s.first_number
            else split_part((string_to_array(ltrim(s.gaps || ' -'), ' '))[g.place - 1], '..', 2)::bigint + 1 end*/
            as first_number,
        case when g.value = '-' then s.last_number
            /*sqlite else cast(substr(g.value, 1, instr(g.value, '..') - 1) as integer) - 1 end*/
            /*postgresql else split_part(g.value, '..', 1)::bigint - 1 end*/ as last_number
    from session s,
        /*sqlite json_each('["' || replace(ltrim(s.gaps || ' -'), ' ', '","') || '"]') g*/
        /*postgresql lateral unnest(string_to_array(ltrim(s.gaps || ' -'), ' ')) with ordinality as g(value, place)*/
    where s.events > 0;

-- Each transaction of an EVSE that has readings beside the one before it there.
create view evse_step as
    select s.site, s.station, s.transaction_id, s.began, s.last_day, s.first_at, s.first_register, s.last_register,
        b.transaction_id as before_id, b.ended as before_ended, b.last_at as before_last_at,
        b.first_register as before_first, b.last_register as before_last
    from session s join session b on b.station = s.station and b.transaction_id = (
        select l.transaction_id from session l
        where l.site = s.site and l.station = s.station and l.evse = s.evse and l.events > 0
            and l.first_register is not null
            and l.first_at <= s.first_at and (l.first_at < s.first_at or l.transaction_id < s.transaction_id)
        order by l.first_at desc, l.transaction_id desc limit 1)
    where s.evse <> 0 and s.events > 0 and s.first_register is not null;

-- Each transaction of an EVSE that has no end beside the one after it.
create view evse_next as
    select s.site, s.station, s.transaction_id, s.began, s.last_day, s.first_at, s.last_at,
        n.transaction_id as next_id, n.first_at as next_at
    from session s join session n on n.station = s.station and n.transaction_id = (
        select l.transaction_id from session l
        where l.site = s.site and l.station = s.station and l.evse = s.evse and l.events > 0
            and l.first_at >= s.first_at and (l.first_at > s.first_at or l.transaction_id > s.transaction_id)
        order by l.first_at, l.transaction_id limit 1)
    where s.ended is null and s.evse <> 0 and s.events > 0;

-- Each transaction of an EVSE whose register does not go on from the one before it. It rose between them, where the one
-- before has its end, by 10 Wh at least and by more than 100 Wh a day, which a cabinet may take; it fell by 1 kWh at
-- least, and does not begin at 0 in each; or the two overlap, and have energy of one register. `wh`: by how much.
create view evse_doubt as
    select site, station, transaction_id, began, last_day, first_at, before_id,
        case when first_at < before_last_at then 'sessions overlap'
            when first_register > before_last then 'register rose between sessions'
            else 'meter exchanged between sessions' end as kind,
        (before_last + 500) / 1000 as had_wh, (first_register + 500) / 1000 as has_wh,
        (case when first_at >= before_last_at then abs(first_register - before_last)
            when last_register < before_last then last_register - first_register
            else before_last - first_register end + 500) / 1000 as wh
    from evse_step
    where first_at < before_last_at
            and (first_register > before_first or first_register = before_first and first_register >= 1000)
            and first_register < before_last - 10000 and last_register > first_register + 10000
        or first_at >= before_last_at and before_ended is not null and first_register - before_last >= 10000
            and first_register - before_last > 100000
            * (/*sqlite julianday(first_at) - julianday(before_last_at)*/
            /*postgresql extract(epoch from first_at - before_last_at) / 86400*/)
        or first_at >= before_last_at and before_last - first_register >= 1000000
            and not (first_register < 1000 and before_first < 1000);

-- Transactions of two EVSEs of a station, one after the other, that ran at the same time with registers of one meter:
-- the second one begins within what the first one reads, and one of them ends within what the other one reads.
create view one_meter as
    select s.site, s.station, s.transaction_id, s.began, s.last_day, s.first_at, b.transaction_id as before_id,
        b.site as before_site, b.began as before_began, b.last_day as before_last_day, b.first_at as before_first_at
    from session s join session b on b.station = s.station and s.first_at >= b.first_at and s.first_at < b.last_at
    where b.transaction_id = (
            select l.transaction_id from session l
            where l.station = s.station and l.site || '' = s.site and l.evse <> 0 and l.events > 0
                and l.first_register is not null
                and l.first_at <= s.first_at and (l.first_at < s.first_at or l.transaction_id < s.transaction_id)
            order by l.first_at desc, l.transaction_id desc limit 1)
        and s.evse <> 0 and s.events > 0 and s.first_register is not null and s.evse <> b.evse
        and s.first_register > b.first_register + 10000 and s.first_register < b.last_register - 10000
        and s.last_register > s.first_register + 10000
        and (s.last_at <= b.last_at and s.last_register <= b.last_register
            or s.last_at >= b.last_at and s.last_register >= b.last_register);

-- The greatest power of each transaction beside that of those next to it at its station, the 20 before it and the 20
-- behind it, if there are 19 at least: `usual` is what nine of ten of them do not exceed, where it is less than
-- half of this one's, and 11 kW less; null where it is not.
create view power_step as
    select p.site, p.station, p.transaction_id, p.began, p.last_day, p.first_at, p.peak_w, (
        select case when count(*) >= 19 and 10 * sum(o.is_near) <= count(*)
            then max(case when o.is_near = 0 then o.peak_w end) end
        from (select l.peak_w, case when p.peak_w > 2 * l.peak_w and p.peak_w > l.peak_w + 11000 then 0 else 1 end
                as is_near
            from (select n.peak_w from (select b.peak_w from session b where b.station = p.station
                    and b.first_at < p.first_at and b.site || '' = p.site and b.events > 0 and b.peak_w > 0
                    order by b.first_at desc limit 20) n
                union all
                select n.peak_w from (select a.peak_w from session a where a.station = p.station
                    and a.first_at > p.first_at and a.site || '' = p.site and a.events > 0 and a.peak_w > 0
                    order by a.first_at limit 20) n) l) o) as usual
    from session p join station t on t.station = p.station and t.most_kw is null
    where p.events > 0 and p.peak_w > 11000 and 5 > (
        select count(*) from (
            select 1 as one from (select b.peak_w from session b where b.station = p.station
                and b.first_at < p.first_at and b.site || '' = p.site and b.events > 0 and b.peak_w > 0
                order by b.first_at desc limit 20) n
            where p.peak_w <= 2 * n.peak_w or p.peak_w <= n.peak_w + 11000 limit 5) f);

-- Each number that a transaction lacks and that came in a transaction of another EVSE at the same time, with which it
-- has none in common: how many numbers of a gap a run of the other one has.
create view other_counter as
    select s.site, s.station, s.transaction_id, o.transaction_id as other_id,
        case when g.last_number < r.last_number then g.last_number else r.last_number end
        - case when g.first_number > r.first_number then g.first_number else r.first_number end + 1 as numbers
    from session s
    join session o on o.station = s.station and o.evse <> s.evse and o.events > 0
        and o.first_at <= s.last_at and s.first_at <= o.last_at
    join session_gap g on g.station = s.station and g.transaction_id = s.transaction_id
    join session_run r on r.station = o.station and r.transaction_id = o.transaction_id
        and r.first_number <= g.last_number and g.first_number <= r.last_number
    where s.missing > 0 and s.events > 0 and not exists (
        select 1 from session_run a join session_run b on a.first_number <= b.last_number
            and b.first_number <= a.last_number
        where a.station = s.station and a.transaction_id = s.transaction_id
            and b.station = o.station and b.transaction_id = o.transaction_id);

-- What is doubtful of transactions: in one of them, or between them (the register of an EVSE rose or began anew from
-- one to the next, two ran at the same time with the same energy, a later one began before an end came, one had more
-- power than others), or what was refused of one waits for a decision. `began_at` and `last_day` are the transaction's:
-- by its last day, the site, or the station and its id, only those rows are read that are asked for.
create view session_finding as
    select s.site, f.station, f.transaction_id, f.kind, f.times, f.first_at, f.detail,
        coalesce(s.began, s.first_at) as began_at, s.last_day
    from finding f join session s on s.station = f.station and s.transaction_id = f.transaction_id
    union all
    select site, station, transaction_id, kind, 1, first_at,
        case when kind = 'meter exchanged between sessions' then
            /*sqlite printf('%,d.%03d', had_wh / 1000, had_wh % 1000)*/
            /*postgresql to_char(had_wh / 1000.0, 'FM999,999,990.000')*/
            || ' kWh at the end of ' || before_id || ', '
            || /*sqlite printf('%,d.%03d', has_wh / 1000, has_wh % 1000)*/
            /*postgresql to_char(has_wh / 1000.0, 'FM999,999,990.000')*/ || ' kWh here: '
        else '' end
        || /*sqlite printf('%,d.%03d', wh / 1000, wh % 1000)*/ /*postgresql to_char(wh / 1000.0, 'FM999,999,990.000')*/
        || case kind when 'sessions overlap' then ' kWh also in ' || before_id
            when 'register rose between sessions' then ' kWh between ' || before_id || ' and ' || transaction_id
            else ' kWh less' end,
        coalesce(began, first_at), last_day
    from evse_doubt
    union all
    select site, station, transaction_id, 'no end, and a later session began', 1, next_at, next_id || ' began',
        coalesce(began, first_at), last_day
    from evse_next where next_at >= last_at
    union all
    select site, station, transaction_id, 'two EVSEs with one meter', 1, first_at, 'with ' || before_id,
        coalesce(began, first_at), last_day
    from one_meter
    union all
    select before_site, station, before_id, 'two EVSEs with one meter', 1, first_at, 'with ' || transaction_id,
        coalesce(before_began, before_first_at), before_last_day
    from one_meter
    union all
    select site, station, transaction_id, 'more power than before', 1, first_at,
        ((peak_w + 500) / 1000) || ' kW, and at most ' || ((usual + 500) / 1000) || ' kW in nine of ten other sessions',
        coalesce(began, first_at), last_day
    from power_step where usual is not null
    union all
    select s.site, s.station, s.transaction_id, 'refused messages wait', (
            select count(*) from refusal r
            where r.station = s.station and r.transaction_id = s.transaction_id and r.decision = ''), (
            select min(r.first_at) from refusal r
            where r.station = s.station and r.transaction_id = s.transaction_id and r.decision = ''), (
            select 'the first: ' || min(r.cause) from refusal r
            where r.station = s.station and r.transaction_id = s.transaction_id and r.decision = ''),
        coalesce(s.began, s.first_at), s.last_day
    from session s
    where s.events > 0 and exists (
        select 1 from refusal r
        where r.station = s.station and r.transaction_id = s.transaction_id and r.decision = '');

-- Where the register of an EVSE rose from one of its MeterValues to the next while no transaction was there.
create view outside_rise as
    select station, evse, at, mwh from (
        select station, evse, at, lag(at) over before as had_at,
            up_register - lag(up_register) over before as mwh
        from meter_value window before as (partition by station, evse order by at, up_register)) m
    where evse <> 0 and mwh >= 10000 and mwh > 100000 * (/*sqlite julianday(at) - julianday(had_at)*/
            /*postgresql extract(epoch from at - had_at) / 86400*/) and not exists (
        select 1 from session s where s.station = m.station and s.evse in (m.evse, 0) and s.events > 0
            and s.last_at > m.had_at and s.first_at < m.at);

-- What is doubtful at a station and of no transaction: most of its readings lie where a period begins and the site
-- settles by `later`, it counts with one counter or in steps, or the register of an EVSE rose in MeterValues while no
-- transaction was there. EVSE 0 is the main meter.
create view station_finding as
    select s.site, s.station, 'readings where periods begin' as kind,
        cast(sum(s.boundary_moments) as bigint) as times, min(s.first_boundary_at) as first_at,
        sum(s.boundary_moments) || ' of ' || sum(s.reading_moments) || ' moments of readings; `--settle ' || s.site
            || '=even` of report, follow or log-to-script (in a script line `settle ' || s.site || ' even`)' as detail
    from site i cross join session s
    where s.site = i.site and i.settle = 'later' and s.events > 0
    group by s.site, s.station
    having sum(s.boundary_moments) >= 8 and 2 * sum(s.boundary_moments) > sum(s.reading_moments)
    union all
    select s.site, s.station, 'one counter for several EVSEs', count(*), min(s.first_at),
        count(*) || ' sessions, the first is ' || min(s.transaction_id)
    from session s
    where s.missing > 0 and s.events > 0 and not s.complete and s.missing = (
        select sum(c.numbers) from other_counter c
        where c.station = s.station and c.transaction_id = s.transaction_id)
    group by s.site, s.station
    union all
    select site, station, 'numbers in steps', count(*), min(first_at),
        count(*) || ' sessions ' || min(substr(state, 20)) from session
    where events > 0 and missing > 0 and state like 'messages complete, numbers in steps%'
    group by site, station
    union all
    select t.site, o.station, 'energy outside sessions', o.times, o.first_at,
        /*sqlite printf('%,d.%03d', wh / 1000, wh % 1000)*/
            /*postgresql to_char(wh / 1000.0, 'FM999,999,990.000')*/ || ' kWh at EVSE ' || o.evse
    from (select station, evse, count(*) as times, min(at) as first_at,
            (cast(sum(mwh) as bigint) + 500) / 1000 as wh
        from outside_rise group by station, evse) o
    join station t on t.station = o.station;

-- Everything that is doubtful: of transactions, and of a station, where the transaction is empty.
create view all_finding as
    select site, station, transaction_id, kind, times, first_at, detail from session_finding
    union all
    select site, station, '', kind, times, first_at, detail from station_finding;
