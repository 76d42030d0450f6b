-- The roles of a store in PostgreSQL. Its owner runs this once the tables are there, and again after each change of them:
--     psql -d ledger -v ON_ERROR_STOP=1 -f roles.sql
-- Each role may log in; give it a password by `alter role ocpp_gateway password '..'` or a certificate by pg_hba.conf.
--
--     ocpp_gateway   gateways, feeds, `follow`: adds lines and writes their rows; reads the plan and passwords of stations
--     ocpp_operator  `web`, `plan`, `operate`, `close-day`: what the reader reads, the plan, deeds, closings
--     ocpp_reader    dashboards and reports: reads boards, lines and findings, and no secret
--
-- Nobody but the owner changes or deletes a line, or changes tables.

do $$
declare one text;
begin
    foreach one in array array['ocpp_gateway', 'ocpp_operator', 'ocpp_reader'] loop
        if not exists (select from pg_roles where rolname = one) then
            execute format('create role %I login', one);
        end if;
        execute format('grant connect on database %I to %I', current_database(), one);
        execute format('revoke all on all tables in schema public from %I', one);
    end loop;
    execute format('revoke connect, temporary on database %I from public', current_database());
end $$;
revoke create on schema public from public;
grant usage on schema public to ocpp_gateway, ocpp_operator, ocpp_reader;

-- Reading: everything but what lets somebody in.
grant select on all tables in schema public to ocpp_reader, ocpp_operator;
revoke select on password, operator, token from ocpp_reader;

-- What the engine needs.
grant select on store, site, station, zone_offset, password to ocpp_gateway;
grant select, insert on line to ocpp_gateway, ocpp_operator;
grant select, insert, update, delete on session, part, finding, meter_value, refusal, stray
    to ocpp_gateway, ocpp_operator;
grant select, insert, update on usage, source, left_out to ocpp_gateway, ocpp_operator;
grant select, insert on mended to ocpp_gateway, ocpp_operator;
-- Operators' lines that are settled have their answers here; a gateway's engine asks whether one was.
grant select on deed to ocpp_gateway;
-- What gateways count for who watches.
grant select on lacking to ocpp_gateway;
-- A station that comes with its next password ends the one before.
grant update (seen_at), delete on password to ocpp_gateway;
grant update (heard_at) on station to ocpp_gateway;
grant select, insert, update on connection to ocpp_gateway;
-- Who changed a station, so that its connection ends; not why, and not what of operators.
grant select (id, at, what, name) on change to ocpp_gateway;

-- What operators do.
grant insert on deed, change to ocpp_operator;
grant insert, update on site, station, zone_offset to ocpp_operator;
grant insert, delete on password to ocpp_operator;
-- What closings freeze is added and never changed; tables of days that this store does not have are left out.
do $$
declare one text;
begin
    foreach one in array array['closing', 'closed_session', 'closed_part', 'adjustment', 'rule_settled', 'release',
        'metering_point'] loop
        if to_regclass(one) is not null then
            execute format('grant insert on %I to ocpp_operator', one);
        end if;
    end loop;
    if to_regclass('sign_in') is not null then
        revoke select on sign_in from ocpp_reader;
        grant insert, delete on sign_in to ocpp_operator;
    end if;
    if to_regclass('closing') is not null then
        grant select on closing to ocpp_gateway; -- for the age of the last one, at /metrics
    end if;
    if to_regclass('metering_point') is not null then
        grant update, delete on metering_point to ocpp_operator;
    end if;
end $$;
