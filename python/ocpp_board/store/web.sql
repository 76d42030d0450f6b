-- Who is signed in at `web`: the hash of the secret that a browser has, and until when it is good.
create table sign_in (
    secret_hash text primary key,
    operator text not null,
    since timestamptz not null,
    until timestamptz not null
);
create index sign_in_operator on sign_in (operator);
