"""Databases as people publish them: the schema of an application, and publications that divide its tables."""

from dataclasses import dataclass


@dataclass(frozen=True)
class Application:
    """Tables by name: the columns and constraints, and each subscriber's filter."""

    name: str
    tables: dict[str, tuple[str, list[str]]]
    before: str = ""


APPLICATIONS = [
    Application("saas", {
        "tenants": ("id uuid PRIMARY KEY, plan text NOT NULL, region text NOT NULL CHECK (region IN ('eu', 'us', 'ap'))",
                    ["region = 'eu'", "region = 'us'", "region = 'ap'"]),
        "users": ("id bigserial PRIMARY KEY, tenant_id uuid NOT NULL, email text NOT NULL, domain text GENERATED ALWAYS AS "
                  "(lower(split_part(email, '@', 2))) STORED", ["domain = 'example.com'", "domain <> 'example.com'"]),
        "events": ("tenant_id integer NOT NULL, shard integer GENERATED ALWAYS AS (tenant_id % 4) STORED, id bigint NOT NULL, "
                   "PRIMARY KEY (tenant_id, id)", ["shard = 0", "shard IN (1, -1)", "shard IN (2, -2)", "shard IN (3, -3)"])}),
    Application("shop", {
        "orders": ("id bigserial PRIMARY KEY, placed date NOT NULL, total numeric(12,2) NOT NULL CHECK (total >= 0)",
                   ["extract(year FROM placed) < 2023", "extract(year FROM placed) = 2023", "extract(year FROM placed) > 2023"]),
        "products": ("id serial PRIMARY KEY, sku varchar(20) NOT NULL, price numeric(10,2)",
                     ["sku LIKE 'A%'", "sku LIKE 'B%'", "sku NOT LIKE 'A%' AND sku NOT LIKE 'B%'"]),
        "carts": ("id uuid PRIMARY KEY, items jsonb NOT NULL DEFAULT '[]', currency char(3) NOT NULL",
                  ["currency = 'EUR'", "currency = 'USD'", "currency NOT IN ('EUR', 'USD')"])}),
    Application("blog", {
        "posts": ("id serial PRIMARY KEY, slug text NOT NULL, published timestamptz, tags text[] NOT NULL DEFAULT '{}'",
                  ["'news' = ANY (tags)", "NOT 'news' = ANY (tags)"]),
        "comments": ("id serial PRIMARY KEY, post_id integer NOT NULL, body text, spam boolean NOT NULL DEFAULT false",
                     ["spam", "NOT spam"]),
        "authors": ("id serial PRIMARY KEY, name text NOT NULL", ["left(name, 1) < 'n'", "left(name, 1) >= 'n'"])}),
    Application("sensors", {
        "readings": ("device integer NOT NULL, at timestamp NOT NULL, value double precision, PRIMARY KEY (device, at)",
                     ["date_trunc('month', at) < '2024-01-01'", "date_trunc('month', at) >= '2024-01-01'"]),
        "devices": ("id integer PRIMARY KEY, address inet NOT NULL",
                    ["address <<= '10.0.0.0/8'", "address <<= '192.168.0.0/16'",
                     "NOT address <<= '10.0.0.0/8' AND NOT address <<= '192.168.0.0/16'"]),
        "alarms": ("id bigserial PRIMARY KEY, level smallint NOT NULL CHECK (level BETWEEN 1 AND 5)", ["level <= 2", "level IN (3, 4, 5)"])}),
    Application("chat", {
        "rooms": ("id bigint PRIMARY KEY, kind text NOT NULL", ["(id >> 22) & 3 = 0", "(id >> 22) & 3 <> 0"]),
        "messages": ("room bigint, id bigint, sent timestamptz NOT NULL, PRIMARY KEY (room, id)",
                     ["(room, id) < (1000, 0)", "(room, id) >= (1000, 0)"]),
        "members": ("room bigint, handle text, PRIMARY KEY (room, handle)", ["lower(handle) < 'n'", "lower(handle) >= 'n'"])}),
    Application("crm", {
        "contacts": ("id serial PRIMARY KEY, data jsonb NOT NULL", ["data ->> 'region' = 'eu'", "(data ->> 'region' = 'eu') IS NOT TRUE"]),
        "accounts": ("id serial PRIMARY KEY, country char(2) NOT NULL, revenue numeric",
                     ["country IN ('DE', 'FR', 'IT')", "country NOT IN ('DE', 'FR', 'IT')"]),
        "deals": ("id serial PRIMARY KEY, stage text, CHECK (stage IS NOT NULL)", ["stage = 'won'", "stage <> 'won'"])}),
    Application("bank", {
        "accounts": ("iban text PRIMARY KEY, opened date NOT NULL", ["left(iban, 2) = 'DE'", "left(iban, 2) <> 'DE'"]),
        "transfers": ("id bigserial PRIMARY KEY, amount numeric(14,2) NOT NULL, booked date NOT NULL, valued date NOT NULL, "
                      "CHECK (booked <= valued)", ["valued < '2024-01-01'", "booked >= '2024-01-01' OR valued >= '2024-01-01'"]),
        "rates": ("currency text, day date, rate numeric NOT NULL, PRIMARY KEY (currency, day)",
                  ["day <@ '[2024-01-01,2025-01-01)'::daterange", "NOT day <@ '[2024-01-01,2025-01-01)'::daterange"])}),
    Application("rides", {
        "trips": ("id bigserial PRIMARY KEY, started timestamptz NOT NULL, ended timestamptz",
                  ["(started AT TIME ZONE 'UTC')::date < '2024-01-01'", "(started AT TIME ZONE 'UTC')::date >= '2024-01-01'"]),
        "drivers": ("id serial PRIMARY KEY, rating numeric(2,1) CHECK (rating BETWEEN 1 AND 5)",
                    ["rating >= 4", "rating < 4", "rating IS NULL"]),
        "zones": ("id serial PRIMARY KEY, fares int4range NOT NULL", ["lower(fares) < 10", "lower(fares) >= 10", "lower(fares) IS NULL"])}),
    Application("clinic", {
        "patients": ("id serial PRIMARY KEY, born date NOT NULL CHECK (born > '1900-01-01' AND born < '2100-01-01')",
                     ["extract(month FROM born) <= 6", "extract(month FROM born) BETWEEN 7 AND 12"]),
        "visits": ("id serial PRIMARY KEY, patient integer NOT NULL, at timestamp NOT NULL",
                   ["extract(dow FROM at) IN (0, 6)", "extract(dow FROM at) BETWEEN 1 AND 5", "NOT isfinite(at)"]),
        "beds": ("id serial PRIMARY KEY, ward text, CHECK (num_nonnulls(ward) = 1)", ["ward ^@ 'A'", "NOT ward ^@ 'A'"])}),
    Application("school", {
        "pupils": ("id serial PRIMARY KEY, name text NOT NULL, form smallint NOT NULL", ["form < 5", "form >= 5"]),
        "marks": ("pupil integer, subject text, mark smallint, PRIMARY KEY (pupil, subject), CHECK (mark IN (1, 2, 3, 4, 5, 6))",
                  ["mark IN (1, 2, 3)", "mark IN (4, 5, 6)", "mark IS NULL"]),
        "terms": ("id serial PRIMARY KEY, span daterange NOT NULL", ["upper(span) <= '2024-08-01'", "(upper(span) <= '2024-08-01') IS NOT TRUE"])}),
    Application("hotel", {
        "bookings": ("id serial PRIMARY KEY, arrival date NOT NULL, departure date NOT NULL, CHECK (arrival < departure)",
                     ["departure <= '2024-01-01'", "arrival >= '2024-01-01'", "arrival < '2024-01-01' AND departure > '2024-01-01'"]),
        "rooms": ("number integer PRIMARY KEY, floor integer GENERATED ALWAYS AS (number / 100) STORED", ["floor < 5", "floor >= 5"]),
        "guests": ("id serial PRIMARY KEY, passport text NOT NULL", ["upper(left(passport, 1)) = 'C'", "upper(left(passport, 1)) <> 'C'"])}),
    Application("freight", {
        "parcels": ("code text PRIMARY KEY, weight real NOT NULL", ["starts_with(code, 'EU')", "NOT starts_with(code, 'EU')"]),
        "scans": ("code text, at timestamptz, depot smallint NOT NULL, PRIMARY KEY (code, at)",
                  ["depot % 2 = 0", "abs(depot % 2) = 1"]),
        "routes": ("id serial PRIMARY KEY, stops integer[] NOT NULL", ["cardinality(stops) <= 3", "cardinality(stops) > 3"])}),
    Application("names", {
        "zones": ("name varchar(255) PRIMARY KEY, CHECK (name = lower(name))", ["name LIKE '%.arpa'", "name NOT LIKE '%.arpa'"]),
        "records": ("id bigserial PRIMARY KEY, type varchar(10) NOT NULL, content text NOT NULL, ttl integer",
                    ["type = 'A' OR type = 'AAAA'", "type <> 'A' AND type <> 'AAAA'"]),
        "keys": ("id serial PRIMARY KEY, flags integer NOT NULL", ["(flags & 257) = 257", "(flags & 257) <> 257"])}),
    Application("mail", {
        "users": ("address text PRIMARY KEY", ["split_part(address, '@', 2) = 'a.org'", "split_part(address, '@', 2) <> 'a.org'"]),
        "mails": ("id bigserial PRIMARY KEY, size integer NOT NULL CHECK (size > 0), flags bit(8) NOT NULL", ["size < 1000000", "size >= 1000000"]),
        "blocks": ("net cidr PRIMARY KEY", ["family(net) = 4", "family(net) = 6"])}),
    Application("forge", {
        "repositories": ("id bigserial PRIMARY KEY, path text NOT NULL", ["path LIKE 'mirror/%'", "path NOT LIKE 'mirror/%'"]),
        "commits": ("repository bigint, hash bytea, PRIMARY KEY (repository, hash)", ["hash < '\\x80'", "hash >= '\\x80'"]),
        "hooks": ("id serial PRIMARY KEY, url text NOT NULL", ["url ~ '^https://'", "url !~ '^https://'"])}),
    Application("tracker", {
        "issues": ("id serial PRIMARY KEY, state state NOT NULL, open boolean GENERATED ALWAYS AS (state < 'closed') STORED NOT NULL",
                   ["open", "NOT open"]),
        "labels": ("issue integer, label text, PRIMARY KEY (issue, label)", ["label ILIKE 'bug%'", "label NOT ILIKE 'bug%'"]),
        "votes": ("issue integer, voter integer, weight integer, PRIMARY KEY (issue, voter)",
                  ["coalesce(weight, 0) > 0", "coalesce(weight, 0) <= 0"])}, "CREATE TYPE state AS ENUM ('new', 'open', 'closed');"),
    Application("game", {
        "players": ("id uuid PRIMARY KEY, level integer NOT NULL", ["id < '80000000-0000-0000-0000-000000000000'",
                                                                "id >= '80000000-0000-0000-0000-000000000000'"]),
        "matches": ("id bigserial PRIMARY KEY, red integer, blue integer", ["red > blue", "red <= blue", "red IS NULL OR blue IS NULL"]),
        "items": ("owner uuid, slot smallint, PRIMARY KEY (owner, slot)", ["uuid_hash(owner) % 2 = 0", "uuid_hash(owner) % 2 <> 0"])}),
    Application("jobs", {
        "queue": ("id bigserial PRIMARY KEY, name text NOT NULL, run_at timestamptz NOT NULL",
                  ["(hashtext(name) & 3) = 0", "(hashtext(name) & 3) = 1", "(hashtext(name) & 3) > 1"]),
        "runs": ("id bigserial PRIMARY KEY, took interval NOT NULL", ["took < interval '1 hour'", "took >= interval '1 hour'"]),
        "workers": ("id serial PRIMARY KEY, seen timestamp", ["seen IS NULL", "seen IS NOT NULL"])}),
    Application("flags", {
        "flags": ("key text PRIMARY KEY, rules jsonb NOT NULL", ["rules @> '{\"on\": true}'", "NOT rules @> '{\"on\": true}'"]),
        "segments": ("id serial PRIMARY KEY, rules jsonb", ["rules ? 'country'", "(rules ? 'country') IS NOT TRUE"]),
        "audit": ("id bigserial PRIMARY KEY, at timestamptz NOT NULL", ["at < '2024-01-01 00:00+00'", "at >= '2024-01-01 00:00+00'"])}),
    Application("ledger", {
        "entries": ("id bigserial PRIMARY KEY, debit numeric(12,2), credit numeric(12,2), CHECK (num_nonnulls(debit, credit) = 1)",
                    ["debit IS NOT NULL", "credit IS NOT NULL"]),
        "books": ("year integer PRIMARY KEY, closed boolean", ["closed IS TRUE", "closed IS NOT TRUE"]),
        "periods": ("id serial PRIMARY KEY, d date NOT NULL, q integer GENERATED ALWAYS AS (extract(quarter FROM d)::integer) STORED",
                    ["q IN (1, 2)", "q IN (3, 4)", "q IS NULL"])}),
    Application("analytics", {
        "hits": ("id bigserial PRIMARY KEY, url text NOT NULL, status smallint NOT NULL",
                 ["status BETWEEN 200 AND 299", "status NOT BETWEEN 200 AND 299"]),
        "sessions": ("id bigserial PRIMARY KEY, ip inet NOT NULL", ["ip << '0.0.0.0/1'", "ip << '128.0.0.0/1'"]),
        "funnels": ("id serial PRIMARY KEY, steps text[]", ["steps @> '{buy}'", "NOT steps @> '{buy}'", "steps IS NULL"])}),
    Application("cms", {
        "pages": ("id serial PRIMARY KEY, path text NOT NULL, locale text NOT NULL",
                  ["locale LIKE 'de%'", "locale LIKE 'en%'", "locale NOT LIKE 'de%' AND locale NOT LIKE 'en%'"]),
        "assets": ("id serial PRIMARY KEY, name text NOT NULL", ["right(name, 4) = '.jpg'", "right(name, 4) <> '.jpg'"]),
        "drafts": ("id serial PRIMARY KEY, title text, body text", ["length(coalesce(body, '')) < 1000", "length(coalesce(body, '')) >= 1000"])}),
    Application("stock", {
        "parts": ("id serial PRIMARY KEY, bin text NOT NULL", ["substr(bin, 1, 1) IN ('A', 'B')", "substr(bin, 1, 1) NOT IN ('A', 'B')"]),
        "moves": ("id bigserial PRIMARY KEY, part integer NOT NULL, delta integer NOT NULL", ["delta > 0", "delta < 0", "delta = 0"]),
        "counts": ("part integer, day date, PRIMARY KEY (part, day)", ["day - '2024-01-01'::date < 0", "day - '2024-01-01'::date >= 0"])}),
    Application("payroll", {
        "staff": ("id serial PRIMARY KEY, hired date NOT NULL, salary numeric NOT NULL", ["hired + 30 <= '2024-01-31'", "hired + 30 > '2024-01-31'"]),
        "slips": ("staff integer, month date, PRIMARY KEY (staff, month), CHECK (extract(day FROM month) = 1)",
                  ["date_part('year', month) < 2024", "date_part('year', month) >= 2024"]),
        "bonuses": ("id serial PRIMARY KEY, amount numeric NOT NULL", ["round(amount) < 1000", "round(amount) >= 1000"])}),
    Application("tickets", {
        "venues": ("id serial PRIMARY KEY, place point NOT NULL", ["place <@ box '(10,10),(0,0)'", "NOT place <@ box '(10,10),(0,0)'"]),
        "seats": ("venue integer, code text, PRIMARY KEY (venue, code)", ["ascii(code) < 78", "ascii(code) >= 78"]),
        "sales": ("id bigserial PRIMARY KEY, at timestamp NOT NULL", ["at::date < '2024-06-01'", "at::date > '2024-05-31'"])}),
    Application("library", {
        "books": ("isbn char(13) PRIMARY KEY", ["isbn < '978-3'", "isbn >= '978-3'"]),
        "loans": ("id serial PRIMARY KEY, lent date NOT NULL, back date, CHECK (back >= lent)",
                  ["back IS NULL", "back IS NOT NULL"]),
        "words": ("id serial PRIMARY KEY, doc tsvector NOT NULL", ["doc @@ 'cat'::tsquery", "NOT doc @@ 'cat'::tsquery"])}),
    Application("social", {
        "profiles": ("id bigint PRIMARY KEY, handle text NOT NULL", ["lower(handle) = 'admin' AND handle <> 'Admin'",
                                                                "lower(handle) <> 'admin' OR handle = 'Admin'"]),
        "follows": ("a bigint, b bigint, PRIMARY KEY (a, b), CHECK (a <> b)", ["a < b", "a > b"]),
        "feeds": ("owner bigint, post bigint, PRIMARY KEY (owner, post)", ["hashint8(owner) % 2 = 0", "abs(hashint8(owner) % 2) = 1"])}),
    Application("telecom", {
        "calls": ("id bigserial PRIMARY KEY, number text NOT NULL", ["number LIKE '+49%'", "number LIKE '+4%' AND number NOT LIKE '+49%'",
                                                                 "number NOT LIKE '+4%'"]),
        "cells": ("id bigint PRIMARY KEY, mac macaddr NOT NULL", ["mac < '80:00:00:00:00:00'", "mac >= '80:00:00:00:00:00'"]),
        "usage": ("number text, day date, bytes bigint, PRIMARY KEY (number, day)", ["day < '2024-01-01'", "day >= '2024-01-01'"])}),
    Application("adverts", {
        "campaigns": ("id serial PRIMARY KEY, starts date, ends date, CHECK (starts <= ends)",
                      ["greatest(starts, ends) < '2024-01-01'", "greatest(starts, ends) >= '2024-01-01'", "starts IS NULL AND ends IS NULL"]),
        "clicks": ("id bigserial PRIMARY KEY, price numeric(8,4) NOT NULL", ["price < 0.5", "price >= 0.5"]),
        "users": ("id text PRIMARY KEY", ["left(md5(id), 1) < '8'", "left(md5(id), 1) >= '8'"])}),
    Application("faults", {
        "ages": ("id serial PRIMARY KEY, born date", ["extract(year FROM born) < 2000", "extract(year FROM born) >= 2000"]),
        "prefixes": ("id serial PRIMARY KEY, code text NOT NULL", ["code LIKE 'A%'", "code LIKE 'AB%'", "code NOT LIKE 'A%'"]),
        "nets": ("id serial PRIMARY KEY, ip inet NOT NULL", ["ip <<= '10.0.0.0/8'", "ip <<= '10.1.0.0/16'", "NOT ip <<= '10.0.0.0/8'"]),
        "months": ("id serial PRIMARY KEY, at timestamp NOT NULL", ["date_trunc('month', at) <= '2024-05-01'", "at > '2024-06-01'"]),
        "kinds": ("id serial PRIMARY KEY, data jsonb NOT NULL", ["data ->> 'kind' = 'a'", "data ->> 'kind' <> 'a'"]),
        "codes": ("id serial PRIMARY KEY, code text NOT NULL", ["lower(code) = 'de'", "code = 'DE'", "lower(code) <> 'de'"])}),
]
