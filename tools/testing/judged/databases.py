"""Databases as people have them, with the right answer for each table worked out by hand.

The expected answer is `sound`, `refused`, `not read`, `not decided`, or `not sound:` and who gets the row.
"""

from judged.cases import Case

DATABASES = [
    # A day is in neither half, and the order's id is a uuid.
    Case("orders_by_day", """
        CREATE TABLE orders (id uuid PRIMARY KEY, region integer NOT NULL, placed date NOT NULL);
        ALTER TABLE orders REPLICA IDENTITY FULL;
        CREATE PUBLICATION old FOR TABLE orders WHERE (placed < '2024-01-01');
        CREATE PUBLICATION new FOR TABLE orders WHERE (placed > '2024-01-01');
    """, {"orders": "not sound:"}, told=["placed = '2024-01-01'", "'00000000-0000-0000-0000-000000000000'"]),
    # The same day by BETWEEN and >=: whole days leave no gap between 2023-12-31 and 2024-01-01.
    Case("whole_days", """
        CREATE TABLE orders (id uuid PRIMARY KEY, placed date NOT NULL);
        ALTER TABLE orders REPLICA IDENTITY FULL;
        CREATE PUBLICATION early FOR TABLE orders WHERE (placed <= '2022-12-31');
        CREATE PUBLICATION middle FOR TABLE orders WHERE (placed BETWEEN '2023-01-01' AND '2023-12-31');
        CREATE PUBLICATION late FOR TABLE orders WHERE (placed >= '2024-01-01');
    """, {"orders": "sound"},
        regions={"orders": [
            ("placed < '2023-01-01'", "early"), ("placed BETWEEN '2023-01-01' AND '2023-12-31'", "middle"),
            ("placed >= '2024-01-01'", "late")]},
        rows={"orders": "SELECT gen_random_uuid(), date '2022-12-25' + n FROM generate_series(0, 400) AS n"}),
    # Timestamps are finer than days: 23:59:59 to 0:00 is a gap, and NULL is in no month.
    Case("months_of_moments", """
        CREATE TABLE events (id bigint PRIMARY KEY, at timestamptz NOT NULL);
        CREATE TABLE visits (id bigint PRIMARY KEY, at timestamptz);
        CREATE TABLE calls (id bigint PRIMARY KEY, at timestamp(0) NOT NULL);
        CREATE TABLE days (id bigint PRIMARY KEY, at timestamp NOT NULL);
        ALTER TABLE events REPLICA IDENTITY FULL; ALTER TABLE visits REPLICA IDENTITY FULL;
        ALTER TABLE calls REPLICA IDENTITY FULL; ALTER TABLE days REPLICA IDENTITY FULL;
        CREATE PUBLICATION may FOR TABLE events WHERE (at <= '2024-05-31 23:59:59+00'),
            visits WHERE (at < '2024-06-01 00:00:00+00'), calls WHERE (at <= '2024-05-31 23:59:59'),
            days WHERE (at::date <= '2024-05-31');
        CREATE PUBLICATION june FOR TABLE events WHERE (at >= '2024-06-01 00:00:00+00'),
            visits WHERE (at >= '2024-06-01 00:00:00+00'), calls WHERE (at >= '2024-06-01 00:00:00'),
            days WHERE (at >= '2024-06-01');
    """, {"events": "not sound:", "visits": "not sound:", "calls": "sound", "days": "sound"}),
    # The last timestamp that the server reads is rounded up to one that a column can hold, but no arithmetic takes.
    Case("last_moment", """
        CREATE TABLE calls (id bigint PRIMARY KEY, at timestamp(0) NOT NULL);
        CREATE TABLE days (id bigint PRIMARY KEY, at timestamp NOT NULL);
        CREATE TABLE events (id bigint PRIMARY KEY, at timestamptz NOT NULL);
        CREATE TABLE years (id bigint PRIMARY KEY, at timestamp NOT NULL);
        CREATE TABLE spans (id bigint PRIMARY KEY, at timestamp NOT NULL);
        CREATE TABLE finite (id bigint PRIMARY KEY, at timestamp NOT NULL CHECK (isfinite(at)));
        CREATE TABLE seconds (id bigint PRIMARY KEY, at timestamp NOT NULL);
        CREATE TABLE shifted (id bigint PRIMARY KEY, at timestamp(0) NOT NULL);
        CREATE TABLE local (id bigint PRIMARY KEY, at timestamptz NOT NULL);
        ALTER TABLE calls REPLICA IDENTITY FULL; ALTER TABLE days REPLICA IDENTITY FULL;
        ALTER TABLE events REPLICA IDENTITY FULL; ALTER TABLE years REPLICA IDENTITY FULL;
        ALTER TABLE spans REPLICA IDENTITY FULL; ALTER TABLE finite REPLICA IDENTITY FULL;
        ALTER TABLE seconds REPLICA IDENTITY FULL; ALTER TABLE shifted REPLICA IDENTITY FULL;
        ALTER TABLE local REPLICA IDENTITY FULL;
        CREATE PUBLICATION low FOR TABLE calls WHERE (at <= '294276-12-31 23:59:59.999999'),
            days WHERE (at::date <= '294276-12-31'), events WHERE (at <= '294276-12-31 23:59:59.999999+00'),
            years WHERE (extract(year FROM at) <= 294276), finite WHERE (at < date '294277-01-01'),
            spans WHERE (at <@ '(,"294276-12-31 23:59:59.999999"]'::tsrange),
            seconds WHERE (date_trunc('second', at) < '2024-01-01'),
            shifted WHERE (at + interval '1 day -24:00' < '2024-01-01'),
            local WHERE (at AT TIME ZONE 'UTC' < '2024-01-01');
        CREATE PUBLICATION high FOR TABLE calls WHERE (at = 'infinity'), days WHERE (at = 'infinity'),
            events WHERE (at = 'infinity'), years WHERE (at = 'infinity'), spans WHERE (at = 'infinity'),
            finite WHERE (at >= '294277-01-01'::date),
            seconds WHERE (date_trunc('second', at) >= '2024-01-01'),
            shifted WHERE (at + interval '1 day -24:00' >= '2024-01-01'),
            local WHERE (at AT TIME ZONE 'UTC' >= '2024-01-01');
    """, {"calls": "not sound:", "days": "not sound:", "events": "not sound:", "years": "not sound:",
          "spans": "not sound:", "finite": "sound", "seconds": "sound", "shifted": "sound", "local": "sound"},
        told=["a row with at = '294276-12-31 23:59:59.999999'::timestamp(0) stops the replication of high, low",
              "a row with at = '294276-12-31 00:00:00' stops the replication of high, low",
              "a row with at = '294276-12-31 23:59:59.999999+00'::timestamptz(0) stops the replication of high, low"],
        fails=[("SELECT date_trunc('second', '294276-12-31 23:59:59.999999'::timestamp(0)::timestamp)", "out of range"),
               ("SELECT timestamp '294276-12-31 00:00:00' + interval '1 day -24:00'", "timestamp out of range"),
               ("SELECT '294276-12-31 23:59:59.999999+00'::timestamptz(0) AT TIME ZONE 'UTC'", "timestamp out of range")],
        regions={"finite": []}, rows={"finite": "VALUES (1, '294276-12-31 23:59:59.999999'::timestamp(0)), (2, '2024-01-01')"}),
    # Cents: no numeric(12,2) is between 99.99 and 100, but an unlimited numeric is. NaN is greater than all numbers.
    Case("prices", """
        CREATE TABLE goods (id integer PRIMARY KEY, price numeric(12,2) NOT NULL);
        CREATE TABLE rates (id integer PRIMARY KEY, rate numeric NOT NULL);
        CREATE TABLE tops (id integer PRIMARY KEY, price numeric(6,2) NOT NULL);
        ALTER TABLE goods REPLICA IDENTITY FULL; ALTER TABLE rates REPLICA IDENTITY FULL;
        ALTER TABLE tops REPLICA IDENTITY FULL;
        CREATE PUBLICATION cheap FOR TABLE goods WHERE (price <= 99.99), rates WHERE (rate <= 99.99),
            tops WHERE (price < 100);
        CREATE PUBLICATION dear FOR TABLE goods WHERE (price >= 100), rates WHERE (rate >= 100),
            tops WHERE (price BETWEEN 100 AND 9999.99);
    """, {"goods": "sound", "rates": "not sound:", "tops": "not sound:"}, told=["price = 'NaN'"]),
    # Filters that order texts differently from their columns: 'B' is before 'a' in C, and after it in English.
    Case("another_order", """
        CREATE TABLE names (id integer PRIMARY KEY, name text COLLATE "en-x-icu" NOT NULL);
        CREATE TABLE pairs (id integer PRIMARY KEY, one text COLLATE "en-x-icu" NOT NULL,
            other text COLLATE "en-x-icu" NOT NULL);
        ALTER TABLE names REPLICA IDENTITY FULL; ALTER TABLE pairs REPLICA IDENTITY FULL;
        CREATE PUBLICATION low FOR TABLE names WHERE (name COLLATE "default" < 'aB'),
            pairs WHERE (one COLLATE "C" < other);
        CREATE PUBLICATION high FOR TABLE names WHERE (name COLLATE "default" >= 'aB'),
            pairs WHERE (one >= other COLLATE "C");
    """, {"names": "sound", "pairs": "sound"},
        regions={
            # The database's default is C.
            "names": [("name COLLATE \"C\" < 'aB'", "low"), ("name COLLATE \"C\" >= 'aB'", "high")],
            "pairs": [('one < other COLLATE "C"', "low"), ('one >= other COLLATE "C"', "high")]},
        rows={"names": "SELECT n, ('{B,a,aB,ab,A,b}'::text[])[n] FROM generate_series(1, 6) AS n",
              "pairs": "SELECT n, ('{B,a,a,A}'::text[])[n], ('{a,B,a,b}'::text[])[n] FROM generate_series(1, 4) AS n"}),
    # Halves of all uuids, and a list of tenants that leaves out all others.
    Case("uuids", """
        CREATE TABLE halves (id uuid PRIMARY KEY);
        CREATE TABLE holes (id uuid PRIMARY KEY);
        CREATE TABLE tenants (id uuid PRIMARY KEY);
        CREATE PUBLICATION low FOR TABLE halves WHERE (id < '80000000-0000-0000-0000-000000000000'),
            holes WHERE (id < '80000000-0000-0000-0000-000000000000'),
            tenants WHERE (id IN ('a0eebc99-9c0b-4ef8-bb6d-6bb9bd380a11', 'b0eebc99-9c0b-4ef8-bb6d-6bb9bd380a11'));
        CREATE PUBLICATION high FOR TABLE halves WHERE (id >= '80000000-0000-0000-0000-000000000000'),
            holes WHERE (id > '80000000-0000-0000-0000-000000000000'),
            tenants WHERE (id = 'c0eebc99-9c0b-4ef8-bb6d-6bb9bd380a11');
    """, {"halves": "sound", "holes": "not sound:", "tenants": "not sound:"},
        told=["the row ('80000000-0000-0000-0000-000000000000')", "the row ('00000000-0000-0000-0000-000000000000')"]),
    # Trailing blanks of a char are ignored, so 'D' and 'D ' are the same country.
    Case("countries", """
        CREATE TABLE people (id integer PRIMARY KEY, country char(2) NOT NULL);
        CREATE TABLE twice (id integer PRIMARY KEY, country char(2) NOT NULL);
        ALTER TABLE people REPLICA IDENTITY FULL; ALTER TABLE twice REPLICA IDENTITY FULL;
        CREATE PUBLICATION germany FOR TABLE people WHERE (country IN ('DE', 'AT')), twice WHERE (country = 'D');
        CREATE PUBLICATION others FOR TABLE people WHERE (country NOT IN ('DE', 'AT', 'DEU')),
            twice WHERE (country <> 'DE');
    """, {"people": "sound", "twice": "not sound: germany others"}, told=["country = 'D'"],
        regions={"people": [("country IN ('AT', 'DE')", "germany"), ("country NOT IN ('AT', 'DE')", "others")]},
        rows={"people": "SELECT n, (ARRAY['DE', 'AT', 'D', '', 'XX'])[n] FROM generate_series(1, 5) AS n"}),
    # Remainders have the dividend's sign, so that of -1 is none of 0, 1 and 2; the low bits of -1 are those of 3.
    Case("remainders", """
        CREATE TABLE plain (id bigint PRIMARY KEY);
        CREATE TABLE positive (id bigint PRIMARY KEY CHECK (id > 0));
        CREATE TABLE bits (id integer PRIMARY KEY);
        CREATE TABLE absolute (id integer PRIMARY KEY);
        CREATE PUBLICATION p0 FOR TABLE plain WHERE (mod(id, 3) = 0), positive WHERE (mod(id, 3) = 0),
            bits WHERE (id & 3 = 0), absolute WHERE (abs(id % 3) = 0);
        CREATE PUBLICATION p1 FOR TABLE plain WHERE (mod(id, 3) = 1), positive WHERE (mod(id, 3) = 1),
            bits WHERE (id & 3 = 1), absolute WHERE (abs(id % 3) = 1);
        CREATE PUBLICATION p2 FOR TABLE plain WHERE (mod(id, 3) = 2), positive WHERE (mod(id, 3) = 2),
            bits WHERE (id & 3 >= 2), absolute WHERE (abs(id % 3) = 2);
    """, {"plain": "not sound:", "positive": "sound", "bits": "sound", "absolute": "sound"}),
    # The sign is tested besides the remainder: all rows below zero go to the archive.
    Case("signs", """
        CREATE TABLE rows (id bigint PRIMARY KEY);
        CREATE TABLE zeros (id bigint PRIMARY KEY);
        CREATE PUBLICATION p0 FOR TABLE rows WHERE (id >= 0 AND id % 4 = 0), zeros WHERE (id > 0 AND id % 2 = 0);
        CREATE PUBLICATION p1 FOR TABLE rows WHERE (id >= 0 AND id % 4 = 1), zeros WHERE (id > 0 AND id % 2 = 1);
        CREATE PUBLICATION p2 FOR TABLE rows WHERE (id >= 0 AND id % 4 = 2);
        CREATE PUBLICATION p3 FOR TABLE rows WHERE (id >= 0 AND id % 4 = 3);
        CREATE PUBLICATION archive FOR TABLE rows WHERE (id < 0), zeros WHERE (id < 0);
    """, {"rows": "sound", "zeros": "not sound:"}, told=["the row (0)"],
        regions={"rows": [
            ("id < 0", "archive"), ("id >= 0 AND id % 4 = 0", "p0"), ("id >= 0 AND id % 4 = 1", "p1"),
            ("id >= 0 AND id % 4 = 2", "p2"), ("id >= 0 AND id % 4 = 3", "p3")]},
        rows={"rows": "SELECT n FROM generate_series(-20, 20) AS n"}),
    # One of four shards was split in two by the remainder modulo eight; `wrong` leaves out the number 7.
    Case("split_shard", """
        CREATE TABLE rows (id bigint PRIMARY KEY, CONSTRAINT is_positive CHECK (id > 0));
        CREATE TABLE wrong (id bigint PRIMARY KEY CHECK (id > 0));
        CREATE PUBLICATION p0 FOR TABLE rows WHERE (id % 4 = 0), wrong WHERE (id % 4 = 0);
        CREATE PUBLICATION p1 FOR TABLE rows WHERE (id % 4 = 1), wrong WHERE (id % 4 = 1);
        CREATE PUBLICATION p2 FOR TABLE rows WHERE (id % 4 = 2), wrong WHERE (id % 4 = 2);
        CREATE PUBLICATION p3 FOR TABLE rows WHERE (id % 8 = 3), wrong WHERE (id % 8 = 3);
        CREATE PUBLICATION p7 FOR TABLE rows WHERE (id % 8 = 7), wrong WHERE (id % 8 = 7 AND id <> 7);
    """, {"rows": "sound", "wrong": "not sound:"}, told=["the row (7)"]),
    # NULLs of types that are not compared.
    Case("nulls", """
        CREATE TABLE jobs (id bigint PRIMARY KEY, result jsonb, tags text[], took interval);
        CREATE TABLE lost (id bigint PRIMARY KEY, result jsonb, took interval);
        ALTER TABLE jobs REPLICA IDENTITY FULL; ALTER TABLE lost REPLICA IDENTITY FULL;
        CREATE PUBLICATION open FOR TABLE jobs WHERE (result IS NULL), lost WHERE (result IS NULL AND took IS NULL);
        CREATE PUBLICATION done FOR TABLE jobs WHERE (result IS NOT NULL), lost WHERE (result IS NOT NULL);
    """, {"jobs": "sound", "lost": "not sound:"},
        regions={"jobs": [("result IS NOT NULL", "done"), ("result IS NULL", "open")]},
        rows={"jobs": "SELECT n, CASE WHEN n % 2 = 0 THEN '{}'::jsonb END FROM generate_series(1, 9) AS n"}),
    # Shards by a hash, whose remainder may be negative. The server finds a name for a remainder, but not for a hash.
    Case("hashes", """
        CREATE TABLE users (name text PRIMARY KEY);
        CREATE TABLE lost (name text PRIMARY KEY);
        CREATE TABLE rare (name text PRIMARY KEY);
        CREATE PUBLICATION p0 FOR TABLE users WHERE (hashtext(name) % 3 = 0), lost WHERE (hashtext(name) % 3 = 0),
            rare WHERE (hashtext(name) <> 123456789);
        CREATE PUBLICATION p1 FOR TABLE users WHERE (mod(hashtext(name), 3) IN (1, -1)),
            lost WHERE (hashtext(name) % 3 = 1);
        CREATE PUBLICATION p2 FOR TABLE users WHERE (abs(hashtext(name) % 3) = 2), lost WHERE (hashtext(name) % 3 = 2);
    """, {"users": "sound", "lost": "not sound:", "rare": "not decided"},
        told=["judge does not know which values hashtext(name) has; write the filters as a condition on it, NOT"]),
    # Functions of texts: with the same function on both sides, there is a proof. coalesce is read as it is.
    Case("functions", """
        CREATE TABLE mails (address text PRIMARY KEY);
        CREATE TABLE regions (id integer PRIMARY KEY, region text);
        CREATE TABLE paths (path text PRIMARY KEY);
        CREATE TABLE maybe (path text);
        CREATE TABLE bodies (body jsonb NOT NULL);
        ALTER TABLE regions REPLICA IDENTITY FULL; ALTER TABLE maybe REPLICA IDENTITY FULL;
        ALTER TABLE bodies REPLICA IDENTITY FULL;
        CREATE PUBLICATION one FOR TABLE mails WHERE (lower(address) < 'm'),
            regions WHERE (coalesce(region, 'eu') = 'eu'),
            paths WHERE (path LIKE '/a%'), maybe WHERE (path LIKE '/a%'), bodies WHERE (body ->> 'r' = 'eu');
        CREATE PUBLICATION two FOR TABLE mails WHERE (lower(address) >= 'm'),
            regions WHERE (coalesce(region, 'eu') <> 'eu'),
            paths WHERE (path NOT LIKE '/a%'), maybe WHERE (path NOT LIKE '/a%'), bodies WHERE (body ->> 'r' <> 'eu');
        CREATE PUBLICATION three FOR TABLE bodies WHERE ((body ->> 'r') IS NULL);
    """, {"mails": "sound", "regions": "sound", "paths": "sound", "maybe": "not sound:", "bodies": "sound"}),
    # Texts in order: z itself is in no range of `gap`, and 'm' is in both ranges of `twice`.
    Case("ranges_of_texts", """
        CREATE TABLE names (name text PRIMARY KEY);
        CREATE TABLE gap (name text PRIMARY KEY);
        CREATE TABLE twice (name varchar(20) PRIMARY KEY);
        CREATE TABLE codes (code varchar(1) PRIMARY KEY);
        CREATE PUBLICATION a FOR TABLE names WHERE (name < 'h'), gap WHERE (name < 'm'), twice WHERE (name <= 'm'),
            codes WHERE (code <= 'a');
        CREATE PUBLICATION h FOR TABLE names WHERE (name >= 'h' AND name < 'q'), gap WHERE (name > 'm' AND name <= 'z'),
            twice WHERE (name >= 'm');
        CREATE PUBLICATION q FOR TABLE names WHERE (name >= 'q'), gap WHERE (name > 'z' OR name = 'm');
    """, {"names": "sound", "gap": "sound", "twice": "not sound: a h", "codes": "not sound:"},
        told=["the row ('m')", "the row ('b')"],
        regions={"names": [
            ("name < 'h'", "a"), ("name >= 'h' AND name < 'q'", "h"), ("name >= 'q'", "q")]},
        rows={"names": "SELECT chr(n) FROM generate_series(32, 126) AS n"}),
    # The least number of each type is a value like any other.
    Case("least_numbers", """
        CREATE TABLE small (id smallint PRIMARY KEY);
        CREATE TABLE large (id bigint PRIMARY KEY);
        CREATE PUBLICATION one FOR TABLE small WHERE (id > -32768), large WHERE (id >= -9223372036854775807);
    """, {"small": "not sound:", "large": "not sound:"}, told=["the row (-32768)", "the row (-9223372036854775808)"]),
    # Two columns of a row: one is less than the other, or one is NULL.
    Case("two_columns", """
        CREATE TABLE spans (id integer PRIMARY KEY, low integer NOT NULL, high integer NOT NULL);
        CREATE TABLE plans (id integer PRIMARY KEY, due date, done date);
        CREATE TABLE lost (id integer PRIMARY KEY, due date, done date);
        ALTER TABLE spans REPLICA IDENTITY FULL; ALTER TABLE plans REPLICA IDENTITY FULL;
        ALTER TABLE lost REPLICA IDENTITY FULL;
        CREATE PUBLICATION well FOR TABLE spans WHERE (low <= high), plans WHERE (done <= due),
            lost WHERE (done <= due);
        CREATE PUBLICATION ill FOR TABLE spans WHERE (high < low),
            plans WHERE (due < done OR due IS NULL OR done IS NULL),
            lost WHERE (due < done OR due IS NULL);
    """, {"spans": "sound", "plans": "sound", "lost": "not sound:"}, told=["done = NULL"],
        regions={"plans": [
            ("done > due", "ill"), ("due IS NOT NULL AND done IS NULL", "ill"), ("due IS NULL", "ill"),
            ("done <= due", "well")]},
        rows={"plans": """
            SELECT 4 * n + m, nullif(date '2024-01-01' + n, '2024-01-03'), nullif(date '2024-01-01' + m, '2024-01-03')
            FROM generate_series(0, 3) AS n, generate_series(0, 3) AS m"""}),
    # A partitioned table that is published via its root is one table.
    Case("by_the_root", """
        CREATE TABLE log (id bigint, day date NOT NULL, PRIMARY KEY (id, day)) PARTITION BY RANGE (day);
        CREATE TABLE log_2023 PARTITION OF log FOR VALUES FROM ('2023-01-01') TO ('2024-01-01');
        CREATE TABLE log_rest PARTITION OF log DEFAULT;
        CREATE PUBLICATION even FOR TABLE log WHERE (id % 2 = 0) WITH (publish_via_partition_root);
        CREATE PUBLICATION odd FOR TABLE log WHERE (id % 2 <> 0) WITH (publish_via_partition_root);
    """, {"log": "sound"}),
    # Partitions that are published themselves: the bounds of 2023 hold for its rows.
    Case("by_partitions", """
        CREATE TABLE log (id bigint, day date NOT NULL, PRIMARY KEY (id, day)) PARTITION BY RANGE (day);
        CREATE TABLE log_2023 PARTITION OF log FOR VALUES FROM ('2023-01-01') TO ('2024-01-01');
        CREATE TABLE log_rest PARTITION OF log DEFAULT;
        CREATE PUBLICATION spring FOR TABLE log_2023 WHERE (day BETWEEN '2023-01-01' AND '2023-06-30'), log_rest;
        CREATE PUBLICATION autumn FOR TABLE log_2023 WHERE (day BETWEEN '2023-07-01' AND '2023-12-31');
    """, {"log_2023": "sound", "log_rest": "sound"}),
    # Via the root for one subscriber and by a partition for the other: even rows of 2023 go to both, odd ones of the
    # rest to none.
    Case("both_ways", """
        CREATE TABLE log (id bigint, day date NOT NULL, PRIMARY KEY (id, day)) PARTITION BY RANGE (day);
        CREATE TABLE log_2023 PARTITION OF log FOR VALUES FROM ('2023-01-01') TO ('2024-01-01');
        CREATE TABLE log_rest PARTITION OF log DEFAULT;
        CREATE PUBLICATION even FOR TABLE log WHERE (id % 2 = 0) WITH (publish_via_partition_root);
        CREATE PUBLICATION year FOR TABLE log_2023;
    """, {"log_2023": "not sound: even year", "log_rest": "not sound:"}),
    # One subscriber to both: the rows of 2023 are sent as those of the root, so only the root's filter counts.
    Case("both_ways_to_one", """
        CREATE TABLE log (id bigint, day date NOT NULL, PRIMARY KEY (id, day)) PARTITION BY RANGE (day);
        CREATE TABLE log_2023 PARTITION OF log FOR VALUES FROM ('2023-01-01') TO ('2024-01-01');
        CREATE TABLE log_rest PARTITION OF log DEFAULT;
        CREATE PUBLICATION even FOR TABLE log WHERE (id % 2 = 0) WITH (publish_via_partition_root);
        CREATE PUBLICATION odd FOR TABLE log WHERE (id % 2 <> 0) WITH (publish_via_partition_root);
        CREATE PUBLICATION year FOR TABLE log_2023;
    """, {"log_2023": "not sound:", "log_rest": "not sound:"}, words=["-v", "subscriptions=one=even,year"]),
    # No key at all, under FULL and otherwise.
    Case("keyless", """
        CREATE TABLE kept (kind integer NOT NULL, note text);
        CREATE TABLE refused (kind integer NOT NULL, note text);
        ALTER TABLE kept REPLICA IDENTITY FULL;
        CREATE PUBLICATION one FOR TABLE kept WHERE (kind = 1), refused WHERE (kind = 1);
        CREATE PUBLICATION other FOR TABLE kept WHERE (kind <> 1), refused WHERE (kind <> 1);
    """, {"kept": "sound", "refused": "refused"}),
    # A column list says nothing about rows, but it has to contain the identity.
    Case("column_lists", """
        CREATE TABLE good (id integer PRIMARY KEY, a text, b text);
        CREATE TABLE bad (id integer PRIMARY KEY, a text, b text);
        CREATE PUBLICATION low FOR TABLE good (id, a) WHERE (id < 5), bad (a);
        CREATE PUBLICATION high FOR TABLE good (id, a) WHERE (id >= 5);
    """, {"good": "sound", "bad": "refused"}, told=["the column list of publication low lacks column id"]),
    # Only rows that a CHECK allows have to be divided; a CHECK that is not validated allows all rows.
    Case("checks", """
        CREATE TABLE orders (id integer PRIMARY KEY, status varchar(10) NOT NULL
            CONSTRAINT known CHECK (status IN ('new', 'paid', 'sent')));
        CREATE TABLE open (id integer PRIMARY KEY, status text CHECK (status IN ('new', 'paid', 'sent')));
        CREATE TABLE late (id integer PRIMARY KEY, status text NOT NULL);
        ALTER TABLE late ADD CONSTRAINT known CHECK (status IN ('new', 'paid', 'sent')) NOT VALID;
        ALTER TABLE orders REPLICA IDENTITY FULL; ALTER TABLE open REPLICA IDENTITY FULL;
        ALTER TABLE late REPLICA IDENTITY FULL;
        CREATE PUBLICATION shop FOR TABLE orders WHERE (status = 'new' OR status = 'paid'),
            open WHERE (status = 'new' OR status = 'paid'), late WHERE (status = 'new' OR status = 'paid');
        CREATE PUBLICATION stock FOR TABLE orders WHERE (status = 'sent'), open WHERE (status = 'sent'),
            late WHERE (status = 'sent');
    """, {"orders": "sound", "open": "not sound:", "late": "not sound:"}, refusing=["late"],
        told=["status = NULL", "CHECK known is NOT VALID"]),
    # New rows satisfy a CHECK that is not validated; a NOT NULL column whose value no filter names is given one.
    Case("not_valid", """
        CREATE TABLE moved (id integer PRIMARY KEY, kind integer, way lseg NOT NULL, area polygon NOT NULL);
        ALTER TABLE moved ADD CONSTRAINT known CHECK (kind IS NOT NULL) NOT VALID,
            ADD CONSTRAINT whole CHECK (id >= 0) NOT VALID;
        ALTER TABLE moved REPLICA IDENTITY FULL;
        CREATE PUBLICATION one FOR TABLE moved WHERE (kind < 5);
        CREATE PUBLICATION other FOR TABLE moved WHERE (kind >= 5);
    """, {"moved": "not sound:"}, refusing=["moved"], told=["kind = NULL", "but CHECK known is NOT VALID"]),
    # If the server does not evaluate a part of a filter, no condition of --explain contains that part.
    Case("guarded", """
        CREATE TABLE parts (id integer PRIMARY KEY, size smallint);
        ALTER TABLE parts REPLICA IDENTITY FULL;
        CREATE PUBLICATION one FOR TABLE parts WHERE (CASE WHEN size <> 0 THEN 255 / size ELSE 0 END < 0);
        CREATE PUBLICATION other FOR TABLE parts WHERE ((CASE WHEN size <> 0 THEN 255 / size ELSE 0 END < 0) IS NOT TRUE);
    """, {"parts": "sound"}, words=["--explain"],
        told=["parts: sound (who gets which rows is not explained, since 255 / size fails at some rows)"]),
    # A price is positive, and an amount has its own CHECK: the row has to satisfy both.
    Case("checks_beside", """
        CREATE TABLE goods (id integer PRIMARY KEY CHECK (id > 100), kind integer,
            price numeric(8,2) NOT NULL CHECK (price > 0), amount integer NOT NULL CHECK (amount BETWEEN 10 AND 20));
        ALTER TABLE goods REPLICA IDENTITY FULL;
        CREATE PUBLICATION one FOR TABLE goods WHERE (kind < 5);
        CREATE PUBLICATION other FOR TABLE goods WHERE (kind >= 5);
    """, {"goods": "not sound:"}, told=["kind = NULL"]),
    # A constraint that judge does not read may refuse the row, and judge says so.
    Case("not_read_beside", """
        CREATE TABLE regions (id integer PRIMARY KEY);
        CREATE TABLE shops (id integer PRIMARY KEY, region integer NOT NULL REFERENCES regions, tripled integer
            GENERATED ALWAYS AS (3 * id) STORED);
        CREATE TABLE triples (id integer PRIMARY KEY, tripled integer GENERATED ALWAYS AS (3 * id) STORED);
        CREATE TABLE halves (id integer PRIMARY KEY, rounded integer GENERATED ALWAYS AS (1.5 * id) STORED);
        ALTER TABLE halves REPLICA IDENTITY FULL;
        CREATE TABLE stamped (id integer PRIMARY KEY, at date);
        CREATE FUNCTION stamp() RETURNS trigger LANGUAGE plpgsql AS $$BEGIN NEW.at := '2024-01-01'; RETURN NEW; END$$;
        CREATE TRIGGER stamping BEFORE INSERT OR UPDATE ON stamped FOR EACH ROW EXECUTE FUNCTION stamp();
        ALTER TABLE shops REPLICA IDENTITY FULL; ALTER TABLE triples REPLICA IDENTITY FULL;
        ALTER TABLE stamped REPLICA IDENTITY FULL;
        CREATE PUBLICATION one FOR TABLE regions, shops WHERE (region <= 5), stamped WHERE (at IS NOT NULL),
            triples WHERE (tripled % 3 = 0), halves WHERE (rounded % 1 = 0);
        CREATE PUBLICATION two FOR TABLE shops WHERE (region >= 5);
    """, {"regions": "sound", "shops": "not sound: one two", "stamped": "not sound:", "triples": "sound",
          "halves": "not decided"},
        refusing=["shops", "stamped"],
        told=["foreign key shops_region_fkey on region is not read", "trigger stamping is not read",
              "column rounded is generated by an expression that is not read"]),
    # A small table for all subscribers, and one of which only some rows are published.
    Case("on_purpose", """
        CREATE TABLE rates (currency char(3) PRIMARY KEY, rate numeric);
        CREATE TABLE drafts (id integer PRIMARY KEY, state integer);
        CREATE TABLE twice (id integer PRIMARY KEY, state integer);
        CREATE TABLE few (id integer PRIMARY KEY);
        ALTER TABLE drafts REPLICA IDENTITY FULL; ALTER TABLE twice REPLICA IDENTITY FULL;
        CREATE PUBLICATION one FOR TABLE rates, drafts WHERE (state = 1), twice WHERE (state = 1), few;
        CREATE PUBLICATION two FOR TABLE rates, drafts WHERE (state = 2), twice WHERE (state <= 2), few WHERE (id > 0);
    """, {"rates": "sound", "drafts": "sound", "twice": "not sound: one two", "few": "not sound: one"},
        words=["--copied", "rates", "--copied", "few", "--partial", "drafts", "--partial", "public.twice"],
        told=["it is to be copied to all subscribers, and two does not get this row"]),
    # A form that is not read affects only its own table.
    Case("not_read", """
        CREATE TABLE one (id integer PRIMARY KEY, note text);
        CREATE TABLE two (id integer PRIMARY KEY);
        CREATE TABLE three (id integer PRIMARY KEY, at timestamp);
        ALTER TABLE one REPLICA IDENTITY FULL; ALTER TABLE three REPLICA IDENTITY FULL;
        CREATE PUBLICATION p FOR TABLE one WHERE (quote_ident(note) = 'aa'), two,
            three WHERE (date_trunc('day', at) = '2024-01-01');
        CREATE PUBLICATION q FOR TABLE one WHERE ((quote_ident(note) = 'aa') IS NOT TRUE),
            three WHERE ((date_trunc('day', at) = '2024-01-01') IS NOT TRUE);
    """, {"one": "not read", "two": "sound", "three": "sound"},
        told=["publication p publishes public.one where (quote_ident(note) = 'aa'::text), and judge does not read "
              "quote_ident(note)", "quote_ident(text) is not in judge's table of functions"]),
    # Ranges of tenants in two schemas; the ranges of one schema overlap at 200.
    Case("tenants", """
        CREATE SCHEMA app;
        CREATE TABLE app.accounts (tenant integer, id bigint, PRIMARY KEY (tenant, id));
        CREATE TABLE app.notes (tenant integer, id bigint, PRIMARY KEY (tenant, id));
        CREATE PUBLICATION low FOR TABLE app.accounts WHERE (tenant < 100), app.notes WHERE (tenant < 100);
        CREATE PUBLICATION middle FOR TABLE app.accounts WHERE (tenant BETWEEN 100 AND 199),
            app.notes WHERE (tenant BETWEEN 100 AND 200);
        CREATE PUBLICATION high FOR TABLE app.accounts WHERE (tenant >= 200), app.notes WHERE (tenant >= 200);
    """, {"app.accounts": "sound", "app.notes": "not sound: london tokyo"},
        words=["-v", "subscriptions=london=low,middle tokyo=high"], told=["tenant = 200"],
        regions={"app.accounts": [("tenant < 200", "london"), ("tenant >= 200", "tokyo")]},
        rows={"app.accounts": "SELECT n, 1 FROM generate_series(-5, 300) AS n"}),
    # Tables of a name server and a mail program, as PowerDNS and Roundcube create them.
    Case("name_server", """
        CREATE TABLE domains (id serial PRIMARY KEY, name varchar(255) NOT NULL, master varchar(128), last_check int,
            type text NOT NULL, notified_serial bigint, account varchar(40),
            CONSTRAINT c_lowercase_name CHECK (name::text = lower(name::text)));
        CREATE TABLE records (id bigserial PRIMARY KEY, domain_id int REFERENCES domains ON DELETE CASCADE,
            name varchar(255), type varchar(10), content varchar(65535), ttl int, prio int, disabled bool DEFAULT 'f',
            CONSTRAINT c_lowercase_name CHECK (name::text = lower(name::text)));
        ALTER TABLE records REPLICA IDENTITY FULL;
        CREATE PUBLICATION even FOR TABLE domains WHERE (id % 2 = 0), records WHERE (domain_id % 2 = 0);
        CREATE PUBLICATION odd FOR TABLE domains WHERE (id % 2 <> 0), records WHERE (domain_id % 2 <> 0);
    """, {"domains": "sound", "records": "not sound:"}, told=["domain_id = NULL"]),
    # Twenty ranges of one column, each of which the server prints as two comparisons.
    Case("twenty_ranges", "CREATE TABLE cells (id integer PRIMARY KEY);\n" + "\n".join(
        f"CREATE PUBLICATION p{n} FOR TABLE cells WHERE (id >= {n * 100} AND id < {n * 100 + 100});" for n in range(20)
    ) + "CREATE PUBLICATION rest FOR TABLE cells WHERE (id < 0 OR id >= 2000);", {"cells": "sound"}),
    # A table with one more subscriber than pgshard reads; the other table has only two.
    Case("past_a_limit", """
        CREATE TABLE cells (id integer PRIMARY KEY); CREATE TABLE two (id integer PRIMARY KEY);
    """ + "\n".join(f"CREATE PUBLICATION p{n} FOR TABLE cells WHERE (abs(id % 33) = {n});" for n in range(33)) + """
        ALTER PUBLICATION p0 ADD TABLE two WHERE (id % 2 = 0);
        ALTER PUBLICATION p1 ADD TABLE two WHERE (id % 2 <> 0);
    """, {"cells": "not decided", "two": "sound"}, told=["32 subscriptions"]),
    # Seventy pieces with gaps between them exceed the limit of conditions.
    Case("seventy_pieces", "CREATE TABLE cells (id integer PRIMARY KEY);\n" + "".join(
        f"CREATE PUBLICATION p{place} FOR TABLE cells WHERE (({pieces}) IS {test} TRUE);\n"
        for place, (pieces, test) in enumerate(
            (" OR ".join(f"id BETWEEN {10 * n} AND {10 * n + 5}" for n in range(70)), test) for test in ("", "NOT"))),
        {"cells": "not decided"}, told=["64 different conditions"]),
    # The server computes the values of an identity column and a generated column; the values of a domain are not known.
    Case("given_values", """
        CREATE DOMAIN code AS text CHECK (VALUE ~ '^[A-Z]{3}$');
        CREATE TABLE items (id bigint GENERATED ALWAYS AS IDENTITY PRIMARY KEY, kind integer, twice integer
            GENERATED ALWAYS AS (2 * kind) STORED);
        CREATE TABLE parts (id bigint GENERATED ALWAYS AS IDENTITY PRIMARY KEY);
        CREATE TYPE mood AS ENUM ('fine', 'sad');
        CREATE TABLE coded (id integer PRIMARY KEY, code code NOT NULL, mood mood NOT NULL, kind integer);
        ALTER TABLE items REPLICA IDENTITY FULL; ALTER TABLE coded REPLICA IDENTITY FULL;
        CREATE PUBLICATION one FOR TABLE items WHERE (kind = 1), parts WHERE (id % 2 = 0), coded WHERE (kind = 1);
        CREATE PUBLICATION two FOR TABLE items WHERE (kind <> 1), parts WHERE (id % 2 = 1), coded WHERE (kind <> 1);
    """, {"items": "not sound:", "parts": "not sound:", "coded": "not sound:"}, refusing=["coded"],
        told=["the row (DEFAULT, NULL, DEFAULT)", "OVERRIDING SYSTEM VALUE",
              "judge knows no value of the type of column code"]),
    # A generated column over a type of the database: no row is shown with a value that the column may never have.
    Case("generated_of_enum", """
        CREATE TYPE mood AS ENUM ('fine', 'so', 'sad');
        CREATE TABLE moods (id integer PRIMARY KEY, mood mood NOT NULL, half integer GENERATED ALWAYS AS
            (CASE WHEN mood < 'so' THEN 1 WHEN mood >= 'so' THEN 2 END) STORED);
        ALTER TABLE moods REPLICA IDENTITY FULL;
        CREATE PUBLICATION one FOR TABLE moods WHERE (half = 1);
        CREATE PUBLICATION two FOR TABLE moods WHERE (half = 2);
    """, {"moods": "sound"}),
    # Constraints that are not read, with the server's functions and with functions of the database.
    Case("unread_checks", """
        CREATE FUNCTION is_even(number integer) RETURNS boolean IMMUTABLE LANGUAGE sql AS 'SELECT number % 2 = 0';
        CREATE TABLE own (id integer PRIMARY KEY, kind integer CONSTRAINT even CHECK (is_even(kind)));
        CREATE TABLE sum (id integer PRIMARY KEY,
            kind integer CONSTRAINT small CHECK (kind + 0 < 100 AND kind + 0 > 0));
        CREATE TABLE never (id integer PRIMARY KEY, kind integer NOT NULL CONSTRAINT small CHECK (int4mul(kind, 1) < 100));
        ALTER TABLE own REPLICA IDENTITY FULL; ALTER TABLE sum REPLICA IDENTITY FULL;
        ALTER TABLE never REPLICA IDENTITY FULL;
        CREATE PUBLICATION one FOR TABLE own WHERE (kind <> 7), sum WHERE (kind < 50), never WHERE (kind < 100);
        CREATE PUBLICATION two FOR TABLE own WHERE (kind IS NULL), sum WHERE (kind >= 50), never WHERE (kind > 100);
    """, {"own": "not sound:", "sum": "not sound:", "never": "not decided"}, refusing=["own"],
        told=["CHECK even is not read, since it has public.is_even(kind)", "kind = NULL",
              "CHECK small is not read, since it has int4mul(kind, 1), and refuses the rows that were tried"]),
    # IS DISTINCT FROM and NULLIF with another = operator, which their texts do not show: the server is not asked.
    Case("other_equality", """
        CREATE SCHEMA others;
        CREATE OPERATOR others.= (LEFTARG = text, RIGHTARG = text, FUNCTION = textne);
        SET search_path = others, pg_catalog, public;
        CREATE TABLE public.checked (id integer PRIMARY KEY, note text CONSTRAINT same CHECK (note IS DISTINCT FROM 'a'));
        CREATE TABLE public.nulls (id integer PRIMARY KEY, note text CONSTRAINT none CHECK (nullif(note, 'a') IS NULL));
        CREATE TABLE public.parts (id integer, note text, PRIMARY KEY (id)) PARTITION BY RANGE (id);
        CREATE TABLE public.part PARTITION OF public.parts (CONSTRAINT same CHECK (note IS DISTINCT FROM 'a'))
            FOR VALUES FROM (0) TO (9);
        ALTER TABLE checked REPLICA IDENTITY FULL; ALTER TABLE nulls REPLICA IDENTITY FULL;
        ALTER TABLE part REPLICA IDENTITY FULL;
        CREATE PUBLICATION one FOR TABLE checked WHERE (note IS NULL), nulls WHERE (note IS NULL);
        CREATE PUBLICATION rooted FOR TABLE parts WHERE (id < 5) WITH (publish_via_partition_root = true);
    """, {"checked": "not sound:", "nulls": "not sound:", "parts": "not sound:"}, refusing=["checked", "nulls"],
        told=["CHECK same is not read, since it has note IS DISTINCT FROM 'a', and may refuse this row",
              "CHECK none is not read, since it has NULLIF(note, 'a'), and may refuse this row"],
        fails=[("INSERT INTO checked VALUES (0, '')", "violates check constraint")]),
    # Operations that are not published, and all tables at once.
    Case("some_operations", """
        CREATE TABLE rows (id integer PRIMARY KEY);
        CREATE PUBLICATION low FOR TABLE rows WHERE (id < 0);
        CREATE PUBLICATION high FOR TABLE rows WHERE (id >= 0) WITH (publish = 'insert, update');
    """, {"rows": "refused"}, told=["publication high does not publish delete and truncate"]),
    # A condition with CASE, and boolean values that are compared.
    Case("cases", """
        CREATE TABLE jobs (id integer PRIMARY KEY, kind text NOT NULL, urgent boolean NOT NULL, prio integer);
        ALTER TABLE jobs REPLICA IDENTITY FULL;
        CREATE PUBLICATION now FOR TABLE jobs WHERE (CASE WHEN urgent THEN true WHEN prio > 5 THEN true ELSE false END);
        CREATE PUBLICATION later FOR TABLE jobs WHERE (NOT urgent AND coalesce(prio, 0) <= 5);
    """, {"jobs": "sound"},
        regions={"jobs": []},
        rows={"jobs": """
            SELECT 20 * n + m, 'k', n = 1, nullif(m, 9)
            FROM generate_series(0, 1) AS n, generate_series(0, 9) AS m"""}),
]
