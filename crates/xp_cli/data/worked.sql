-- Worked examples over the catalogue pg16.csv and the rows of worked.csv, whose columns are
-- id int4, customer text, qty int4, total numeric and paid date.

-- ---- What expressions are (statements 1 to 4): their types, and what each call means.
DESCRIBE total * qty - 5, paid + 30, upper(customer) || ' #' || id;
DESCRIBE customer < 'M', paid - '2024-01-01', total > 100;
DESCRIBE round(total), round(total, 1), sqrt(qty);
DESCRIBE id, 'a text', NULL, 7, 2147483648, 1.5, 1e3, TRUE;

-- ---- Operators (5 to 16).
-- Exactly the types of the operands.
DESCRIBE 7 / 2, qty + 9000000000, paid - paid;
-- A literal is first taken as the other operand's type.
DESCRIBE qty + '5', paid > '2024-03-01', total / '3', '5' * qty;
-- The most exact matches; else the most preferred types.
DESCRIBE 7 / 2.0, qty < total, qty ^ 2;
-- Literals alone: a string where one is taken, else the preferred type of the category.
DESCRIBE 'abc' || 'def', @ '-4.5', - '1';
-- One candidate is left.
DESCRIBE |/ 40, paid + 7, 7 + paid;
-- Values of any type beside a text, arrays beside elements, ranges beside bounds.
DESCRIBE customer || total, id || customer, '{1,2}'::int4[] || 3, '[1,9)'::int4range @> 3;
DESCRIBE '{1,2}'::int4[] <@ '{1,2,3}', '{1,2}'::int4[] = '{1,2}', '[1,9)'::int4range * '[5,20)';
-- Several are left, and one is told by a cast; none is left.
DESCRIBE ~ '20';
DESCRIBE ~ CAST('20' AS int8);
DESCRIBE customer + 1;
DESCRIBE total & 1;
-- Prefix operators, signs among them, and what binds how.
DESCRIBE - qty, -qty ^ 2, @ total - 5, 5 & ~ 1;

-- ---- Functions (17 to 26).
-- By their arguments' types; literals as with operators.
DESCRIBE length(customer), length('abc'), length('abc'::bpchar), length('\x00ff'::bytea);
DESCRIBE substr(varchar '1234', 3), left(customer, '3'), div(7, 2), mod(7, 2), abs('-5');
DESCRIBE lower('ABC'), lower('[1,9)'::int4range), make_date(2024, 3, '5');
DESCRIBE substr(1234, 3);
-- Any number of arguments, also as one array.
DESCRIBE concat(id, ': ', total, NULL), concat_ws(', ', customer, paid);
DESCRIBE concat(VARIADIC '{a,b}'::text[]), concat_ws('-', VARIADIC '{1,2}'::int4[]);
-- A type's name may ask for a cast.
DESCRIBE numeric('5'), text(total), varchar(customer), int8(qty), date('2024-03-05');
-- Polymorphic arguments: one type of elements, or one that all are brought to.
DESCRIBE array_length('{1,2}'::int4[], 1), cardinality('{a}'::text[]), upper('[1,9)'::int8range);
DESCRIBE array_append('{1,2}'::int4[], 2.5), array_append('{1,2}'::int4[], '3'), array_cat(NULL, '{a}');
DESCRIBE array_to_string('{1,2}'::int4[], ', '), array_positions('{1,2}'::int4[], 2);

-- ---- Constants of a type, casts, and functions that are written by words (27 to 32).
DESCRIBE date '2024-02-29', numeric '1.50', boolean 'yes', char 'abc', interval '1 day';
DESCRIBE CAST(total AS int4), total::numeric(6,1), customer::varchar(10), id::text, '{1,2}'::int[];
DESCRIBE '1.5'::double precision, paid::timestamp with time zone, '7'::int4::bool, NULL::date;
DESCRIBE POSITION('n' IN customer), EXTRACT(year FROM paid), EXTRACT('epoch' FROM paid);
DESCRIBE SUBSTRING(customer FROM 2 FOR 3), SUBSTRING(customer FOR 2), SUBSTRING(customer, 2);
DESCRIBE TRIM(customer), TRIM(LEADING 'A' FROM customer), TRIM(TRAILING FROM customer), TRIM(BOTH customer, 'x');

-- ---- Values over the rows (33 to 37).
SELECT id, customer, qty;
SELECT id * 10 + qty % 3, qty = 3, qty < 5, (qty + 1) / 2;
SELECT id AS number, customer::varchar AS "name", '40'::int4 + id;
-- Null, an empty text, texts with commas, quotes and backslashes.
SELECT id, NULL, '', 'a, b', 'say "hi"', '\N', '\\srv\x', 'a\b';
SELECT true, boolean 'off', smallint '-5', bigint '9000000000', 2147483648, text 'it''s', NULL::int4 + 1;

-- ---- Errors (38 to 42): of a constant part, before any row; of a row, behind the rows before it.
SELECT id, 1 / 0;
SELECT qty + 2147483647 * 2;
SELECT id, 60 / qty;
SELECT id + 2147483644;
SELECT 60 / qty, 1 % (2 - 2);

-- ---- Refusals (43 to 60), each with its code and the byte at which it stands.
SELECT id FROM customer;
EXPLAIN qty * 12.5;
SELECT qty - customer;
SELECT upper();
SELECT ~ '20';
SELECT array_length('{1,2}', 1);
SELECT paid::int4;
SELECT quantity;
SELECT '5'::money;
SELECT customer::varchar(0);
SELECT qty + 'five';
SELECT 7 / '9999999999';
SELECT bool 'maybe';
SELECT 100000000000000000000000000000000000000;
SELECT total ^ 2;
SELECT id, concat(paid, 1);
SELECT float8 '1.5';
SELECT concat(1,1,1,1,1,1,1,1,1,1,1,1,1,1,1,1,1,1,1,1,1,1,1,1,1,1,1,1,1,1,1,1,1,1,1,1,1,1,1,1,1,1,1,1,1,1,1,1,1,1,1,1,1,1,1,1,1,1,1,1,1,1,1,1,1,1,1,1,1,1,1,1,1,1,1,1,1,1,1,1,1,1,1,1,1,1,1,1,1,1,1,1,1,1,1,1,1,1,1,1,1);

-- ---- Functions and conversions of whole numbers (61 to 65).
SELECT id, mod(qty, 5), abs(qty - 5), qty / 2, - qty;
SELECT qty & 6, qty | 1, qty # 5, ~ qty, qty << 2, -qty >> 1;
SELECT qty::int2, qty::int8 * 9000000000, qty::bool, qty > 4, to_hex(qty);
-- By text, and cut to a length.
SELECT id::text, qty::varchar(1), customer::char(3), '7'::text::int8;
SELECT customer::int4;

-- ---- The order of evaluation (66 to 69): a strict call looks at all its operands, from left to right;
-- of constant parts the first that raises answers before any row.
SELECT id, NULL::int4 + 60 / qty;
SELECT 60 / (qty - 3) + (2147483647 + id);
SELECT qty * '12x'::text::int4;
SELECT 60 / qty, 32767::int2 + 1::int2;

-- ---- STORE (70 to 76): as a column of the type keeps the value.
STORE varchar(3) FROM customer;
STORE varchar(5) FROM 'abcde   ';
STORE smallint FROM qty * 4000;
STORE text FROM qty;
STORE int4 FROM '0x10';
STORE bool FROM qty;
STORE int4 FROM 'five';

-- ---- Numbers with decimals, texts and dates over the rows (77 to 82).
SELECT id, total * qty, round(total / 3, 2), total > 100;
SELECT upper(customer), length(customer), customer || ' #' || id, left(customer, 3);
SELECT customer ~~ '%o%', strpos(customer, ','), SUBSTRING(customer FROM 2 FOR 2), TRIM(LEADING 'A' FROM customer);
SELECT paid + 30, date '2024-03-31' - paid, EXTRACT(month FROM paid), paid > '2024-03-01';
SELECT total::numeric(5,1), total::int4, total::text;
STORE numeric(5,2) FROM total;

-- ---- Truth values and tests (83 to 88): AND stops at false and OR at true, from left to right.
DESCRIBE qty > 4 AND total < 100 OR NOT paid > '2024-03-01', qty IS NULL, qty > 4 IS NOT TRUE;
SELECT id, qty > 4 AND total < 100, qty > 4 OR total < 100, NOT qty > 4;
SELECT id, qty IS NULL, paid NOTNULL, qty > 4 IS TRUE, qty > 4 IS NOT FALSE, qty > 4 IS UNKNOWN;
SELECT id, qty <> 0 AND 60 / qty > 7;
SELECT 60 / qty > 7 AND qty <> 0;
SELECT id AND true;

-- ---- BETWEEN, IN, LIKE and ILIKE (89 to 94): operators, which are chosen for each pair of operands.
DESCRIBE total BETWEEN 50 AND 200, id + 1 NOT BETWEEN 2 AND 3, qty IN (3, 8.5), customer LIKE 'A%';
SELECT id, total BETWEEN 50 AND 200, qty NOT BETWEEN 1 AND 8, paid BETWEEN '2024-03-01' AND '2024-03-31';
SELECT id, qty IN (3, 5, 8), qty NOT IN (3, NULL), customer IN ('Ann', 'Bob');
SELECT id, customer LIKE '%o%', customer NOT LIKE '_o%', customer ILIKE 'D%';
SELECT customer IN ('Ann', 2);
SELECT total LIKE '1%';

-- ---- CASE (95 to 101): the results come to one type, and what stands behind the choice isn't looked at.
DESCRIBE CASE WHEN qty > 5 THEN qty ELSE total END, CASE qty WHEN 3 THEN 'three' WHEN 8 THEN 'eight' END;
SELECT id, CASE WHEN total >= 1000 THEN 'large' WHEN total >= 100 THEN 'mid' ELSE 'small' END, CASE qty WHEN 3 THEN 'three' WHEN 8 THEN 'eight' END;
SELECT id, CASE WHEN qty <> 0 THEN 60 / qty END;
-- A constant part raises early, unless a constant condition keeps it from being reached.
SELECT CASE WHEN id > 0 THEN id ELSE 1 / 0 END;
SELECT id, CASE WHEN 1 = 2 THEN 1 / 0 ELSE qty END;
SELECT CASE WHEN id THEN 1 END;
SELECT CASE WHEN qty > 5 THEN 'many' ELSE qty END;

-- ---- COALESCE, GREATEST, LEAST, NULLIF, IS DISTINCT FROM (102 to 108).
DESCRIBE NULLIF(id, 2.5), total IS DISTINCT FROM 12, LEAST('a', customer), COALESCE(NULL, 'b');
SELECT id, COALESCE(qty, 0), COALESCE(paid, '2024-12-31'), GREATEST(qty, total, 10), LEAST(qty, 5), NULLIF(qty, 0);
SELECT id, qty IS DISTINCT FROM 3, qty IS NOT DISTINCT FROM NULL;
SELECT COALESCE(qty, 1 / 0);
SELECT COALESCE(qty, paid);
SELECT GREATEST(paid, time '12:00');
STORE varchar(5) FROM CASE WHEN total > 100 THEN 'mid' ELSE customer END;

-- ---- Arrays and their elements (109 to 114): their types are found, their values aren't computed.
DESCRIBE ARRAY[id, total], ARRAY['a', customer], ARRAY[]::date[], ARRAY[qty, id][1], ('{1,2}'::int4[])[id];
DESCRIBE ARRAY[1, 2] || 3, ARRAY[id] = ARRAY[qty], cardinality(ARRAY[paid]);
SELECT id, ARRAY[qty];
SELECT ARRAY[ARRAY[1]];
DESCRIBE ARRAY[];
DESCRIBE customer[1];

-- ---- VALUES and UNION ALL (115 to 122): each column comes to one type, of UNION ALL pair by pair.
VALUES (1, 'a'), (2.5, NULL);
SELECT id, total UNION ALL SELECT 0, qty;
SELECT id UNION ALL SELECT 60 / qty;
SELECT NULL UNION ALL SELECT NULL UNION ALL SELECT id;
SELECT id, qty UNION ALL SELECT id;
VALUES (1), (2, 3);
VALUES (1), (id);
VALUES (1), (1 / 0);

-- ---- A text without end (123), which ends the script.
SELECT 'never closed;
SELECT 1;
