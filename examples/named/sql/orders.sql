-- Orders of a tea shop, for psql.
\set least 100
\echo 'it''s' "loaded"

CREATE TABLE orders (
    id      bigint GENERATED ALWAYS AS IDENTITY PRIMARY KEY,
    "user"  text NOT NULL CHECK ("user" <> ''),
    cents   numeric(10, 2) DEFAULT 1.5e2,
    größe   int[] /* a comment /* in a comment */ -- of one line */ DEFAULT '{1,2}',
    note    jsonb DEFAULT '{"it''s": "tea"}'::jsonb,
    made_at timestamptz DEFAULT now()
);

INSERT INTO orders ("user", cents, note) VALUES
    ('O''Hara', 350, E'{"a": "\'\\n"}'),
    (U&'d\0061t\+000061', .5, NULL),
    (N'two ' 'parts', 0x1F + 1_000, $${"no": "escape's"}$$) RETURNING id;

/* Those of one user,
   ** the dearest first. */
SELECT DISTINCT o.id, o.cents::int % 7 AS rest, b'101' & x'1F'::bit(3),
       o.note ->> 'a', o.note #>> '{a,b}', o.note @> '{}' AND o.note ? 'x',
       CASE WHEN o.cents >= :least AND o."user" = :'name' THEN -1 ELSE |/ 4 #- '{a}' || 'x' END "a ""b"""
FROM orders o
LEFT JOIN LATERAL (SELECT count(*) FROM orders p WHERE p.id<o.id AND p.cents!=o.cents-1) n ON true
WHERE o.größe[1:2] && ARRAY[1, 2] AND o."user" !~* '^o''h' AND NOT o.id IN ($1, $2)
  AND 2*-3 < o.id AND o.cents BETWEEN SYMMETRIC 1 AND 2
ORDER BY 2 DESC, made_at LIMIT 10;

CREATE FUNCTION total(name text, n int = 3) RETURNS numeric LANGUAGE plpgsql AS $function$
BEGIN
    FOR i IN 1..n LOOP RAISE NOTICE '% of %', i, $$n$$; END LOOP;
    RETURN (SELECT sum(cents) FROM orders WHERE "user" = name);
END;
$function$;

DO $body$ BEGIN PERFORM total(name => 'it''s', n := 2); END $body$;
select total(name => 'x', n => 2) as "sum" \gset
