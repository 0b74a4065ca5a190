-- The same for PostgreSQL: damaged commands and reports, any byte but NUL (the database is SQL_ASCII), and bytea.
DO $$
DECLARE
    answered int := 0;
    refused int := 0;
    one text;
    other text;
    report bytea;
    random_byte int;
BEGIN
    FOR i IN 1 .. 20000 LOOP
        one := 'AWR049999999023456789/0160N40N010W005E00/01ABCD0000001/151/1060902005120021/1/104020021/1/2301/';
        other := 'AWR041199999100400009/300/2301/';
        report := rpad(eskelvor_reset(), 220, '/')::bytea;
        FOR j IN 0 .. (random() * 3)::int LOOP
            random_byte := 1 + (random() * 254)::int;
            one := overlay(one PLACING convert_from(set_byte('\x00'::bytea, 0, random_byte), 'SQL_ASCII')
                           FROM 1 + (random() * 90)::int FOR (random() * 3)::int);
            other := left(other, (random() * 40)::int);
            report := set_byte(report, (random() * 219)::int, random_byte);
        END LOOP;
        BEGIN
            CASE i % 12
                WHEN 0 THEN PERFORM eskelvor_check(one), eskelvor_refusal(one);
                WHEN 1 THEN PERFORM eskelvor_join(one, other);
                WHEN 2 THEN PERFORM eskelvor_join(other, one);
                WHEN 3 THEN PERFORM eskelvor_commute(one, other);
                WHEN 4 THEN PERFORM eskelvor_section(one, (random() * 12)::int - 1);
                WHEN 5 THEN PERFORM eskelvor_apply(eskelvor_reset(), one);
                WHEN 6 THEN PERFORM eskelvor_difference(one, other);
                WHEN 7 THEN PERFORM eskelvor_why(one, 'level', (random() * 12000)::int - 6000, 0, 5, 'YMML');
                WHEN 8 THEN PERFORM eskelvor_report(report), eskelvor_track(report);
                WHEN 9 THEN PERFORM eskelvor_report_check(report), eskelvor_report_refusal(report);
                WHEN 10 THEN PERFORM eskelvor_joined(c) FROM (VALUES (one), (other), (NULL)) AS v (c);
                ELSE PERFORM eskelvor_designator(left(one, 6)), eskelvor_accepted(other);
            END CASE;
            answered := answered + 1;
        EXCEPTION WHEN invalid_text_representation THEN
            refused := refused + 1;
        END;
    END LOOP;
    RAISE INFO 'any bytes: % calls answered, % SQL errors', answered, refused;
END
$$;
