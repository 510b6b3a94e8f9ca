CREATE SCHEMA sales; CREATE SCHEMA "Old Data";
CREATE TYPE sales.mood AS ENUM ('a', 'b;', 'CREATE TABLE public.plain (x int);');
CREATE TABLE public.plain (id serial PRIMARY KEY, name text NOT NULL UNIQUE, mail character varying(80) UNIQUE, born date, note text DEFAULT 'it''s; (');
CREATE TABLE sales.plain (id bigint GENERATED ALWAYS AS IDENTITY, code uuid NOT NULL, price numeric(10,2) NOT NULL, big numeric(16,2), free numeric,
  at timestamp(3), zoned timestamp with time zone, feeling sales.mood, list int[], table_ text[][], PRIMARY KEY (id, code), UNIQUE (code) INCLUDE (price));
CREATE TABLE "Old Data"."Order ""Lines""" ("Id" integer NOT NULL, "unit price" double precision, "UPPER" smallint NOT NULL, doubled int GENERATED ALWAYS AS ("Id" * 2) STORED,
  CONSTRAINT "key (x)" UNIQUE ("Id", "UPPER"), CONSTRAINT c CHECK (("unit price" > (1)::double precision) AND ("UPPER" IS NOT NULL)));
ALTER TABLE "Old Data"."Order ""Lines""" ADD CONSTRAINT later PRIMARY KEY ("UPPER");
CREATE TABLE public.child (a int REFERENCES public.plain (id), b text COLLATE "C" NOT NULL, c boolean, d numeric(15,9), UNIQUE NULLS NOT DISTINCT (a, b));
CREATE UNIQUE INDEX partial ON public.child (a) WHERE b <> 'x';
CREATE UNIQUE INDEX expression ON public.child (lower(b));
CREATE UNIQUE INDEX plain_index ON public.child USING btree (b DESC NULLS LAST);
CREATE INDEX ordinary ON public.child (c);
CREATE TABLE public.whole (a int NOT NULL, b int NOT NULL, UNIQUE (a, b));
CREATE TABLE public.no_key (a xml, b json, c bytea, d character(3), e interval);
CREATE TABLE public.split (a int NOT NULL, b int) PARTITION BY RANGE (a);
CREATE TABLE public.part PARTITION OF public.split FOR VALUES FROM (1) TO (9);
CREATE UNLOGGED TABLE public.fast (a smallint PRIMARY KEY, EXCLUDE USING btree (a WITH =));
CREATE VIEW public.seen AS SELECT * FROM public.plain;
CREATE FUNCTION public.f() RETURNS int LANGUAGE plpgsql AS $body$ BEGIN CREATE TABLE plain (x int); RETURN 1; END $body$;
COMMENT ON TABLE public.plain IS 'CREATE TABLE public.plain (x int); E''';
INSERT INTO public.plain (name, mail, note) VALUES ('CREATE TABLE public.plain (x int);', NULL, E'\\.'), (E'a\nb', 'm', E'tab\t''');
INSERT INTO public.child VALUES (1, 'PRIMARY KEY (', NULL, 1.5);
CREATE TABLE public.words (id integer PRIMARY KEY, exclude boolean NOT NULL, "like" text UNIQUE, amount integer, EXCLUDE USING btree (amount WITH =), EXCLUDE (id WITH =));
CREATE UNIQUE INDEX words_sum ON public.words ((id + amount));
CREATE UNIQUE INDEX words_joined ON public.words (amount, ("like" || 'x'));
CREATE UNIQUE INDEX words_call ON public.words (exclude, abs(amount));
CREATE UNIQUE INDEX words_ordered ON public.words USING btree ("like" COLLATE "C" text_pattern_ops DESC NULLS LAST, amount NULLS FIRST);
CREATE TABLE public.arrays (a int[] DEFAULT ARRAY[1, 2] NOT NULL, b text DEFAULT (ARRAY['x', 'y,z'])[1] NOT NULL, c text[] DEFAULT ARRAY['a', ']'],
  d int[][] DEFAULT ARRAY[ARRAY[1, 2], ARRAY[3, 4]], e int CHECK (e = ANY (ARRAY[1, 2])) UNIQUE, f int NOT NULL, UNIQUE (f));
CREATE TABLE public.nulls (a int, b int, c int, d int UNIQUE NULLS NOT DISTINCT, e int, UNIQUE (a), UNIQUE NULLS NOT DISTINCT (a), UNIQUE NULLS DISTINCT (b));
CREATE UNIQUE INDEX nulls_index ON public.nulls USING btree (b, c) INCLUDE (e) NULLS NOT DISTINCT WITH (fillfactor = 90);
ALTER TABLE ONLY public.nulls ADD CONSTRAINT nulls_later UNIQUE NULLS NOT DISTINCT (c, e);
CREATE TABLE public.commented (a int /* a comment, /* one within */ UNIQUE, /*/ and another */ */ NOT NULL, b text /**/ UNIQUE) /* CREATE TABLE public.commented (x int); */;
CREATE TABLE public.altered (a int, b int UNIQUE);
ALTER TABLE public.altered ADD COLUMN c text DEFAULT '' NOT NULL;
ALTER TABLE public.altered DROP COLUMN b;
ALTER TABLE public.altered RENAME COLUMN a TO "new name";
ALTER TABLE public.altered ADD UNIQUE (c);
