CREATE TABLE plain (id INTEGER PRIMARY KEY, name TEXT NOT NULL, mail VARCHAR(80) UNIQUE, born DATE, note);
CREATE UNIQUE INDEX plain_name ON plain (name);
CREATE TABLE text_key (code TEXT PRIMARY KEY, "unit price" NUMERIC(10,2) NOT NULL, [x y] BLOB, `z z` INT);
CREATE TABLE bound (a TEXT, b INT, c REAL, PRIMARY KEY (a, b), UNIQUE (c)) WITHOUT ROWID;
CREATE TABLE strict_key (a TEXT PRIMARY KEY, b INTEGER NOT NULL UNIQUE, c ANY) STRICT;
CREATE TABLE wide_key (a INTEGER NOT NULL, b INTEGER NOT NULL, c TEXT, CONSTRAINT k PRIMARY KEY (a, b), CONSTRAINT u UNIQUE (b, a));
CREATE TABLE whole (a INT NOT NULL, b INT NOT NULL, UNIQUE (a, b));
CREATE TABLE "Order ""Lines""" ( -- the lines; CREATE TABLE hidden (a)
  "id" INTEGER PRIMARY KEY AUTOINCREMENT, /* a comment, UNIQUE */
  article INT NOT NULL REFERENCES plain (id) ON DELETE CASCADE,
  amount INTEGER DEFAULT (1 + (2)) CHECK (amount IS NOT NULL AND amount > 0),
  label TEXT DEFAULT 'it''s; a "label"' COLLATE NOCASE,
  doubled INT GENERATED ALWAYS AS (amount * 2) STORED,
  shown AS (amount || 'x'),
  UNIQUE (article, label COLLATE NOCASE) ON CONFLICT IGNORE,
  FOREIGN KEY (article) REFERENCES plain (id),
  CHECK (label <> 'UNIQUE (x)')
);
CREATE UNIQUE INDEX partial ON "Order ""Lines""" (amount) WHERE amount > 5;
CREATE UNIQUE INDEX expression ON "Order ""Lines""" (lower(label));
CREATE INDEX ordinary ON "Order ""Lines""" (doubled);
CREATE UNIQUE INDEX two ON "Order ""Lines""" (article DESC, amount);
CREATE VIEW seen AS SELECT * FROM plain;
CREATE TRIGGER fires AFTER INSERT ON plain BEGIN UPDATE plain SET note = 'CREATE TABLE plain (x);' WHERE id = 1; END;
CREATE TABLE no_key (a, b TEXT, c FANCY TYPE (3, 4), d INT UNSIGNED);
INSERT INTO plain VALUES (1, 'PRIMARY KEY (a));', NULL, '2024-02-29', ';'), (2, 'CREATE TABLE plain (x);', 'm', NULL, char(10) || ''');');
CREATE TABLE words (id INTEGER PRIMARY KEY, exclude boolean, like TEXT NOT NULL UNIQUE, amount INT, kind);
CREATE UNIQUE INDEX words_sum ON words (id + amount);
CREATE UNIQUE INDEX words_bracket ON words ((id + amount));
CREATE UNIQUE INDEX words_joined ON words (amount, "like" || 'x');
CREATE UNIQUE INDEX words_ordered ON words (exclude COLLATE NOCASE DESC, amount ASC);
CREATE TABLE counted (a INTEGER, b TEXT, PRIMARY KEY (a AUTOINCREMENT), UNIQUE (b COLLATE RTRIM DESC));
CREATE TABLE 'it''s quoted' ('a b' TEXT, 'c' INT UNIQUE, "d" NOT NULL, CONSTRAINT 'k' PRIMARY KEY ('a b'));
CREATE UNIQUE INDEX 'quoted''s' ON 'it''s quoted' ('d');
CREATE TABLE commented (a INT /* no /* nested comment */ NOT NULL, b TEXT, /*/ UNIQUE (b), */ PRIMARY KEY (a));
CREATE TABLE altered (a INT, b TEXT);
ALTER TABLE altered ADD COLUMN c TEXT NOT NULL DEFAULT 'x';
ALTER TABLE altered RENAME COLUMN a TO "new name";
ALTER TABLE altered DROP COLUMN b;
CREATE UNIQUE INDEX altered_name ON altered ("new name");
