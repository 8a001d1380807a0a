-- What a refused command is answered with.
CREATE TABLE "Stock of the shop" (pieces integer);
INSERT INTO "Stock of the shop" VALUES (12) /* one dozen */;
INSERT INTO stock VALUES (3);                            -- there is no table of this name
INSERT INTO "Stock of the shop" VALUES 3;                -- no command is written so
INSERT INTO "Stock of the shop" VALUES (30000000000000000000); -- a number has at most 64 bits
CREATE TABLE shelf (pieces integer REFERENCES stock);    -- a command that doesn't run yet
LISTEN stock;                                            -- a command that is left out
INSERT INTO "Stock of the shop" VALUES (-1);
