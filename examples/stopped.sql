-- With --on-error-stop a script ends at its first error.
CREATE TABLE n (c integer);
INSERT INTO n VALUES (1);
INSERT INTO m VALUES (2);
INSERT INTO n VALUES (3);
