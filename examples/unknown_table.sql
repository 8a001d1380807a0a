CREATE TABLE shelf (height integer);
INSERT INTO shelf VALUES (180);
INSERT INTO wardrobe VALUES (210);
INSERT INTO shelf VALUES (-1);
