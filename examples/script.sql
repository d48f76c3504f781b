SELECT kind, COUNT(*) AS objects, AVG(flux) FROM Object GROUP BY kind
SELECT objectId, flux FROM Object WHERE flux BETWEEN 20 AND 50 ORDER BY flux DESC LIMIT 3
SELECT objectId, z FROM Object WHERE area_cap(268435456,0,0,16)
SELECT objectId FROM Object WHERE area_band(1000,268435472)
SELECT objectId FROM Object WHERE objectId IN (2,4,99)
SELECT COUNT(*), SUM(flux), MIN(flux), MAX(flux) FROM Object WHERE kind IS NOT NULL
SELECT * FROM Object WHERE kind IS NULL
SELECT a.objectId, b.objectId FROM Object a, Object b WHERE chord2(a,b) <= 9 AND a.objectId < b.objectId
SELECT objectId, flux*2-z AS score FROM Object WHERE NOT (z = 0 OR flux > 45) ORDER BY score
SELECT mag FROM Object
