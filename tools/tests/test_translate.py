"""What ADQL becomes in the engine's language, each number found by hand, and the line for each thing that is refused."""
import math
import unittest

from skyq_lib.columns import Catalogue, Column
from skyq_lib.errors import SkyqError
from skyq_lib.translate import refusal, translate

COLUMNS = [
    Column("mag", "Mag", "float", "mag", 1000),
    Column("flux_", "flux", "float", "Jy", 10),
    Column("kind", "kind", "int"),
    Column("sp", "SpType", "word", words=["A0", "G2", "G2V", "K%"]),
]
KEPT = [Column("ra_deg", "ra", "float", "deg", 10**12), Column("dec_deg", "dec", "float", "deg", 10**12)]


def catalogue(is_kept=False):
    return Catalogue("t.fits", 10, "Id", "ra", "dec", 60.0, [*(KEPT if is_kept else []), *COLUMNS])


def where(text, is_kept=False):
    """The engine's condition for one of ADQL."""
    return translate(f"SELECT kind FROM Object WHERE {text}", catalogue(is_kept)).sql.partition(" WHERE ")[2]


def sql(text, **more):
    return translate(text, catalogue(more.pop("is_kept", False)), **more).sql


# Comparisons with a column of thousandths: v < 9.5004 is 1000 v < 9500.4, of whole numbers at most 9500.
NUMBERS = [
    ("mag < 9.5", "mag<9500"),
    ("mag < 9.5004", "mag<=9500"),
    ("mag <= 9.5004", "mag<=9500"),
    ("mag > 9.5004", "mag>=9501"),
    ("mag >= -0.0005", "mag>=0"),
    ("9.5 > MAG", "mag<9500"),
    ("mag = 9.5", "mag=9500"),
    ("mag = 9.5004", "mag<>mag"),
    ("mag <> 9.5004", "mag=mag"),
    ("NOT mag < 9.5", "mag>=9500"),
    ("mag < 1e30", "mag=mag"),
    ("mag > 1e30", "mag<>mag"),
    ("mag > -1e30", "mag=mag"),
    ("mag BETWEEN 1 AND 2.0005", "mag>=1000 AND mag<=2000"),
    ("mag NOT BETWEEN 1 AND 2.0005", "(mag<1000 OR mag>=2001)"),
    ("mag IN (1, 2.5, 3.00001)", "mag IN (1000,2500)"),
    ("mag NOT IN (1)", "mag NOT IN (1000)"),
    ("mag IN (3.00001)", "mag<>mag"),
    ("NOT mag IN (3.00001)", "mag=mag"),
    ("kind IN (-1, 1)", "kind IN (-1,1)"),
    ("mag IS NULL OR NOT kind IS NULL", "(mag IS NULL OR kind IS NOT NULL)"),
    # 2 mag + flux / 4 > 1 with thousandths and tenths: 2 mag in thousandths, flux / 4 in fortieths; both in thousandths
    ("2*mag + flux/4 > 1", "mag*2+25*flux_>1000"),
    ("mag - flux < kind", "mag-100*flux_<1000*kind"),
    ("mag*flux >= 0.5", "mag*flux_>=5000"),
    ("mag / 2.5 < 4", "mag<10000"),
    ("-mag < 4", "-mag<4000"),
    ("mag / -2 < 4", "-mag<8000"),
    ("kind*kind < 1 + 2*3 - 8/4", "kind*kind<5"),
    ("1 < 2", "0=0"),
    ("x > 0.5", "x>134217728"),
    ("Id = 17", "objectId=17"),
    ("objectId IN (1,2)", "objectId IN (1,2)"),
    ("Id < 9223372036854775808", "objectId=objectId"),
    ("Id = 9223372036854775808", "objectId<>objectId"),
    ("Id < 9223372036854775807", "objectId<9223372036854775807"),
    ("flux_ = 0.1", "flux_=1"),
    ('"Mag" < 1', "mag<1000"),
]

WORDS = [
    ("SpType = 'G2'", "sp=1"),
    ("'G2' <> sptype", "sp<>1"),
    ("SpType = 'B'", "sp<>sp"),
    ("SpType <> 'B'", "sp=sp"),
    ("NOT SpType = 'A0'", "sp<>0"),
    ("SpType IN ('G2','B','A0')", "sp IN (0,1)"),
    ("SpType LIKE 'G%'", "sp IN (1,2)"),
    ("SpType LIKE 'G_'", "sp IN (1)"),
    ("SpType NOT LIKE '%'", "sp NOT IN (0,1,2,3)"),
    ("SpType LIKE 'g%'", "sp<>sp"),
    ("SpType IS NULL", "sp IS NULL"),
]

# An arc second is a squared chord of 1693672.8 units: (2^29 sin(0.5 arcsec))^2.
ARCSEC = 1 / 3600
AREAS = [
    (f"1=CONTAINS(POINT('ICRS',ra,dec),CIRCLE('ICRS',0,0,{ARCSEC!r}))", "area_cap(268435456,0,0,1693672)"),
    (f"CONTAINS(POINT(ra,dec),CIRCLE(POINT(90,0),{ARCSEC!r}))=1", "area_cap(0,268435456,0,1693672)"),
    (f"1=CONTAINS(POINT(0,90),CIRCLE(ra,dec,{ARCSEC!r}))", "area_cap(0,0,268435456,1693672)"),
    (f"1=INTERSECTS(CIRCLE(0,-90,{ARCSEC!r}),POINT(ra,dec))", "area_cap(0,0,-268435456,1693672)"),
    (f"DISTANCE(ra,dec,180,0) < {ARCSEC!r}", "area_cap(-268435456,0,0,1693672)"),
    (f"0=CONTAINS(POINT(ra,dec),CIRCLE(0,0,{ARCSEC!r}))", "(x-268435456)*(x-268435456)+(y-0)*(y-0)+(z-0)*(z-0)>1693672"),
    (f"kind=1 OR DISTANCE(POINT(ra,dec),POINT(180,0))<={ARCSEC!r}",
     "(kind=1 OR (x+268435456)*(x+268435456)+(y-0)*(y-0)+(z-0)*(z-0)<=1693672)"),
    ("DISTANCE(POINT(ra,dec),POINT(0,0)) < 0", "(x-268435456)*(x-268435456)+(y-0)*(y-0)+(z-0)*(z-0)<=-1"),
    ("DISTANCE(POINT(ra,dec),POINT(0,0)) < -1", "0<>0"),
    ("DISTANCE(POINT(ra,dec),POINT(0,0)) <= 181", "0=0"),
    # a box of 60 degrees: heights 2^28 sin(30) and directions 2^29 (cos 60, sin 60) and (cos 120, sin 120)
    ("1=CONTAINS(POINT(ra,dec),BOX(90,0,60,60))", f"area_box(-134217727,134217727,268435456,{round(2**29 * math.sqrt(0.75))},-268435456,{round(2**29 * math.sqrt(0.75))})"),
    ("1=CONTAINS(POINT(ra,dec),BOX(0,0,360,60))", "area_band(-134217727,134217727)"),
    # three quarters of the sky: past the direction (cos -135, sin -135) or short of (cos 135, sin 135), 2^29 times each
    ("1=CONTAINS(POINT(ra,dec),BOX(0,0,270,180))", "area_band(-268435456,268435456) AND (z>=-268435456 AND z<=268435456 AND "
     "(379625062*x+(-379625062)*y>=0 OR 379625062*x+379625062*y>=0))"),
    ("0=CONTAINS(POINT(ra,dec),BOX(0,0,270,180))", "(z<-268435456 OR z>268435456 OR "
     "(379625062*x+(-379625062)*y<0 AND 379625062*x+379625062*y<0))"),
]

REFUSED = [
    ("SELECT id FROM Obj", "there is no table Obj; the table is Object"),
    ("SELECT id FROM Object, Object, Object", "a query is of one table, or of two for pairs of near objects"),
    ("SELECT id FROM Object, Object", "the two tables need names of their own, as in FROM Object AS a JOIN Object AS b"),
    ("SELECT a.id FROM Object a, Object b WHERE a.id<b.id", "a query of two tables asks for near pairs: it needs a distance of the two, with nothing but AND "
     "around it, as in 1=CONTAINS(POINT(a.ra,a.dec),CIRCLE(b.ra,b.dec,0.01))"),
    ("SELECT id FROM Object a, Object b WHERE DISTANCE(POINT(a.ra,a.dec),POINT(b.ra,b.dec))<0.01", "Id needs the name of its table before it, as in a.Id"),
    ("SELECT a.id FROM Object a, Object b WHERE DISTANCE(POINT(a.ra,a.dec),POINT(a.ra,a.dec))<0.01",
     "the distance of a row to itself is 0; name the two tables, as in POINT(a.ra,a.dec) and POINT(b.ra,b.dec)"),
    ("SELECT COUNT(*) FROM Object a, Object b WHERE DISTANCE(POINT(a.ra,a.dec),POINT(b.ra,b.dec))<0.01",
     "aggregates and GROUP BY over pairs are not answered here; ask for the pairs and count them"),
    ("SELECT c.id FROM Object a", "there is no table c in the query; there is a"),
    ("SELECT magg FROM Object", "there is no column magg (did you mean Mag?); the columns are Id, ra, dec, Mag, flux, kind, SpType"),
    ('SELECT "MAG" FROM Object', "there is no column MAG (did you mean Mag?); the columns are Id, ra, dec, Mag, flux, kind, SpType"),
    ("SELECT SQRT(mag) FROM Object", "the function SQRT is not answered here; ask for its columns and compute it on the answer"),
    ("SELECT id FROM Object WHERE ra < 10", "ra is kept as a place on the sphere and not as degrees: ingest the catalogue with --degrees to compare ra or to order by it"),
    ("SELECT id FROM Object ORDER BY dec", "a position is kept as a place on the sphere and not as degrees: ingest the catalogue with --degrees to compare it or to order by it"),
    ("SELECT mag/kind FROM Object", "division by a column is not answered here; multiply both sides by it, or divide the answer's columns"),
    ("SELECT mag/0 FROM Object", "the query divides by 0"),
    ("SELECT id FROM Object WHERE mag = 'x'", "'x' is compared with a column of words alone; Mag holds numbers"),
    ("SELECT id FROM Object WHERE SpType = 3", "SpType holds words; compare it with a word in quotes"),
    ("SELECT id FROM Object WHERE SpType < 'G'", "words are compared by =, <>, IN and LIKE alone, and not by <"),
    ("SELECT SpType+1 FROM Object", "SpType holds words, which are not computed with"),
    ("SELECT AVG(SpType) FROM Object", "AVG takes numbers; SpType holds words"),
    ("SELECT MAX(mag)-MIN(mag) FROM Object", "MAX is asked as a column by itself, and not computed or compared with; do so on the answer"),
    ("SELECT SUM(*) FROM Object", "SUM takes a column; only COUNT takes *"),
    ("SELECT COUNT(mag,kind) FROM Object", "COUNT takes one value"),
    ("SELECT *, COUNT(*) FROM Object", "* is not grouped; ask for the columns of GROUP BY and aggregates"),
    ("SELECT mag, COUNT(*) FROM Object GROUP BY kind", "mag is neither in GROUP BY nor in an aggregate"),
    ("SELECT kind, COUNT(*) FROM Object GROUP BY kind, mag, flux, SpType, Id", "GROUP BY takes at most 4 columns here"),
    ("SELECT kind FROM Object ORDER BY 2", "ORDER BY 2 is the place of no column; there are 1"),
    ("SELECT id FROM Object WHERE mag", "WHERE takes conditions; a value stands where one is due"),
    ("SELECT id FROM Object WHERE (mag < 1) + 2 < 3", "a condition stands where a value is due; conditions belong in WHERE"),
    ("SELECT id FROM Object WHERE CONTAINS(POINT(ra,dec),CIRCLE(1,2,3))", "CONTAINS is compared with 1 or 0, as in 1=CONTAINS(POINT(ra,dec),CIRCLE(10,20,0.5))"),
    ("SELECT id FROM Object WHERE CONTAINS(POINT(ra,dec),CIRCLE(1,2,3))=2", "CONTAINS is compared with 1 or 0, by ="),
    ("SELECT id FROM Object WHERE 1=CONTAINS(POINT(ra,dec),CIRCLE(1,2,181))", "the radius 181 of a CIRCLE is outside 0 to 180 degrees"),
    ("SELECT id FROM Object WHERE 1=CONTAINS(POINT(ra,dec),CIRCLE(1,91,1))", "the declination 91 is outside -90 to 90"),
    ("SELECT id FROM Object WHERE 1=CONTAINS(POINT('GALACTIC',ra,dec),CIRCLE(1,2,1))", "the frame is ICRS, and not GALACTIC"),
    ("SELECT id FROM Object WHERE 1=CONTAINS(POINT(dec,ra),CIRCLE(1,2,1))", "a place is the position (ra, dec) of one table, or two numbers of degrees"),
    ("SELECT id FROM Object WHERE 1=CONTAINS(POINT(ra,dec),POLYGON(0,0,1,0,2,0))", "the POLYGON is none: its corners are on one line"),
    ("SELECT id FROM Object WHERE 1=CONTAINS(POINT(ra,dec),POLYGON(0,0,4,0,1,1,0,4))", "the POLYGON is not convex, or half of the sky wide; ask for convex parts of it"),
    ("SELECT id FROM Object WHERE 1=CONTAINS(POINT(ra,dec),POLYGON(0,0,1,1))", "the POLYGON is none: it takes three corners or more that are not on one line"),
    ("SELECT id FROM Object WHERE 1=CONTAINS(POINT(ra,dec),BOX(0,0,0,1))", "a BOX is at least 1e-06 degrees wide, and its height is not negative"),
    ("SELECT id FROM Object WHERE 1=CONTAINS(POINT(ra,dec),BOX(0,100,1,1))", "the declination 100 is outside -90 to 90"),
    ("SELECT id FROM Object WHERE 1=CONTAINS(POINT(ra,dec),BOX(ra,dec,1,1))", "the centre of a BOX is two numbers"),
    ("SELECT id FROM Object WHERE 1=CONTAINS(POINT(ra,dec),BOX(0,1,1))", "a POINT is due, as in POINT(ra,dec) or POINT('ICRS',10,20)"),
    ("SELECT id FROM Object WHERE kind < 1e99*1e99*1e99", "the query has a number beyond 1e200, or nearer to 0 than 1e-200"),
    ("SELECT id FROM Object WHERE DISTANCE(POINT(1,2),POINT(3,4))<1", "a distance is one of a row's own position, as in DISTANCE(POINT(ra,dec),POINT(10,20)) < 0.5"),
    ("SELECT id FROM Object WHERE DISTANCE(POINT(ra,dec),POINT(3,4))=1", "a distance is compared by <, <=, > or >=, or BETWEEN"),
    ("SELECT id FROM Object WHERE DISTANCE(POINT(ra,dec),POINT(3,4))<mag", "what DISTANCE is compared with is a number here, and no column"),
    ("SELECT id FROM Object WHERE 2*DISTANCE(POINT(ra,dec),POINT(3,4))<1", "DISTANCE is compared with a number of degrees in WHERE, or asked as a column by itself"),
    ("SELECT kind*kind*kind FROM Object", "the query computes numbers of more than 100 bits: kind*kind*kind"),
    ("SELECT id FROM Object WHERE " + " OR ".join(["mag<1"] * 700), "the query is too long for the engine; ask it in parts"),
    ("SELECT id FROM Object WHERE kind < " + "+".join(["1"] * 3000), "the query is too long; ask it in parts"),
    ("SELECT id FROM TAP_UPLOAD.mine", "there is no table TAP_UPLOAD.mine; the table is Object"),
]


class Translates(unittest.TestCase):
    def compare(self, cases, is_kept=False):
        for text, want in cases:
            with self.subTest(text):
                self.assertEqual(where(text, is_kept), want)

    def test_comparisons_are_brought_to_whole_numbers(self):
        self.compare(NUMBERS)

    def test_words_become_their_numbers(self):
        self.compare(WORDS)

    def test_areas_and_distances(self):
        self.compare(AREAS)

    def test_beyond_90_degrees_the_opposite_place_is_asked(self):
        # more than 120 degrees from (0,0) is less than 60 from (180,0), a chord of 2^28; doubles are good to some 2^-53 of it
        for text, head in [
            ("DISTANCE(POINT(ra,dec),POINT(0,0)) > 120", "area_cap(-268435456,0,0,"),
            ("1=CONTAINS(POINT(ra,dec),CIRCLE(0,0,120))", "(x+268435456)*(x+268435456)+(y-0)*(y-0)+(z-0)*(z-0)>"),
        ]:
            found = where(text)
            self.assertEqual(found[: len(head)], head)
            self.assertLess(abs(int(found[len(head) :].rstrip(")")) - 2**56), 64)

    def test_kept_degrees_are_compared_as_trillionths(self):
        self.compare([("ra BETWEEN 10 AND 11.5", "ra_deg>=10000000000000 AND ra_deg<=11500000000000"), ("dec < -0.25", "dec_deg<-250000000000")], True)

    def test_a_polygon_is_a_half_space_for_each_side_and_a_cap_around(self):
        found = where("1=CONTAINS(POINT(ra,dec),POLYGON(0,0,90,0,0,90))")
        cap, _, sides = found.partition(" AND ")
        # the octant: x, y and z are at least 0; its middle is at 1/sqrt(3) each, its corners 54.7 degrees from there
        self.assertEqual(sorted(sides[1:-1].split(" AND ")), sorted(f"{2**40}*{axis}>=0" for axis in "xyz"))
        third = round(2**28 / math.sqrt(3))
        middle, n = [int(part) for part in cap[9:-1].split(",")[:3]], int(cap[9:-1].split(",")[3])
        self.assertEqual(middle, [third] * 3)
        far = 2 * 2**28 * math.sin(math.acos(1 / math.sqrt(3)) / 2)
        self.assertTrue(far**2 < n < (far + 2000) ** 2)

    def test_whole_queries(self):
        for text, want in [
            ("SELECT * FROM Object", "SELECT objectId,x,y,z,mag,flux_,kind,sp FROM Object"),
            ("SELECT TOP 5 Id, ra FROM Object ORDER BY mag DESC", "SELECT objectId,x,y,z,mag AS key_ FROM Object ORDER BY key_ DESC LIMIT 5"),
            ("SELECT Id, mag AS m FROM Object ORDER BY M", "SELECT objectId,mag AS key_ FROM Object ORDER BY key_"),
            ("SELECT kind, COUNT(*) AS n, AVG(mag) FROM Object GROUP BY kind ORDER BY n DESC",
             "SELECT kind,COUNT(*) AS key_,AVG(mag) FROM Object GROUP BY kind ORDER BY key_ DESC"),
            ("SELECT kind FROM Object GROUP BY kind ORDER BY SUM(flux)", "SELECT kind,SUM(flux_) AS key_ FROM Object GROUP BY kind ORDER BY key_"),
            ("SELECT a.Id, b.Id, a.mag-b.mag AS dm FROM Object a JOIN Object b ON DISTANCE(POINT(a.ra,a.dec),POINT(b.ra,b.dec))<0.0002777777777777778 WHERE a.Id<b.Id",
             "SELECT a.objectId,b.objectId,a.mag-b.mag FROM Object a,Object b WHERE chord2(a,b)<=1693672 AND a.objectId<b.objectId"),
            ("SELECT p.kind FROM Object q, Object p WHERE 1=CONTAINS(POINT(p.ra,p.dec),CIRCLE(q.ra,q.dec,0)) AND q.mag<p.mag",
             "SELECT b.kind FROM Object a,Object b WHERE chord2(a,b)<=0 AND a.mag<b.mag"),
        ]:
            with self.subTest(text):
                self.assertEqual(sql(text), want)

    def test_maxrec_asks_for_one_row_more(self):
        self.assertEqual(sql("SELECT kind FROM Object", maxrec=10), "SELECT kind FROM Object LIMIT 11")
        self.assertEqual(sql("SELECT TOP 5 kind FROM Object", maxrec=10), "SELECT kind FROM Object LIMIT 5")
        self.assertEqual(sql("SELECT TOP 50 kind FROM Object", maxrec=10), "SELECT kind FROM Object LIMIT 11")

    def test_refusals_are_in_the_users_words(self):
        for text, want in REFUSED:
            with self.subTest(text[:100]), self.assertRaises(SkyqError) as caught:
                translate(text.replace("SELECT id FROM", "SELECT Id FROM"), catalogue())
            self.assertEqual(str(caught.exception), want)

    def test_what_the_engine_refuses_is_told_in_arc_seconds(self):
        made = translate("SELECT a.Id FROM Object a, Object b WHERE DISTANCE(POINT(a.ra,a.dec),POINT(b.ra,b.dec))<=0.05", catalogue())
        for why, want in [
            ("radius 54875002000 above 6097569569", "pairs within 180 arcsec reach past the overlap of this catalogue, 60 arcsec: ingest it with --overlap 180arcsec"),
            ("total 1267650600228229401496703205377 out of range", "a sum passes 100 bits, which is all that the engine holds"),
            ("brackets too deep at 70", "the query has too many brackets within brackets"),
            ("out of memory", "the engine was out of memory in this query; ask for fewer rows"),
            ("not a query", "the engine does not answer it: not a query"),
        ]:
            self.assertEqual(refusal(why, made, catalogue()), want)


if __name__ == "__main__":
    unittest.main()
