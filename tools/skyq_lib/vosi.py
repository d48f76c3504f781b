"""The documents by which a TAP service says what it can do: capabilities and availability."""
from skyq_lib import votable
from skyq_lib.markup import HEAD, text

GEOMETRY = ("POINT", "CIRCLE", "BOX", "POLYGON", "CONTAINS", "INTERSECTS", "DISTANCE")
LANGUAGES = ("2.0", "2.1")
# The name that RESPONSEFORMAT takes, the type of the content, and TAPRegExt's name where it has one.
FORMATS = {
    "votable": (f"{votable.MIME};serialization=BINARY2", "ivo://ivoa.net/std/TAPRegExt#output-votable-binary2"),
    "votable/td": (f"{votable.MIME};serialization=TABLEDATA", "ivo://ivoa.net/std/TAPRegExt#output-votable-td"),
    "csv": ("text/csv;header=present", None),
    "fits": ("application/fits", None),
}


def format_of(word):
    """The format that a RESPONSEFORMAT means, or None."""
    word = word.strip().lower().replace(" ", "")
    if word in FORMATS:
        return word
    for name, (mime, _) in FORMATS.items():
        if word == mime.lower():
            return name
    if word in ("text/xml", "application/xml", votable.MIME):
        return "votable"
    return {"text/csv": "csv", "image/fits": "fits"}.get(word)


def availability():
    return (f'{HEAD}<vosi:availability xmlns:vosi="http://www.ivoa.net/xml/VOSIAvailability/v1.0">'
            "<vosi:available>true</vosi:available></vosi:availability>")


def interface(url, use, more=""):
    return f'<interface xsi:type="vs:ParamHTTP" role="std"{more}><accessURL use="{use}">{text(url)}</accessURL></interface>'


def capabilities(base, limits):
    """The document of /capabilities; limits has the rows, seconds and bytes that the service gives."""
    features = "".join(f"<feature><form>{name}</form></feature>" for name in GEOMETRY)
    versions = "".join(f'<version ivo-id="ivo://ivoa.net/std/ADQL#v{number}">{number}</version>' for number in LANGUAGES)
    formats = "".join(
        f"<outputFormat{f' ivo-id={chr(34)}{ivo}{chr(34)}' if ivo else ''}><mime>{mime}</mime><alias>{name}</alias></outputFormat>"
        for name, (mime, ivo) in FORMATS.items()
    )
    others = "".join(
        f'<capability standardID="ivo://ivoa.net/std/VOSI#{name}">{interface(f"{base}/{name}", "full")}</capability>'
        for name in ("capabilities", "tables", "availability")
    )
    version = ' version="1.1"'
    return (
        f'{HEAD}<vosi:capabilities xmlns:vosi="http://www.ivoa.net/xml/VOSICapabilities/v1.0"'
        ' xmlns:vr="http://www.ivoa.net/xml/VOResource/v1.0" xmlns:vs="http://www.ivoa.net/xml/VODataService/v1.1"'
        ' xmlns:tr="http://www.ivoa.net/xml/TAPRegExt/v1.0" xmlns:xsi="http://www.w3.org/2001/XMLSchema-instance">'
        f'<capability standardID="ivo://ivoa.net/std/TAP" xsi:type="tr:TableAccess">{interface(base, "base", version)}'
        f"<language><name>ADQL</name>{versions}<description>queries of one table, and of near pairs of its objects</description>"
        f'<languageFeatures type="ivo://ivoa.net/std/TAPRegExt#features-adqlgeo">{features}</languageFeatures></language>'
        f"{formats}<retentionPeriod><default>86400</default><hard>604800</hard></retentionPeriod>"
        f"<executionDuration><default>{limits.job_seconds}</default><hard>{limits.longest}</hard></executionDuration>"
        f'<outputLimit><default unit="row">{limits.maxrec}</default><hard unit="row">{limits.most_rows}</hard></outputLimit></capability>'
        f"{others}</vosi:capabilities>"
    )
